"""A login and a frame have a time, for the whole and not for each read.

Brokers with a second for each, or with four: a connection that says nothing is closed after about that time, and one that sends
whole requests before a login too, whether it reads the answers or not, while one that has logged in stays open. Connections that
say nothing and have waited for a worker as long are closed after a quarter of a second each. A peer that sends a byte of a request
now and then is closed after about that time, also where the first byte of that request came together with the end of the one
before; a request that comes slowly and in time is answered. Where one worker is held by such a peer, a client that waits is
answered soon after.
Each time the operator is told which time was over.
"""

import contextlib
import threading
import time
import unittest

from kbroker_testing.broker import ClockedKbroker
from kbroker_testing.protocol import logged_in, request_frame
from tests.server.told import NOBODY, OF_SESSION, counted, text_of, without_waits
from tests.support import OF_ROOT, connect

SECOND = 1.0  # the time of a login, and of a frame
MORE = 4  # seconds that these have where the test has to keep them itself
WAITED = 0.25  # seconds that one has at least which has waited for a worker
EARLY, LATE = 0.05, 5.0  # seconds before and after its end in which a connection may be closed
DRIP = 0.2  # seconds between two bytes
BOUND = 10  # seconds that any wait may take


def metadata(correlation=1):
    """The frame of a request for all topics."""
    return request_frame("Metadata", correlation, {"topics": None})


def versions():
    """The frame of a request that is answered before a login."""
    return request_frame("ApiVersions", 1, {})


def drip(peer, data):
    """Sends bytes one by one until the peer is closed or BOUND has passed, in a thread of its own."""

    def run():
        try:
            for byte in data[: int(BOUND / DRIP)]:
                peer.sendall(bytes([byte]))
                time.sleep(DRIP)
        except OSError:
            pass  # it is closed

    thread = threading.Thread(target=run)
    thread.start()
    return thread


def told_of(session, user, what, seconds=1):
    """The line of a session that was closed for its time."""
    return OF_SESSION.format(session, user, f"{what} took longer than {seconds} second{'s' * (seconds > 1)}")


class Deadlines(unittest.TestCase):
    def assert_about(self, took, seconds=SECOND):
        self.assertGreater(took, seconds - EARLY)
        self.assertLess(took, seconds + LATE)

    def assert_closes(self, peer, began, seconds=SECOND):
        """Waits until the broker closes the connection, which has to be about so long after a moment."""
        try:
            said = peer.recv(1)
        except ConnectionResetError:
            said = b""
        took = time.monotonic() - began
        self.assertEqual(said, b"", "the broker says something")
        self.assert_about(took, seconds)

    def assert_answered(self, client):
        self.assertTrue(client.ask("Metadata", topics=None)["brokers"], "the client gets no answer")

    def test_a_silent_peer(self):
        """It is closed in its login's time, and one that has logged in isn't."""
        with ClockedKbroker(OF_ROOT, workers=2, connections=2, more=("--login-within", str(MORE))) as broker:
            with logged_in(broker.address, timeout=BOUND) as client:
                began = time.monotonic()
                with connect(broker.address, BOUND) as silent:
                    self.assert_closes(silent, began, MORE)
                time.sleep(SECOND)
                self.assert_answered(client)
            settled, told = broker.settled()
        self.assertEqual((settled.sessions, told), (2, [told_of(1, NOBODY, "its login", MORE)]))

    def test_silent_peers_that_have_waited(self):
        """The wait for the one worker is taken off their time, of which a quarter of a second is left."""
        silent = 9
        with ClockedKbroker(OF_ROOT, workers=1, connections=silent, more=("--login-within", str(MORE))) as broker:
            began = time.monotonic()
            with contextlib.ExitStack() as stack:
                for peer in [stack.enter_context(connect(broker.address, silent * MORE + LATE)) for _ in range(silent)]:
                    self.assertEqual(peer.recv(1), b"", "the broker says something")
                took = time.monotonic() - began
            _, told = broker.settled()
        self.assertGreater(took, MORE - EARLY + (silent - 1) * (WAITED - EARLY))
        self.assertLess(took, MORE + (silent - 1) * WAITED + LATE)
        self.assertEqual(counted(without_waits(told)), {text_of(told_of(0, NOBODY, "its login", MORE)): silent})

    def test_requests_before_a_login(self):
        """Whole requests don't make a login's time longer."""
        with ClockedKbroker(OF_ROOT, more=("--login-within", str(MORE))) as broker:
            began, answers = time.monotonic(), 0
            with connect(broker.address, BOUND) as peer:
                try:
                    while time.monotonic() - began < BOUND:
                        peer.sendall(versions())
                        answers += bool(peer.recv(4_096))
                        time.sleep(DRIP)
                except OSError:
                    pass  # it is closed
            took = time.monotonic() - began
            _, told = broker.settled()
        self.assertTrue(answers)
        self.assert_about(took, MORE)
        self.assertEqual(told, [told_of(0, NOBODY, "its login", MORE)])

    def test_answers_that_nobody_reads(self):
        """A peer that asks before a login and doesn't read isn't waited for any longer than a silent one."""
        with ClockedKbroker(OF_ROOT, more=("--login-within", str(MORE))) as broker:
            began, asked, sent, is_full = time.monotonic(), versions() * 1_000, 0, False
            with connect(broker.address, BOUND) as peer:
                peer.settimeout(DRIP)
                while not broker.told() and time.monotonic() - began < BOUND:
                    try:
                        sent = (sent + peer.send(asked[sent:])) % len(asked)
                    except TimeoutError:
                        is_full = True
                    except OSError:
                        break  # it is closed
                took = time.monotonic() - began
                _, told = broker.settled()
        self.assertTrue(is_full, "no answer had to wait")
        self.assert_about(took, MORE)
        self.assertEqual(told, [told_of(0, NOBODY, "its login", MORE)])

    def assert_cut_off_dripping(self, peer, data, began, seconds=SECOND):
        """Sends bytes one by one over a connection, which has to be closed so long after this moment."""
        dripping = drip(peer, data)
        self.addCleanup(dripping.join)
        self.assert_closes(peer, began, seconds)
        dripping.join()

    def assert_a_frame_took_too_long(self, broker, seconds=1):
        """That is all that the operator is told."""
        _, told = broker.settled()
        self.assertEqual(told, [told_of(0, "User:root", "a frame", seconds)])

    def test_a_dripping_peer(self):
        """It is closed in the time of its frame, which begins with the first byte, and is told as what it is."""
        with ClockedKbroker(OF_ROOT, more=("--frame-within", "1")) as broker:
            with logged_in(broker.address, timeout=BOUND) as client:
                time.sleep(SECOND + DRIP)  # between frames there is no time
                self.assert_answered(client)
                self.assert_cut_off_dripping(client.socket, metadata(), time.monotonic())
            self.assert_a_frame_took_too_long(broker)

    def test_a_frame_that_begins_with_another(self):
        """Its first byte comes with the end of the frame before, and its time begins then."""
        with ClockedKbroker(OF_ROOT, more=("--frame-within", str(MORE))) as broker:
            with logged_in(broker.address, timeout=BOUND) as client:
                frame = metadata(3)
                client.socket.sendall(frame[:-4])
                time.sleep(SECOND)
                began = time.monotonic()
                client.socket.sendall(frame[-4:] + frame[:1])
                self.assertEqual(client.receive("Metadata")[0], 3, "the first frame gets no answer")
                self.assert_cut_off_dripping(client.socket, frame[1:], began, MORE)
            self.assert_a_frame_took_too_long(broker, MORE)

    def test_slow_and_timely_frames(self):
        """Each has its own time, and all together take longer."""
        with ClockedKbroker(OF_ROOT, more=("--frame-within", str(MORE))) as broker:
            with logged_in(broker.address, timeout=BOUND) as client:
                for correlation in range(3, 6):
                    frame = metadata(correlation)
                    for start in range(0, len(frame), len(frame) // 3):
                        client.socket.sendall(frame[start : start + len(frame) // 3])
                        time.sleep(3 * DRIP)
                    self.assertEqual(client.receive("Metadata")[0], correlation, "a slow frame gets no answer")
            _, told = broker.settled()
        self.assertEqual(told, [])

    def test_a_client_that_waits(self):
        """Where the one worker is held by a peer that drips, a client that waits after it is answered once that is closed."""
        with ClockedKbroker(OF_ROOT, workers=1, connections=2, more=("--frame-within", "1")) as broker:
            with connect(broker.address, BOUND) as held:
                began = time.monotonic()
                dripping = drip(held, metadata())
                self.addCleanup(dripping.join)
                with logged_in(broker.address, timeout=BOUND) as client:
                    took = time.monotonic() - began
                    self.assert_answered(client)
                dripping.join()
            _, told = broker.settled()
        self.assertLess(took, SECOND + LATE, "so long the client waited")
        # (whether the client has waited for a whole second when it is told of the peer is a matter of milliseconds)
        self.assertEqual(without_waits(told), [told_of(0, NOBODY, "a frame")])

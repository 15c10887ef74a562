"""What an operator is told on standard error: when, and how much it matters; of many sessions alike; of peers that speak another
protocol; how much was asked; and that nobody can be told where the server listens."""

import contextlib
import os
import re
import ssl
import subprocess
import time
import unittest
from datetime import datetime, timedelta, timezone

from kbroker_testing.broker import LAST, REQUESTS, STAMP, ClockedKbroker, Kbroker, without_stamps
from kbroker_testing.codes import Code
from kbroker_testing.protocol import batch, in_partition, logged_in, partition_of
from kbroker_testing.waiting import wait_until
from tests.server.session_bytes import HANDSHAKE, framed
from tests.server.told import (
    BAD_FRAME,
    CLOCK_STOPS,
    FULL,
    LOGS_IN,
    MALFORMED,
    NEARLY_FULL,
    NO_LOGIN,
    asked,
    counted,
    of_nobody,
    of_user,
    text_of,
)
from tests.support import LISTEN, OF_ROOT, TOP, connect, of_b, run_server, topic, user

SETTINGS = OF_ROOT + user("ann", "pw") + topic("b")
# RFC 3339: a moment in UTC, to the millisecond; its level; and the line.
STAMPED = re.compile(r"(\d{4}-\d\d-\d\dT\d\d:\d\d:\d\d\.\d{3}Z) (INFO|WARN) (.*)")
# An api and the number of its requests, and how many of their parts were refused.
OF_API = re.compile(r"(\w+) (\d+)(?: \((\d+) refusals?\))?")
# Metadata in a version that isn't served, and what is told of whoever asks it before a login and after it.
METADATA_IN_NINE = framed(3, 9, 3, None, b"")
NINE = "asks Metadata in version 9, which isn't served: 1 is"

TLS = "its first bytes look like TLS, which isn't served: clients take security.protocol=SASL_PLAINTEXT"
HTTP = "its first bytes look like HTTP, which isn't served"
QUIET, LATE = 10, 5  # seconds in which nothing is told, and as many before their end
NOT_WRITTEN = "kbroker: standard output: where the server listens can't be written\n"


def moment_of(text):
    """The moment of a stamp."""
    return datetime.strptime(text, "%Y-%m-%dT%H:%M:%S.%f%z")


def read_whole(terminal):
    """What was written to a terminal that nobody has open any more."""
    pieces = []
    with contextlib.suppress(OSError):  # which tells its end
        while piece := os.read(terminal, 1 << 16):
            pieces.append(piece)
    return b"".join(pieces).decode()


class ToldCase(unittest.TestCase):
    def fail_to_log_in(self, broker):
        """A user tells another password."""
        with connect(broker.address) as peer:
            login = framed(36, 0, 2, None, b"\0\0\0\x08\0ann\0not")
            peer.sendall(bytes.fromhex(HANDSHAKE + login))
            while peer.recv(1 << 10):
                pass

    def be_refused(self, broker, times=1):
        """A user writes what it may not."""
        with logged_in(broker.address, "ann", "pw") as client:
            for _ in range(times):
                answer = client.ask("Produce", topics=of_b(records=batch([b"x"])))
                self.assertEqual(partition_of(answer)["error"], Code.TOPIC_AUTHORIZATION_FAILED)

    def ask_unserved(self, broker, frame):
        """A user asks what isn't served, and is closed."""
        with logged_in(broker.address, "ann", "pw") as client:
            client.socket.sendall(bytes.fromhex(frame))
            self.assertEqual(client.input.read(), b"")


class Stamps(ToldCase):
    """The time and the level before each line."""

    def raw(self, **options):
        """What a broker tells on standard error, as it stands there, of a login that fails and of three refused writes."""
        with ClockedKbroker(SETTINGS, connections=2, **options) as broker:
            self.fail_to_log_in(broker)
            self.be_refused(broker, times=3)
            status, said, errors = broker.wait()
        self.assertEqual(status, 0)
        self.assertRegex(said, LAST)
        return errors

    def assert_texts(self, lines):
        """All is told, in the order in which it happened."""
        self.assertRegex(lines[0], r"^kbroker: version \S+ as node 1: ")
        self.assertRegex(lines[1], "^kbroker: warning: clients are told port 9092")
        middle = [it for it in lines[2:-1] if not it.startswith("kbroker: no more connections are taken")]
        refusals = ["unmatched WRITE Topic b User:ann 127.0.0.1"] * 3
        self.assertEqual(middle, [asked(0, LOGS_IN.format("ann")), of_nobody(0, NO_LOGIN), *refusals])
        self.assertRegex(lines[-1], REQUESTS)

    def test_a_file_and_a_pipe(self):
        """Each line has the moment at which it was told, in order, and its level."""
        for errors in (None, subprocess.PIPE):
            with self.subTest(errors=errors):
                began = datetime.now(timezone.utc) - timedelta(milliseconds=1)
                told = self.raw(more=("--audit", "-"), errors=errors)
                ended = datetime.now(timezone.utc)
                found = [STAMPED.fullmatch(line) for line in told.splitlines()]
                self.assertNotIn(None, found, told)
                self.assert_texts([it[3] for it in found])
                moments = [moment_of(it[1]) for it in found]
                self.assertEqual(moments, sorted(moments))
                self.assertLessEqual(began, moments[0])
                self.assertLessEqual(moments[-1], ended)
                self.assertEqual([number for number, it in enumerate(found) if it[2] == "WARN"], [1])

    def test_a_line_has_the_moment_at_which_it_was_told(self):
        """And not that at which the server ends."""
        with ClockedKbroker(SETTINGS, connections=2) as broker:
            self.fail_to_log_in(broker)
            wait_until(lambda: asked(0, LOGS_IN.format("ann")) in broker.told(), otherwise="the failed login isn't told")
            seen = datetime.now(timezone.utc)
            time.sleep(1)
            self.fail_to_log_in(broker)
            told = broker.wait()[2]
        found = [STAMPED.fullmatch(line) for line in told.splitlines()]
        last = moment_of(found[-1][1])
        [failed] = [moment_of(it[1]) for it in found if it[3] == asked(0, LOGS_IN.format("ann"))]
        self.assertLessEqual(failed, seen)
        self.assertGreater(last - failed, timedelta(seconds=0.9))

    def test_levels(self):
        """Those of a trail that fills up, of which somebody has to take care, and of a session that ends on it."""
        with ClockedKbroker("trail_limit = 5\n" + SETTINGS) as broker:
            wait_until(lambda: len(broker.told()) == 2, otherwise="it is not told that the trail is full")
            with logged_in(broker.address) as client:
                client.send("Metadata", topics=None)
                self.assertEqual(client.input.read(), b"")
            told = broker.wait()[2]
        levels = {it[3]: it[2] for it in map(STAMPED.fullmatch, told.splitlines())}
        wanted = {NEARLY_FULL.format(5, 5): "WARN", CLOCK_STOPS.format(FULL): "WARN", of_user(0, "root", FULL): "INFO"}
        self.assertEqual({it: levels.get(it) for it in wanted}, wanted)

    def on_a_terminal(self, *more):
        """The same told on a terminal."""
        terminal, there = os.openpty()
        try:
            with open(there, "wb", buffering=0) as errors:
                self.raw(more=("--audit", "-", *more), errors=errors)
            return read_whole(terminal)
        finally:
            os.close(terminal)

    def test_a_terminal(self):
        """There somebody looks at it as it happens: lines have neither."""
        self.assert_texts(self.on_a_terminal().splitlines())

    def test_a_terminal_where_times_are_wanted(self):
        found = [STAMPED.fullmatch(line) for line in self.on_a_terminal("--log-times").splitlines()]
        self.assertNotIn(None, found)
        self.assert_texts([it[3] for it in found])

    def test_times_that_are_wanted_twice(self):
        """Where standard error is no terminal the flag changes nothing."""
        found = [STAMPED.fullmatch(line) for line in self.raw(more=("--audit", "-", "--log-times")).splitlines()]
        self.assertNotIn(None, found)
        self.assert_texts([it[3] for it in found])

    def test_what_is_told_before_it_serves(self):
        """It has neither: a fault of settings, an address that can't be listened on, and a warning of settings."""
        for more in ((), ("--log-times",)):
            with self.subTest(more=more):
                for words, settings in ((LISTEN, "node_id = "), (("--listen", "192.0.2.1:9092"), SETTINGS)):
                    status, _, told = run_server((*words, *more), settings)
                    self.assertEqual(status, 1)
                    self.assertTrue(told.startswith("kbroker: "), told)
                    self.assertIsNone(STAMP.search(told), told)
                status, _, told = run_server((*LISTEN, "--for", "1", *more), TOP)
                self.assertEqual(status, 0)
                first, *others = told.splitlines()
                self.assertTrue(first.startswith("kbroker: settings: warning: there is no `[[user]]`"), first)
                self.assertEqual([bool(STAMPED.fullmatch(it)) for it in others], [True] * 3)


class Alike(ToldCase):
    """Sessions of which the same is told."""

    def test_twelve_sessions(self):
        """The first is told in full, ten more once they are ten, and the last one by the end."""
        with ClockedKbroker(SETTINGS, connections=12) as broker:
            for number in range(12):
                self.ask_unserved(broker, METADATA_IN_NINE)
                if number == 10:
                    more = f"kbroker: 10 more sessions, up to session 10: {NINE}"
                    wait_until(lambda: more in broker.told(), otherwise="it isn't told that there were ten more")
            settled, told = broker.settled()
        self.assertEqual(settled.sessions, 12)
        lines = [line for line in told if line.endswith(NINE)]
        self.assertEqual(lines[:2], [asked(0, NINE), more])
        self.assertEqual(counted(lines[2:]), {NINE: 1})
        self.assertIn(" session 11", lines[2])
        self.assertEqual(counted(told), {NINE: 12, text_of(of_user(0, "ann", MALFORMED)): 12})
        self.assertEqual(len(told), 6)

    def test_something_else(self):
        """How many more there were is told once other things were; and the next one is told in full."""
        others = [framed(1_000 + it, 0, 3, None, b"") for it in range(6)]
        with ClockedKbroker(SETTINGS, connections=10) as broker:
            for frame in (*[METADATA_IN_NINE] * 3, *others):
                self.ask_unserved(broker, frame)
            more = f"kbroker: 2 more sessions, up to session 2: {NINE}"
            wait_until(lambda: more in broker.told(), otherwise="it isn't told that there were two more")
            self.ask_unserved(broker, METADATA_IN_NINE)
            _, told = broker.settled()
        of_others = [asked(3 + it, f"asks api {1_000 + it}, which isn't served") for it in range(len(others))]
        self.assertEqual([it for it in told if "asks api" in it], of_others)
        self.assertEqual([it for it in told if it.endswith(NINE)], [asked(0, NINE), more, asked(9, NINE)])
        self.assertEqual(counted(told)[text_of(of_user(0, "ann", MALFORMED))], 10)

    def test_a_quiet_time(self):
        """How many more there were is told once nothing was told for ten seconds."""
        with ClockedKbroker(SETTINGS, connections=4) as broker:
            for _ in range(3):
                self.ask_unserved(broker, METADATA_IN_NINE)
            more = f"kbroker: 2 more sessions, up to session 2: {NINE}"
            time.sleep(QUIET - LATE)
            self.assertNotIn(more, broker.told())
            wait_until(lambda: more in broker.told(), otherwise="it isn't told that there were two more")
            self.ask_unserved(broker, METADATA_IN_NINE)
            _, told = broker.settled()
        self.assertEqual([it for it in told if it.endswith(NINE)], [asked(0, NINE), more, asked(3, NINE)])

    def test_two_kinds_in_turn(self):
        """Each is counted by itself."""
        with ClockedKbroker(SETTINGS, connections=24) as broker:
            for _ in range(12):
                self.ask_unserved(broker, METADATA_IN_NINE)
                self.fail_to_log_in(broker)
            _, told = broker.settled()
        texts = (NINE, text_of(of_user(0, "ann", MALFORMED)), LOGS_IN.format("ann"), text_of(of_nobody(0, NO_LOGIN)))
        self.assertEqual(counted(told), dict.fromkeys(texts, 12))
        self.assertEqual(len(told), 3 * len(texts))


class Requests(ToldCase):
    """How much was asked."""

    def assert_counted(self, line, settled, marks, apis):
        """A line tells of so many marks, and, in this order, how many requests of each api there were and how many of their parts
        were refused. All requests, ticks and marks are the events of the last line. Gives how many ticks there were."""
        found = REQUESTS.fullmatch(line)
        self.assertIsNotNone(found, line)
        requests, ticks = int(found[1]), int(found[2])
        told = [OF_API.fullmatch(it).groups() for it in found[4].split(", ")] if found[4] else []
        self.assertEqual([(name, int(count), int(refused or 0)) for name, count, refused in told], apis)
        self.assertEqual((requests, int(found[3])), (sum(count for _, count, _ in apis), marks))
        self.assertEqual(requests + ticks + marks, settled[1])
        self.assertEqual(sum(refused for *_, refused in apis), settled[2])
        return ticks

    def ask_all(self, client):
        """Three kinds of requests, and a transaction."""
        for _ in range(2):
            client.ask("Metadata", topics=None)
        client.ask("ApiVersions")
        client.ask("Fetch", topics=of_b(offset=0, max_bytes=1_000))
        given = client.ask("InitProducerId", transactional_id="t", timeout=60_000)
        who = {"transactional_id": "t", "producer": given["producer"], "epoch": given["epoch"]}
        client.ask("AddPartitionsToTxn", **who, topics=[{"topic": "b", "partitions": [0]}])
        for api in ("EndTxn", "EndTxn2"):
            client.ask(api, **who, committed=True)

    # What is told of it, beside of so many refused Produces.
    ALL = [("Fetch", 1, 0), ("Metadata", 2, 0), ("ApiVersions", 1, 0), ("InitProducerId", 1, 0)]
    OF_TRANSACTION = [("AddPartitionsToTxn", 1, 0), ("EndTxn", 2, 0)]

    def test_a_broker_that_keeps_its_time(self):
        """The line comes right before the last one of standard output."""
        options = {"workers": 1, "connections": 2, "more": ("--audit", "-"), "errors": subprocess.STDOUT}
        with ClockedKbroker(SETTINGS, **options) as broker:
            self.be_refused(broker, times=3)
            with logged_in(broker.address) as client:
                self.ask_all(client)
            status, said, _ = broker.wait()
        self.assertEqual(status, 0)
        *_, line, last = without_stamps(said).splitlines(keepends=True)
        settled = tuple(map(int, LAST.fullmatch(last).groups()))
        apis = [("Produce", 3, 3), *self.ALL, *self.OF_TRANSACTION]
        self.assertGreater(self.assert_counted(line.rstrip("\n"), settled, 1, apis), 0)

    def test_a_steered_broker(self):
        """There the numbers of ticks and of marks are known: a mark counts though no marker is pending."""
        with Kbroker(SETTINGS) as broker:
            self.be_refused(broker)
            with logged_in(broker.address) as client:
                self.ask_all(client)
            self.assertEqual(len(broker.marks()), 1)
            self.assertIsNone(broker.mark())
            for moment in (1, 2, 70_000):
                broker.tick(moment)
            events = broker.state().events
            status, said, errors = broker.wait("end\n")
        self.assertEqual(status, 0)
        settled = tuple(map(int, LAST.fullmatch(said).groups()))
        self.assertEqual(settled[1], events)
        [line] = [it for it in without_stamps(errors).splitlines() if REQUESTS.fullmatch(it)]
        self.assertIn("; Produce 1 (1 refusal), ", line)
        apis = [("Produce", 1, 1), *self.ALL, *self.OF_TRANSACTION]
        self.assertEqual(self.assert_counted(line, settled, 2, apis), 3)

    def test_nobody_asks(self):
        with Kbroker(SETTINGS) as broker:
            broker.tick(1)
            errors = broker.wait("end\n")[2]
        self.assertEqual(without_stamps(errors).splitlines()[-1], "kbroker: requests 0, ticks 1, marks 0")

    def test_parts_that_are_refused(self):
        """Of one request each counts."""
        with Kbroker(SETTINGS + topic("c")) as broker:
            with logged_in(broker.address, "ann", "pw") as client:
                records = batch([b"x"])
                topics = [it for name in "bc" for it in in_partition((name, 0), records=records)]
                client.ask("Produce", topics=topics)
            errors = broker.wait("end\n")[2]
        line = "kbroker: requests 1, ticks 0, marks 0; Produce 1 (2 refusals)"
        self.assertEqual(without_stamps(errors).splitlines()[-1], line)


def client_hello():
    """The first bytes of a client that speaks TLS."""
    came, sent = ssl.MemoryBIO(), ssl.MemoryBIO()
    peer = ssl.create_default_context().wrap_bio(came, sent, server_hostname="broker.example")
    with contextlib.suppress(ssl.SSLWantReadError):
        peer.do_handshake()
    return sent.read()


class Foreign(ToldCase):
    """Peers that speak another protocol."""

    def told_of(self, first, user_name=None):
        """What is told of a session whose first bytes are these, or those after its login."""
        with ClockedKbroker(SETTINGS) as broker:
            with logged_in(broker.address, user_name, "pw") if user_name else connect(broker.address) as peer:
                peer = peer.socket if user_name else peer
                peer.sendall(first)
                with contextlib.suppress(ConnectionResetError):  # since it doesn't read all of them
                    self.assertEqual(peer.recv(1), b"", "it is answered")
            settled, told = broker.settled()
        self.assertEqual((settled.sessions, settled.refusals), (1, 0))
        return told

    def test_tls(self):
        hello = client_hello()
        self.assertEqual(hello[0], 22)
        self.assertEqual(self.told_of(hello), [of_nobody(0, TLS)])

    def test_http(self):
        for method in (b"GET", b"HEAD", b"POST", b"PUT", b"OPTIONS"):
            with self.subTest(method=method):
                request = method + b" / HTTP/1.1\r\nHost: 127.0.0.1:9092\r\nUser-Agent: curl/7.88.1\r\nAccept: */*\r\n\r\n"
                self.assertEqual(self.told_of(request), [of_nobody(0, HTTP)])

    def test_neither(self):
        """Other bytes that are no frame's size, and those of TLS that come later, are told as what they are."""
        self.assertEqual(self.told_of(b"SSH-2.0-OpenSSH_9.2p1\r\n"), [of_nobody(0, BAD_FRAME)])
        self.assertEqual(self.told_of(client_hello(), "ann"), [of_user(0, "ann", BAD_FRAME)])

    def test_a_client_of_tls(self):
        """It fails, and the operator is told why."""
        with ClockedKbroker(SETTINGS) as broker:
            with connect(broker.address) as peer, self.assertRaises(OSError):
                context = ssl.create_default_context()
                context.wrap_socket(peer, server_hostname="broker.example")
            _, told = broker.settled()
        self.assertEqual(told, [of_nobody(0, TLS)])


class StandardOutput(unittest.TestCase):
    def test_a_first_line_that_cannot_be_written(self):
        with open("/dev/full", "wb") as full:
            self.assertEqual(run_server(LISTEN, SETTINGS, stdout=full), (1, "", NOT_WRITTEN))

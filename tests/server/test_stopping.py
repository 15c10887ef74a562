"""A server is stopped by the end of its standard input, by a line, by the time of `--for`, and by signals to `./kbroker`.

Whatever its connections do then, the last line comes within the grace, and says that the books are settled: connections that say
nothing, one in the middle of a request, a Fetch that is held back, peers that read no answer, a user that has to wait, and 64
connections that ask all the time. Answers that are due are written first. After `./kbroker` no process is left.
"""

import contextlib
import os
import random
import select
import signal
import subprocess
import tempfile
import threading
import time
import unittest
from itertools import pairwise
from pathlib import Path
from statistics import median

from kbroker_testing.broker import LAST, BrokerProcess, ClockedKbroker
from kbroker_testing.codes import Code
from kbroker_testing.protocol import batch, logged_in, partition_of, request_frame
from kbroker_testing.waiting import wait_until
from program import ROOT
from tests.server.told import CLOCK_STOPS, CLOSED, CUT, FULL, WRITE_FAILED, of_nobody, of_user, without_waits
from tests.support import LISTEN, OF_ROOT, connect, is_read, needs_proved_program, of_b, topic, user

SETTINGS = OF_ROOT + topic("b")
GRACE = 5  # seconds, if nothing is said of it
LATE = 3.5  # seconds after the grace in which the last line comes; less than GRACE, so that a needless wait for it shows
MOST = 64  # connections at once
UNREAD = 32  # MB of an answer
DRAWN = 3  # rounds of connections that ask all the time
PRODUCED = [batch([bytes(size)]) for size in (1, 100, 100_000)]  # their check sums take this test long, so they are made once
READ_WITHIN = 60  # seconds in which 64 threads of this test read what was sent before the connections were closed
STARTED_WITHIN = 0.5  # seconds
ROUNDS = 50  # stops, of which one has to come within the 0.1 seconds for which an answer is held back
FAILED = [of_user(number, "root", WRITE_FAILED) for number in (1, 2)]
CONTROL_ALONE = ("tick 1", "mark", "marks", "stop", "")
UNREADABLE = "kbroker: a line of standard input can't be read: there are `audit`, `state` and `end`"


class Stopped(BrokerProcess):
    """A broker that keeps its time itself until its standard input ends."""

    def words(self, settings):
        return ["--stop-with-input", "--settings", settings.name], subprocess.PIPE


class Wrapped(BrokerProcess):
    """A broker that `./kbroker` starts, in a folder in which no source is newer than the program."""

    def __enter__(self):
        with contextlib.ExitStack() as stack:
            root = Path(stack.enter_context(tempfile.TemporaryDirectory()))
            (root / "tools").mkdir()
            (root / "crates/kbroker/out").mkdir(parents=True)
            (root / "crates/kbroker/out/kbroker").symlink_to(Path(self.program).resolve())
            chosen = root / "tools/chosen.py"
            chosen.write_text(f"#!/bin/sh\necho {root}/crates/kbroker/out/kbroker\n")
            chosen.chmod(0o755)
            (root / "kbroker").write_bytes((ROOT / "kbroker").read_bytes())
            (root / "kbroker").chmod(0o755)
            self.program = str(root / "kbroker")
            super().__enter__()
            self.stack = stack.pop_all()
        return self

    def __exit__(self, *given):
        super().__exit__(*given)
        self.stack.close()

    def words(self, settings):
        return ["--settings", settings.name], subprocess.DEVNULL

    def children(self):
        """The processes that the shell has started."""
        with open(f"/proc/{self.process.pid}/task/{self.process.pid}/children", encoding="ascii") as it:
            return [int(word) for word in it.read().split()]


def is_running(process):
    """Whether there is a process of this number that hasn't ended."""
    try:
        stat = Path(f"/proc/{process}/stat").read_text(encoding="utf-8")
    except FileNotFoundError:
        return False
    return stat.rpartition(")")[2].split()[0] != "Z"


class StoppingCase(unittest.TestCase):
    def assert_stops(self, broker, grace, line=None):
        """Ends standard input, or says a line before, and gives what the settled broker did and what it told."""
        began = time.monotonic()
        settled, told = broker.settled(line, timeout=30)
        self.assertLess(time.monotonic() - began, grace + LATE)
        return settled, without_waits(told)

    def ask_unread(self, client):
        """Asks for more than the sockets of both ends hold, and reads nothing of it."""
        answer = client.ask("Produce", topics=of_b(records=batch([bytes(1_000_000)])))
        self.assertEqual(partition_of(answer)["error"], Code.NONE)
        client.send("Fetch", max_bytes=UNREAD << 20, topics=of_b(offset=0, max_bytes=1 << 20) * UNREAD)
        wait_until(lambda: is_read(client.socket), otherwise="the request isn't read")

    def assert_closed(self, peer):
        """Nothing more comes."""
        with contextlib.suppress(ConnectionResetError):
            self.assertEqual(peer.recv(1), b"")


class Inputs(StoppingCase):
    """The end of standard input, or a line."""

    def test_nobody(self):
        with Stopped(SETTINGS) as broker:
            settled, told = self.assert_stops(broker, 0)
        self.assertEqual((settled.sessions, settled.refusals, told), (0, 0, []))

    def test_connections_that_say_nothing(self):
        """Some have logged in, one hasn't, and one waits for a worker."""
        with Stopped(SETTINGS) as broker, contextlib.ExitStack() as stack:
            clients = [stack.enter_context(logged_in(broker.address)) for _ in range(3)]
            others = [stack.enter_context(connect(broker.address)) for _ in range(2)]
            for client in clients:
                self.assertTrue(client.ask("Metadata", topics=None)["topics"])
            time.sleep(STARTED_WITHIN)
            settled, told = self.assert_stops(broker, 0)
            for peer in (*(it.socket for it in clients), *others):
                self.assert_closed(peer)
        self.assertEqual((settled.refusals, told), (0, []))
        self.assertIn(settled.sessions, (3, 4, 5))  # the others may not have been taken yet

    def test_a_line(self):
        with Stopped(SETTINGS) as broker, logged_in(broker.address):
            settled, told = self.assert_stops(broker, 0, "end\n")
        self.assertEqual((settled.sessions, settled.refusals, told), (1, 0, []))

    def test_no_connection_is_taken_afterwards(self):
        with Stopped(SETTINGS) as broker:
            self.assert_stops(broker, 0)
            with self.assertRaises(ConnectionError):
                connect(broker.address)

    def test_in_the_middle_of_a_request(self):
        frame = request_frame("Metadata", 1, {"topics": None})
        with Stopped(SETTINGS) as broker, connect(broker.address) as peer:
            peer.sendall(frame[:-1])
            wait_until(lambda: is_read(peer), otherwise="the bytes aren't read")
            settled, told = self.assert_stops(broker, 0)
            self.assert_closed(peer)
        self.assertEqual((settled.sessions, told), (1, [of_nobody(0, CUT)]))

    def is_held_at_the_stop(self):
        """Stops while the answer to a Fetch may be held back, and asks on. Gives whether it was held when the server had stopped, which
        it has once it has closed a connection that waits for nothing."""
        with Stopped(SETTINGS, more=("--librdkafka",)) as broker, contextlib.ExitStack() as stack:
            client, other = (stack.enter_context(logged_in(broker.address)) for _ in range(2))
            client.send("Fetch", max_wait=60_000, topics=of_b(offset=0, max_bytes=1_000))
            wait_until(lambda: is_read(client.socket), otherwise="the request isn't read")
            broker.hand_in("end")
            self.assert_closed(other.socket)
            is_held = not select.select([client.socket], [], [], 0)[0]
            with contextlib.suppress(OSError):  # it may be closed by now
                client.send("Metadata", topics=None)
            settled, told = self.assert_stops(broker, 0)
            self.assertEqual(partition_of(client.receive("Fetch")[1])["error"], Code.NONE)
            if is_held:  # else the session may have been about to read as the server stopped
                with contextlib.suppress(ConnectionResetError):  # since what was asked is left unread
                    self.assertEqual(client.input.read(1), b"", "what was asked after the stop is answered")
        self.assertEqual((settled.sessions, told), (2, []))
        return is_held

    def test_a_fetch_that_is_held_back(self):
        """It is answered, and nothing that was asked after the stop. Where this test stands still it misses the moment, and tries again."""
        self.assertTrue(any(self.is_held_at_the_stop() for _ in range(ROUNDS)), "no answer was held back at a stop")

    @needs_proved_program("with checks it is late")
    def test_a_peer_that_reads_nothing(self):
        """Its connection is closed after the grace, which is told before the session ends."""
        for more, grace in ((("--grace", "1"), 1), ((), GRACE)):
            with self.subTest(more=more), Stopped(SETTINGS, more=more) as broker, logged_in(broker.address) as client:
                self.ask_unread(client)
                began = time.monotonic()
                settled, told = self.assert_stops(broker, grace)
                self.assertGreater(time.monotonic() - began, grace - 0.1)
                self.assertEqual((settled.sessions, told), (1, [CLOSED.format(0, grace), of_user(0, "root", WRITE_FAILED)]))

    @needs_proved_program("with checks it is late")
    def test_each_that_is_closed_is_named(self):
        """By its session; one that ends at the stop isn't."""
        with Stopped(SETTINGS, more=("--grace", "1")) as broker, contextlib.ExitStack() as stack:
            clients = [stack.enter_context(logged_in(broker.address)) for _ in range(3)]
            for client in clients[1:]:
                self.ask_unread(client)
            settled, told = self.assert_stops(broker, 1)
        self.assertEqual(settled.sessions, 3)
        self.assertEqual(sorted(it for it in told if it not in FAILED), [CLOSED.format(number, 1) for number in (1, 2)])

    def test_a_user_that_has_to_wait(self):
        """It waits for some seconds since its login, and is closed without an answer."""
        with Stopped(SETTINGS, more=("--rate-bytes", "10")) as broker, logged_in(broker.address) as client:
            client.send("Metadata", topics=None)
            time.sleep(STARTED_WITHIN)
            settled, told = self.assert_stops(broker, 0)
            self.assert_closed(client.socket)
        self.assertEqual((settled.sessions, told), (1, []))

    def test_a_full_trail(self):
        """The clock has stopped, and the stop is a clean one."""
        with Stopped("trail_limit = 3\n" + SETTINGS) as broker:
            wait_until(lambda: CLOCK_STOPS.format(FULL) in broker.told(), otherwise="the clock goes on")
            settled, told = self.assert_stops(broker, 0)
        self.assertEqual((settled.events, told[-1]), (3, CLOCK_STOPS.format(FULL)))

    def test_connections_that_are_used_up(self):
        """The one that is open is served until the stop."""
        broker = Stopped(SETTINGS, more=("--connections", "1"))
        broker.connections = 1
        with broker, logged_in(broker.address) as client:
            time.sleep(STARTED_WITHIN)
            self.assertTrue(client.ask("Metadata", topics=None)["topics"])
            settled, told = self.assert_stops(broker, 0)
        self.assertEqual((settled.sessions, told), (1, []))

    def test_lines_that_ask(self):
        """`state` and `audit` are answered as by a broker that is steered, and nothing else is."""
        with Stopped(SETTINGS + user("ann", "p")) as broker:
            for line in CONTROL_ALONE:
                self.assertEqual(broker.say(line), "unreadable", line)
            with logged_in(broker.address, "ann", "p") as client:
                client.ask("Produce", topics=of_b(records=batch([b"mine"])))
            refused = ["unmatched WRITE Topic b User:ann 127.0.0.1"]
            self.assertEqual(broker.lines("audit", "refusals"), (refused, 1))
            self.assertEqual(broker.lines("audit", "refusals"), ([], 0))
            lines, _ = broker.lines("state", "events")
            self.assertRegex(lines[0], r"^moment \d+$")
            self.assertIn("partition b 0 end 0 stable 0", lines)
            settled, told = self.assert_stops(broker, 0)
        self.assertEqual((settled.sessions, settled.refusals, told), (1, 1, [UNREADABLE] * len(CONTROL_ALONE)))

    def moment_and_ticks(self, broker):
        """The moment of a broker that nobody asks anything, in milliseconds, and how many ticks there were up to it."""
        lines, events = broker.lines("state", "events")
        return int(lines[0].removeprefix("moment ")), events

    def test_ten_ticks_a_second(self):
        """No more come in most half seconds, and hardly fewer in some: a rest may end early, and late where the machine stands still."""
        seen = [(0, 0)]
        with Stopped(SETTINGS) as broker:
            for _ in range(6):
                time.sleep(0.5)
                seen.append(self.moment_and_ticks(broker))
            settled, told = self.assert_stops(broker, 0)
        passed = [(moment - before, ticks - fewer) for (before, fewer), (moment, ticks) in pairwise(seen)]
        rates = [1_000 * ticks / milliseconds for milliseconds, ticks in passed if ticks]
        self.assertLess(median(rates), 11, seen)
        self.assertGreater(max(rates), 7, seen)
        self.assertEqual((settled.sessions, told), (0, []))


class Drawn(StoppingCase):
    """Connections that ask all the time."""

    def ask_until_closed(self, client, answered, drawn):
        """Asks one thing after the other, and counts the answers, until the connection is closed."""
        with contextlib.suppress(OSError, EOFError), client:
            while True:
                asked = drawn.choice(("Metadata", "Produce", "Fetch", "rest"))
                if asked == "rest":
                    time.sleep(drawn.random() / 10)
                    continue
                fields = {
                    "Metadata": {"topics": None},
                    "Produce": {"topics": of_b(records=drawn.choice(PRODUCED))},
                    "Fetch": {"topics": of_b(offset=0, max_bytes=drawn.choice((1, 1_000_000))), "max_wait": 100},
                }
                client.ask(asked, **fields[asked])
                answered.append(asked)

    @needs_proved_program("with checks it is late")
    def test_at_random_moments(self):
        """All have logged in before, so each is a session, however long the threads of this test take."""
        for seed in range(DRAWN):
            drawn, answered = random.Random(seed), []
            more = ("--librdkafka", "--grace", str(READ_WITHIN))
            with self.subTest(seed=seed), Stopped(SETTINGS, workers=MOST, more=more) as broker:
                threads = [
                    threading.Thread(
                        target=self.ask_until_closed,
                        args=(logged_in(broker.address), answered, random.Random(f"{seed} {number}")),
                    )
                    for number in range(MOST)
                ]
                for it in threads:
                    it.start()
                time.sleep(0.5 + drawn.random())
                settled, told = self.assert_stops(broker, READ_WITHIN // 3)
                for it in threads:
                    it.join(READ_WITHIN)
                    self.assertFalse(it.is_alive(), "a connection is open")
                self.assertEqual(settled.sessions, MOST)
                self.assertGreaterEqual(settled.events, len(answered))
                self.assertTrue(all(it.endswith(CUT) for it in told), told)


class Times(StoppingCase):
    """`--for`."""

    def setUp(self):
        self.began = time.monotonic()

    @contextlib.contextmanager
    def assert_ends_after(self, seconds):
        """What is waited for inside, of a broker that has begun, is its end, so long after this case began and not much later."""
        entered = time.monotonic()
        yield
        ended = time.monotonic()
        self.assertGreater(ended - self.began, seconds)
        self.assertLess(ended - entered, seconds + LATE)

    def test_an_open_connection(self):
        with ClockedKbroker(SETTINGS, connections=None, more=("--for", "3")) as broker:
            with logged_in(broker.address) as client:
                self.assertTrue(client.ask("Metadata", topics=None)["topics"])
                with self.assert_ends_after(3):
                    settled, told = broker.settled()
                self.assert_closed(client.socket)
        self.assertEqual((settled.sessions, settled.refusals, told), (1, 0, []))

    def test_an_open_connection_where_connections_are_used_up(self):
        with ClockedKbroker(SETTINGS, connections=1, more=("--for", "3")) as broker, logged_in(broker.address):
            with self.assert_ends_after(3):
                settled, told = broker.settled()
        self.assertEqual((settled.sessions, told), (1, []))

    def test_an_input_that_stays_open(self):
        """A line that has no end doesn't hold it up."""
        with Stopped(SETTINGS, more=("--for", "1")) as broker:
            broker.process.stdin.write("sta")
            broker.process.stdin.flush()
            with self.assert_ends_after(1):
                self.assertEqual(broker.process.wait(30), 0)
            self.assertRegex(broker.process.stdout.read(), LAST)


class Signals(StoppingCase):
    """Signals to `./kbroker`."""

    def test_a_clean_stop(self):
        for sent in (signal.SIGTERM, signal.SIGINT):
            with self.subTest(sent.name), Wrapped(SETTINGS) as broker, logged_in(broker.address) as client:
                self.assertTrue(client.ask("Metadata", topics=None)["topics"])
                processes = broker.children()
                broker.process.send_signal(sent)
                settled, told = self.assert_stops(broker, 0)
                self.assertEqual((settled.sessions, told), (1, []))
                self.assertEqual([it for it in processes if is_running(it)], [])

    def test_a_second_signal(self):
        """It ends the program at once, which waits for a peer that reads nothing."""
        with Wrapped(SETTINGS, more=("--grace", "60")) as broker, logged_in(broker.address) as client:
            self.ask_unread(client)
            processes = broker.children()
            self.assertTrue(processes)
            broker.process.send_signal(signal.SIGTERM)
            pipe = f"/proc/{broker.process.pid}/fd/3"
            wait_until(lambda: not os.path.lexists(pipe), otherwise="the first signal isn't caught")
            time.sleep(STARTED_WITHIN)
            self.assertIsNone(broker.process.poll())
            broker.process.send_signal(signal.SIGTERM)
            status, said, _ = broker.wait(timeout=30)
            self.assertEqual((status, said), (128 + signal.SIGKILL, ""))
            self.assertEqual([it for it in processes if is_running(it)], [])

    def test_the_status_of_settings_that_are_refused(self):
        with Wrapped(SETTINGS) as broker:
            words = [broker.program, "serve", *LISTEN, "--settings", os.devnull]
            ran = subprocess.run(words, capture_output=True, timeout=30)
        self.assertEqual((ran.returncode, ran.stdout), (1, b"settings refused: Key\n"))

    def test_a_link_to_it(self):
        """It finds the program from wherever the link is. The version goes to standard output."""
        with Wrapped(SETTINGS) as broker:
            link = Path(self.enterContext(tempfile.TemporaryDirectory()), "a link")
            link.symlink_to(broker.program)
            ran = subprocess.run([link, "--version"], capture_output=True, encoding="utf-8", timeout=30)
        self.assertEqual((ran.returncode, ran.stderr), (0, ""))
        self.assertRegex(ran.stdout, r"^kbroker \d+\.\d+\.\d+\n$")

    def test_streams_that_are_closed(self):
        """They are on /dev/null, so that no file and no socket takes their numbers."""
        with Wrapped(SETTINGS) as broker:
            words = ["sh", "-c", 'exec "$0" serve --listen 127.0.0.1:0 --for 1 --settings "$1" <&- >&- 2>&-']
            settings = os.path.join(broker.folder.name, "settings.toml")
            ran = subprocess.run([*words, broker.program, settings], timeout=30)
        self.assertEqual(ran.returncode, 0)

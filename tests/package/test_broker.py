"""The package's brokers: what their lines tell, how they start and end, and what is told of those that fail."""

import tempfile
import textwrap
import unittest
from pathlib import Path
from unittest import mock

from kbroker_testing import broker as broker_module
from kbroker_testing.broker import (
    BrokerFailed,
    ClockedKbroker,
    Group,
    Kbroker,
    Marker,
    Moment,
    NotTaken,
    Partition,
    Settled,
    State,
    Transaction,
    answers_in,
    marker_of,
    replay,
    state_of,
    without_stamps,
)
from kbroker_testing.protocol import Connection, logged_in, request_digits
from tests.support import OF_ROOT, TOP, acl, topic, user

OWN = 'supers = ["User:root"]\n' + user("root", "toor") + topic("b")
# What stands on standard error, of which a test is told the second and the fourth line.
ERRORS = """2026-11-29T03:50:45.123Z INFO kbroker: version 0.1.0 as node 1: topics 1, partitions 1, users 1, workers 4
2026-11-29T03:50:46.000Z INFO unmatched WRITE Topic b User:ann 127.0.0.1
2026-11-29T03:50:47.999Z INFO kbroker: no more connections are taken, since --connections is 1
- WARN kbroker: the clock stops, so no transaction ends any more: there is not enough memory
2026-11-29T03:50:48.001Z INFO kbroker: requests 3, ticks 27, marks 0; Produce 2 (1 refusal), Fetch 1
"""
TOLD = [
    "unmatched WRITE Topic b User:ann 127.0.0.1",
    "kbroker: the clock stops, so no transaction ends any more: there is not enough memory",
]
LISTENS = "echo listening on 127.0.0.1:9092"
# A program that tells of two connections which it had to close, and then ends as it shouldn't, or not at all.
LATE = "kbroker: session {} is closed, since it was still open 5 s after the stop"
HELD_UP = f"""
    #!/bin/sh
    {LISTENS}
    read -r line
    echo "2026-11-29T03:50:45.123Z INFO {LATE.format(3)}" >&2
    echo "2026-11-29T03:50:45.123Z INFO {LATE.format(11)}" >&2
"""
STATE = """moment 5
owed 1
partition a%20b 1 end 4 stable 2
transaction t%25 PrepareCommit producer 3 epoch 1 began 2 timeout 60000
added t%25 topic a%20b 1
added t%25 group g
group g generation 2 member m-1
committed g a%20b 1 7
group h generation 0
events 9"""


class Lines(unittest.TestCase):
    def test_a_state(self):
        told = Transaction("PrepareCommit", 3, 1, 2, 60_000, (("a b", 1),), ("g",))
        groups = {"g": Group(2, "m-1", {("a b", 1): 7}), "h": Group(0, None, {})}
        self.assertEqual(state_of(STATE.splitlines()), State(5, 1, {("a b", 1): Partition(4, 2)}, {"t%": told}, groups, 9))

    def test_markers(self):
        line = "marker commit producer 3 epoch 1 topic a%20b 1 owed 2"
        self.assertEqual(marker_of(line), Marker("commit", 3, 1, "topic", "a b", 1, 2))
        line = "marker abort producer 3 epoch 1 group g owed 0"
        self.assertEqual(marker_of(line), Marker("abort", 3, 1, "group", "g", None, 0))
        self.assertIsNone(marker_of("marker none owed 0"))

    def test_times_and_levels(self):
        """They are taken off, and so are lines that come each time."""
        broker = ClockedKbroker(OWN, connections=1)
        self.assertEqual(broker.lines_of(ERRORS), TOLD)
        self.assertEqual(broker.lines_of(without_stamps(ERRORS)), TOLD)

    def test_answers(self):
        printed = "00\ndenied a\nunmatched b\n-\nclosed\n"
        self.assertEqual(answers_in(printed), [("00", ["denied a", "unmatched b"]), ("-", []), ("closed", [])])


class Brokers(unittest.TestCase):
    def assert_ended(self, broker):
        """Whoever steers it is told so, each time."""
        for _ in range(2):
            with self.assertRaisesRegex(EOFError, "the broker has ended"):
                broker.tick(1)

    def test_metadata_tells_the_address(self):
        """Of a broker whose settings don't say where it is."""
        for broker in (Kbroker(OWN), ClockedKbroker(OWN, more=("--librdkafka",))):
            with self.subTest(kind=type(broker).__name__), broker:
                with logged_in(broker.address) as client:
                    [told] = client.ask("Metadata", topics=None)["brokers"]
                    self.assertEqual(f"{told['host']}:{told['port']}", broker.address)

    def test_a_steered_broker_is_settled_at_its_end(self):
        with Kbroker(OWN) as broker:
            broker.tick(1)
        self.assertEqual(broker.process.returncode, 0)

    def test_the_clock_goes_on(self):
        with Kbroker(OWN) as broker:
            self.assertEqual(broker.tick(100), Moment(100, (), 0))
            self.assertEqual(broker.advance(50), Moment(150, (), 0))
            self.assertEqual(broker.state().moment, 150)

    def test_a_connection_that_stays_open(self):
        """The end closes it."""
        with Kbroker(OWN) as broker:
            client = self.enterContext(Connection(broker.address))
            client.ask("ApiVersions")
        self.assertEqual(broker.process.returncode, 0)
        with self.assertRaises((EOFError, ConnectionError)):
            client.ask("ApiVersions")

    def test_a_fault_is_told_by_its_line(self):
        """That is the line of the settings as they are given."""
        for settings in (f"{TOP}topic =\n", "[[topic]]\n\n\ntopic =\n"):
            line = settings.count("\n")
            with self.subTest(settings=settings), self.assertRaisesRegex(BrokerFailed, f"error at line {line}, column"):
                with Kbroker(settings):
                    self.fail("it listens")

    def test_settings_that_say_in_part_where_it_is(self):
        """The rest is put before them. An ACL's host is another one."""
        rows = (("port = 9093\n", ("127.0.0.1", 9093)), ('host = "there"\n', ("there", None)), ("node_id = 2\n", ("127.0.0.1", None)))
        for settings, (host, port) in rows:
            with self.subTest(settings=settings), Kbroker(settings + OWN + acl()) as broker:
                with logged_in(broker.address) as client:
                    [told] = client.ask("Metadata", topics=None)["brokers"]
                own = int(broker.address.rpartition(":")[2])
                self.assertEqual((told["host"], told["port"]), (host, port or own))

    def test_a_clocked_broker_ends_after_its_connections(self):
        with ClockedKbroker(OF_ROOT, connections=2) as broker:
            for _ in range(2):
                logged_in(broker.address).close()
            self.assertEqual(broker.settled()[0].sessions, 2)

    def test_a_broker_that_is_killed(self):
        """Its client and who steers it are told, and its books aren't settled."""
        with Kbroker(OWN) as broker:
            with Connection(broker.address) as client:
                broker.kill()
                with self.assertRaises((EOFError, ConnectionError)):
                    client.ask("ApiVersions")
            self.assert_ended(broker)

    def test_a_broker_that_was_ended(self):
        with Kbroker(OWN) as broker:
            broker.end()
            self.assert_ended(broker)

    def test_a_broker_that_has_died(self):
        """That is told at the end, whether something was asked of it afterwards or nothing."""
        for asks in (self.assert_ended, lambda _: None):
            with self.assertRaisesRegex(BrokerFailed, "status -9"):
                with Kbroker(OWN) as broker:
                    broker.process.kill()
                    broker.process.wait()
                    asks(broker)

    def test_books_that_cannot_be_settled(self):
        with self.assertRaisesRegex(BrokerFailed, "status -9"):
            with ClockedKbroker(OF_ROOT) as broker:
                broker.process.kill()
                broker.settled()

    def test_settings_with_a_fault(self):
        """It is told once, with the sentence that says which."""
        refused = "settings refused: Key.*kbroker: settings: .*x"
        for settings in (TOP + "x = 1\n", "x = 1\n"):
            with self.subTest(settings=settings), self.assertRaisesRegex(BrokerFailed, refused):
                with Kbroker(settings):
                    self.fail("it listens")

    def test_a_step_that_is_not_taken(self):
        with Kbroker("trail_limit = 1\n" + OWN) as broker:
            broker.tick(1)
            with self.assertRaisesRegex(NotTaken, "stop 2"):
                broker.tick(2)
            self.assertEqual(broker.end(), Settled(0, 1, 0))

    def program_of(self, text):
        """A program of this text."""
        path = Path(self.enterContext(tempfile.TemporaryDirectory()), "program")
        path.write_text(textwrap.dedent(text).lstrip())
        path.chmod(0o700)
        return path

    def test_a_program_that_says_no_line(self):
        """It says nothing, or no end of its first line."""
        self.enterContext(mock.patch.object(broker_module, "STARTS_WITHIN", 0.2))
        for said in ("", "listening"):
            silent = self.program_of(f"#!/bin/sh\nprintf '{said}'\nexec sleep 60\n")
            with self.subTest(said=said), self.assertRaisesRegex(BrokerFailed, "says nothing within 0.2 seconds"):
                with ClockedKbroker(OF_ROOT, program=silent):
                    self.fail("it listens")

    def test_an_answer_that_does_not_come(self):
        """Whoever waits for it is told so, and what the broker told."""
        hangs = self.program_of(f"#!/bin/sh\necho hangs >&2\n{LISTENS}\nexec sleep 60\n")
        self.enterContext(mock.patch.object(broker_module, "ANSWERS_WITHIN", 0.2))
        with self.assertRaisesRegex(BrokerFailed, r"says nothing within 0.2 seconds, and tells \['hangs'\]$"):
            with Kbroker(OWN, program=hangs) as broker:
                broker.state()

    def test_all_lines_so_far(self):
        """However many they are."""
        talks = self.program_of(f"#!/bin/sh\nyes {'a' * 99} | head -n 12345 >&2\n{LISTENS}\nexec sleep 60\n")
        with ClockedKbroker(OF_ROOT, program=talks) as broker:
            self.assertEqual(broker.told(), ["a" * 99] * 12345)

    def test_connections_that_hold_up_the_end(self):
        """Where a broker doesn't end well, the sessions are named that it had to close, if it had to."""
        named = "; clients held open session 3, session 11$"
        fails = self.program_of(f"{HELD_UP}    echo settle failed: Stray\n    exit 1\n")
        with self.assertRaisesRegex(BrokerFailed, f"status 1 and says 'settle failed: Stray.*{named}"):
            with Kbroker(OWN, program=fails):
                pass
        stays = self.program_of(f"{HELD_UP}    exec sleep 60\n")
        with Kbroker(OWN, program=stays) as broker:
            with self.assertRaisesRegex(BrokerFailed, f"hasn't ended after 4 seconds.*{named}"):
                broker.end(timeout=4)
            broker.kill()
        with self.assertRaisesRegex(BrokerFailed, r"says '', and tells \[\]$"):
            with Kbroker(OWN, program=self.program_of(f"#!/bin/sh\n{LISTENS}\nexit 1\n")) as broker:
                broker.process.wait()
                broker.settled()

    def test_a_program_that_is_not_there(self):
        with self.assertRaises(BrokerFailed):
            with Kbroker(OWN, program="/none/kbroker"):
                self.fail("it listens")


class Replays(unittest.TestCase):
    def test_answers_and_refusals(self):
        asked = request_digits("Metadata", topics=["b"])
        first, second = replay(f"{OF_ROOT}{topic('b')}---\nreq root h {asked}\nreq ann h {asked}\n")
        self.assertEqual((first.refused, second.refused), ([], ["unmatched DESCRIBE Topic b User:ann h"]))
        self.assertNotEqual(first.answer, second.answer)

    def test_a_replay_that_fails(self):
        with self.assertRaisesRegex(BrokerFailed, "status 1"):
            replay(OF_ROOT + "---\nreq\n")

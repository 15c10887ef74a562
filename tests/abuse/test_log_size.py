"""What is logged is bounded, whoever sends what: a request's refusals, its names, and what strangers call themselves.

With `--audit -` a frame of some kilobytes could ask for megabytes of log text, which were laid out on the thread that completes
transactions. Now a request is logged by a hundred of its refusals and how many more there are, names are cut, and what many
strangers do is counted.
"""

import re
import statistics
import sys
import time
import unittest

from kbroker_testing.broker import ClockedKbroker
from kbroker_testing.codes import Code
from kbroker_testing.protocol import Connection, batch, in_partition, logged_in, partition_of, request_frame, response_of
from kbroker_testing.waiting import wait_until
from tests.abuse.beside import ask_whole
from tests.server.told import counted
from tests.support import OF_ROOT, needs_proved_program, topic, user

GROUP = "\1" * 32_767  # of which each character is three in a line
PARTS = 3_000
SETTINGS = OF_ROOT + user("nobody", "n") + topic("b")
MOST = 100  # refusals of one request that are logged
CUT = 64  # characters that are logged of a longer one
REST = f"and {PARTS - MOST} more refusals of that request"
MOST_MEMORY = 20_000_000  # bytes that the log may take more: its text was 295 MB
STRANGERS = 40
NAMED = 10  # of them at length


def refused_frame():
    """A request of which every part is refused, by the name of its group."""
    parts = [{"index": it, "offset": 0, "metadata": None} for it in range(PARTS)]
    return request_frame("OffsetCommit", 1, {"group": GROUP, "topics": [{"topic": "t", "partitions": parts}]})


class LogSize(unittest.TestCase):
    def refuse(self, broker):
        """A user without any right asks for all of that."""
        [told] = response_of("OffsetCommit", ask_whole(broker, refused_frame()))[1]["topics"]
        self.assertEqual({it["error"] for it in told["partitions"]}, {Code.GROUP_AUTHORIZATION_FAILED})

    def test_lines_of_a_request(self):
        """A hundred of its refusals, with a name that is cut, and how many more there are."""
        with ClockedKbroker(SETTINGS, connections=1, more=("--audit", "-")) as server:
            with logged_in(server.address, "nobody", "n") as broker:
                self.refuse(broker)
            _, told = server.settled()
        name = "%01" * CUT + ".."
        lines = [it for it in told if it.startswith("unmatched ")]
        self.assertEqual({*lines}, {f"unmatched READ Group {name} User:nobody 127.0.0.1"})
        self.assertEqual((len(lines), told.count(REST)), (MOST, 1))

    def test_a_short_name_is_whole(self):
        """One of as many bytes as a topic's name can have isn't cut, and one of one more is."""
        with ClockedKbroker(SETTINGS, connections=1, more=("--audit", "-")) as server:
            with logged_in(server.address, "nobody", "n") as broker:
                for name in ("x" + "ä" * 124, "ä" * 125):
                    broker.ask("Metadata", topics=[name])
            _, told = server.settled()
        names = [it.split()[3] for it in told if it.startswith("unmatched ")]
        self.assertEqual(names, ["x" + "%C3%A4" * 124, "%C3%A4" * CUT + ".."])

    @needs_proved_program("with checks it is late")
    def test_markers_are_written_meanwhile(self):
        """A commit isn't completed later than else beside such requests."""
        alone, beside = self.commits(False), self.commits(True)
        told = f"a commit was completed after {alone * 1000:.0f} ms alone, and after {beside * 1000:.0f} ms beside refusals"
        print(f"abuse: {told}", file=sys.stderr)
        self.assertLess(beside, max(10 * alone, 0.15), told)

    def commits(self, is_beside):
        """After how many seconds a commit is completed, as the median of some, each beside such a request or not."""
        took = []
        with ClockedKbroker(SETTINGS, connections=2, more=("--audit", "-")) as server:
            with logged_in(server.address) as broker, logged_in(server.address, "nobody", "n") as other:
                for _ in range(7):
                    pair = broker.ask("InitProducerId", transactional_id="t", timeout=60_000)
                    who = {"transactional_id": "t", "producer": pair["producer"], "epoch": pair["epoch"]}
                    broker.ask("AddPartitionsToTxn", topics=[{"topic": "b", "partitions": [0]}], **who)
                    records = batch([b"x"], pair["producer"], pair["epoch"], 0, True)
                    broker.ask("Produce", transactional_id="t", topics=in_partition(("b", 0), records=records))
                    if is_beside:
                        self.refuse(other)
                    began = time.monotonic()
                    self.assertEqual(broker.ask("EndTxn", committed=True, **who)["error"], Code.NONE)
                    wait_until(lambda: self.is_complete(broker), otherwise="the commit isn't completed")
                    took.append(time.monotonic() - began)
        return statistics.median(took)

    @staticmethod
    def is_complete(broker):
        """Whether all that stands in the log is stable."""
        told = partition_of(broker.ask("Fetch", isolation=1, topics=in_partition(("b", 0), offset=0, max_bytes=100)))
        return told["last_stable_offset"] == told["high_watermark"]

    @needs_proved_program("memory is measured, of which checks take more")
    def test_memory(self):
        """The refusals of one frame take little more with the log than without it."""
        grown = {}
        for more in ((), ("--audit", "-")):
            with ClockedKbroker(SETTINGS, connections=1, more=more) as server:
                with logged_in(server.address, "nobody", "n") as broker:
                    before = server.peak_memory()
                    self.refuse(broker)
                    broker.ask("Metadata", topics=["b"])
                    if more:
                        wait_until(lambda: REST in server.told(), otherwise="the refusals aren't logged")
                    grown[more] = server.peak_memory() - before
        without, with_log = grown.values()
        print(f"abuse: {PARTS} refusals take {without} bytes, and {with_log} with the log", file=sys.stderr)
        self.assertLess(with_log - without, MOST_MEMORY)


class Strangers(unittest.TestCase):
    """What is logged of peers that nobody knows."""

    def told_of(self, names):
        """The lines that are logged of logins under these names."""
        with ClockedKbroker(SETTINGS, connections=len(names)) as server:
            for name in names:
                with Connection(server.address) as broker:
                    self.assertEqual(broker.login(name, "wrong"), Code.SASL_AUTHENTICATION_FAILED)
            return server.settled()[1]

    def test_many_names(self):
        """Some of them are named, and the others are counted: each of them once."""
        told = self.told_of([f"n{it}" for it in range(STRANGERS)])
        named = [it for it in told if "no user has this name and password" in it]
        self.assertLessEqual(len(named), NAMED)
        self.assertGreater(len(named), 0)
        counts = counted(told)
        self.assertEqual(len(named) + counts["fails to log in"], STRANGERS)

    def test_a_long_name(self):
        """It is cut."""
        [line] = [it for it in self.told_of(["\1" * 300]) if "logs in as" in it]
        name = re.search(r"logs in as (\S+): ", line)[1]
        self.assertIn(name, ("%01" * CUT + "..",))


if __name__ == "__main__":
    unittest.main()

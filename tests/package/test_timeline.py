"""The picture of a script: what became of each batch, where consumers see it, and the steps in words. That of README is made anew."""

import io
import unittest
import xml.etree.ElementTree as tree
from contextlib import redirect_stdout
from unittest import mock

from kbroker_testing import timeline
from kbroker_testing.codes import Code
from kbroker_testing.protocol import batch, in_partition, request_digits
from kbroker_testing.settings import allow, joined, super_users, topic
from program import ROOT
from tests.support import TOP

PICTURE, SCRIPT = "docs/transfer.svg", "examples/transfer.txt"
PAIR = {"producer": 0, "epoch": 0}
PART = ("b", 0)
SETTINGS = TOP + joined([super_users("root"), topic("b"), topic("a", 2), allow("ann", "READ", topic="a")])


def line(user, api, **fields):
    """A line of a script."""
    return f"req {user} h {request_digits(api, **fields)}"


def produced(value, sequence=None):
    """Produces a record, in a transaction if there is a sequence number."""
    own = {} if sequence is None else {**PAIR, "sequence": sequence, "transactional": True}
    name = None if sequence is None else "t"
    return line("root", "Produce", transactional_id=name, topics=in_partition(PART, records=batch([value], **own)))


def transaction(*lines, commit=None):
    """A transaction with these lines, which ends if that is said."""
    begin = line("root", "InitProducerId", transactional_id="t", timeout=1000)
    add = line("root", "AddPartitionsToTxn", transactional_id="t", topics=[{"topic": "b", "partitions": [0]}], **PAIR)
    end = [] if commit is None else [line("root", "EndTxn", transactional_id="t", committed=commit, **PAIR), "mark"]
    return [begin, add, *lines, *end]


class Timelines(unittest.TestCase):
    def steps(self, *lines):
        """The steps of a script with these lines."""
        return timeline.steps_of(f"{SETTINGS}---\n" + "".join(f"{it}\n" for it in lines))[1]

    def states(self, *lines):
        """What becomes of the batches that are no markers, in order."""
        batches = timeline.appended(self.steps(*lines), PART)
        return [timeline.state_of(at, batches) for at, it in enumerate(batches) if not it.batch.is_control]

    def test_what_becomes_of_batches(self):
        self.assertEqual(self.states(produced(b"x"), *transaction(produced(b"y", 0), commit=True)), ["plain", "committed"])
        self.assertEqual(self.states(*transaction(produced(b"y", 0), produced(b"z", 1), commit=False)), ["aborted", "aborted"])
        self.assertEqual(self.states(*transaction(produced(b"y", 0))), ["open"])
        self.assertEqual(self.states(*transaction(produced(b"y", 0), commit=True)[:-1]), ["open"])  # prepared: no marker yet

    def test_when_they_were_appended(self):
        steps = self.steps(produced(b"x"), "tick 5", produced(b"y"))
        self.assertEqual([it.step for it in timeline.appended(steps, PART)], [0, 2])
        self.assertEqual([*timeline.columns_of(steps)], [0, 2])  # a tick changes nothing here

    def test_steps_in_words(self):
        fetch = line("ann", "Fetch", topics=in_partition(PART, offset=0, max_bytes=1))
        lines = [*transaction(produced(b"y" * 20, 0), commit=False), fetch, "tick 7", "req root h 00000000"]
        self.assertEqual(
            [it.text for it in self.steps(*lines)],
            [
                "root: InitProducerId t",
                "root: AddPartitionsToTxn b-0; t",
                f"root: Produce b-0: {'y' * 11}…; t",
                "root: EndTxn abort; t",
                "the oldest pending marker is written, if there is one",
                f"ann: Fetch b-0 → {Code.TOPIC_AUTHORIZATION_FAILED.name}",
                "the clock shows 7 ms",
                "root sends what can't be read",
            ],
        )

    def test_partitions(self):
        """Those of all topics, whoever may see them, also where no user is a super user."""
        for settings in (SETTINGS, TOP + topic("b") + topic("a", 2)):
            parts, _ = timeline.steps_of(f"{settings}---\ntick 1\n")
            self.assertEqual(parts, [("b", 0), ("a", 0), ("a", 1)])

    def test_a_picture(self):
        """It is XML, whatever stands in values, and tells the last stable offset and what is seen where these change."""
        lines = [produced(b"<&>"), *transaction(produced(b"in", 0), commit=True)]
        drawn = tree.fromstring(timeline.picture(f"{SETTINGS}---\n" + "".join(f"{it}\n" for it in lines)))
        texts = [it.text for it in drawn.iter("{http://www.w3.org/2000/svg}text")]
        lane = texts[texts.index("b-0") : texts.index("a-0")]
        self.assertEqual(lane[3:], ["<&>", "at 0", "in", "at 1", "✓", "at 2", "1", "<&>", "3", "in"])


class OfReadme(unittest.TestCase):
    def test_it_is_made_anew(self):
        """By the command that stands beside it."""
        page = (ROOT / "README.md").read_text()
        self.assertIn(f"({PICTURE})", page)
        self.assertIn(f"python3 -m kbroker_testing.timeline {SCRIPT} > {PICTURE}", page)
        with redirect_stdout(io.StringIO()) as said, mock.patch("sys.argv", ["timeline", str(ROOT / SCRIPT)]):
            timeline.main()
        self.assertEqual(said.getvalue(), (ROOT / PICTURE).read_text())


if __name__ == "__main__":
    unittest.main()

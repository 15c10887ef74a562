"""The pages for people with kcat and confluent-kafka: README's first one, those of examples/, and the recipes of
docs/TESTING_WITH_KBROKER.md. Their commands are run as they stand there, and print what stands there."""

import sys
import unittest

from kbroker_testing.waiting import wait_until
from packages import OF_THE_SYSTEM
from program import ROOT
from tests.clients.test_clients import has_kafka, needs_kcat
from tests.pages import FIRST, Room, assert_prints, assert_steps, blocks_of, recipes, serving, steps_of
from tests.support import without_package

RECIPES = 5


def interpreter_with_kafka(case):
    """An interpreter that has confluent-kafka. Where none has, the case is skipped, or fails."""
    for it in (sys.executable, OF_THE_SYSTEM):
        if has_kafka(it):
            return it
    return without_package(case, "confluent-kafka")


@needs_kcat
class WithKcat(unittest.TestCase):
    def test_the_first_page(self):
        """README: a transaction is committed and read, a write is refused, an aborted record isn't read; and the broker tells of
        the refusal alone."""
        interpreter = interpreter_with_kafka(self)
        [block] = [it for it in blocks_of(FIRST) if "kcat" in it]
        [code] = blocks_of(FIRST, "python")
        [audit] = [it.splitlines() for it in blocks_of(FIRST) if it.startswith("unmatched")]
        with serving() as broker, Room(broker.address) as room:
            assert_steps(self, room, steps_of(block))
            assert_prints(self, room, code, interpreter)
            wait_until(broker.told, otherwise="the refusal is not told")
            self.assertEqual(broker.told(), [it for it in audit if " orders " in it])

    def test_kcat(self):
        """examples/kcat.md, all of it."""
        steps = [step for block in blocks_of((ROOT / "examples/kcat.md").read_text()) for step in steps_of(block)]
        with serving() as broker, Room(broker.address) as room:
            assert_steps(self, room, steps)


class WithConfluentKafka(unittest.TestCase):
    def test_confluent_kafka(self):
        """examples/confluent_kafka.md: its blocks are one program."""
        interpreter = interpreter_with_kafka(self)
        code = "\n".join(blocks_of((ROOT / "examples/confluent_kafka.md").read_text(), "python"))
        with serving() as broker, Room(broker.address) as room:
            assert_prints(self, room, code, interpreter)

    def test_recipes(self):
        """Their blocks are one program, all of whose tests pass."""
        interpreter = interpreter_with_kafka(self)
        code = recipes("## Recipes with confluent-kafka", "## Recipes with the raw client")
        with Room() as room:
            self.assertRegex(room.run(code, interpreter)[1], rf"(?s)Ran {RECIPES} tests .*\nOK\n")

"""What people read first of the package does what it says: README's path for whoever has Python alone, its own test, the
recipes of docs/TESTING_WITH_KBROKER.md with its client, and what docs/USING.md shows without a broker."""

import sys
import unittest

from kbroker_testing.waiting import wait_until
from program import ROOT
from tests.pages import ADDRESS, FIRST, OWN_TEST, Room, assert_prints, assert_steps, blocks_of, recipes, serving, steps_of

RECIPES = 3
WITHOUT_A_BROKER = 2  # blocks of docs/USING.md


class Pages(unittest.TestCase):
    def test_with_python_alone(self):
        """README: a record is produced and read, and a write is refused, of which the broker tells."""
        [block] = [it for it in blocks_of(FIRST) if "kbroker_testing.protocol" in it]
        [audit] = [it.splitlines() for it in blocks_of(FIRST) if it.startswith("unmatched")]
        with serving() as broker, Room(broker.address) as room:
            assert_steps(self, room, steps_of(block))
            wait_until(broker.told, otherwise="the refusal is not told")
            self.assertEqual(broker.told(), [it for it in audit if " payments " in it])

    def test_its_own_test(self):
        """README: a commit whose marker isn't written."""
        [code] = blocks_of(OWN_TEST, "python")
        with Room() as room:
            assert_prints(self, room, code, sys.executable)

    def test_recipes(self):
        """The blocks are one program, all of whose tests pass."""
        code = recipes("## Recipes with the raw client", "## Steering")
        with Room() as room:
            self.assertRegex(room.run(code, sys.executable)[1], rf"(?s)Ran {RECIPES} tests .*\nOK\n\Z")

    def test_what_needs_no_broker(self):
        """docs/USING.md: a fault of settings, and the frame of a request by a line of Python."""
        blocks = [it for it in blocks_of((ROOT / "docs/USING.md").read_text()) if it.startswith("$ ") and ADDRESS not in it]
        self.assertEqual(len(blocks), WITHOUT_A_BROKER)
        with Room() as room:
            for block in blocks:
                assert_steps(self, room, steps_of(block))

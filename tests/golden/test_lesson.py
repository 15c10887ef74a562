"""Goes through the lesson of examples/steered.md, and compares what is printed in each window with what stands there."""

import unittest

from tests.golden.lesson import gone_through
from tests.golden.scripts import assert_lines


FEWEST_STEPS = 20


class Lesson(unittest.TestCase):
    def test_what_the_lesson_tells_is_printed(self):
        told, printed = gone_through()
        steps = sum(line.startswith(("> ", "$ ")) for line in told)
        self.assertGreater(steps, FEWEST_STEPS)
        assert_lines(self, printed, told)

"""What the tools take of the toolchain's inside is there, and was tried with this toolchain."""

import re
import subprocess
import unittest
from pathlib import Path

import kept
import kit
import program
from tests.tools.test_gate import AT_A_LIMIT, FOR_A_NAME, NOT_REFUSED, REFUSED


class OfTheToolchain(unittest.TestCase):
    @classmethod
    def setUpClass(cls):
        cls.rt = kit.load_rt()
        cls.source = Path(kit.__file__).read_text()

    def test_it_was_tried_with_this_one(self):
        """With another one look at each function of tools/kit.py, try `make mutants`, and name it there."""
        self.assertEqual((kept.kit() / "KIT-ID").read_text().split()[0], kit.TRIED)

    def test_what_is_taken_of_rt_is_there(self):
        names = {*re.findall(r"\brt\.(\w+)", self.source)}
        self.assertGreater(len(names), 5)
        for name in names:
            with self.subTest(name):
                self.assertTrue(hasattr(self.rt, name))

    def test_no_other_tool_takes_any(self):
        for file in sorted((program.ROOT / "tools").glob("*.py")):
            if file.name != "kit.py":
                with self.subTest(file.name):
                    self.assertNotRegex(file.read_text(), r"\brtlib\.(?!py)|SourceFileLoader|\brt\.[a-z_]+\(")

    def test_the_words_of_rt(self):
        """rt's source has the words of which the tools know what passes."""
        source = Path(self.rt.__file__).read_text()
        for text in (REFUSED, FOR_A_NAME, AT_A_LIMIT, NOT_REFUSED):
            words = re.split(r"\): |: ", text)[0]
            with self.subTest(words):
                self.assertIn(words, source)
        for words in ("BAD EDIT: ", "NOT TRIED: ", "say(text)", "FAILED: {' '.join(failed)}"):
            with self.subTest(words):
                self.assertIn(words, source)

    def test_the_words_of_a_check(self):
        """What a check of some functions ends with, as the prover's own page has it."""
        said = subprocess.run([self.rt.rtlib.RATTLE, "check", "--help"], check=True, capture_output=True, text=True).stdout
        self.assertIn("the last line is `only=N proved=M`", said)
        self.assertIn("for each function `fn F: proved`, `not proved`", said)
        self.assertIn("The status is 0 where all N are proved", said)


class Said(unittest.TestCase):
    def said(self, status, *lines):
        return kit.Said(kit.load_rt(), status, "".join(f"{it}\n" for it in lines), {"src/lib.rt": ""})

    def test_verdicts(self):
        last = "only=2 proved=1"
        for status, lines, is_verdict in (
            (1, [last], True),
            (0, ["only=2 proved=2"], True),
            (2, ["rattle: error: `walk` has no function `one`"], False),
            (3, [last], False),
            (1, ["rattle: no verdict"], False),
            (1, ["src/lib.rt:1:1: error: antt ran out of stack", last], False),
            (1, ["src/lib.rt:1:1: error: expected the end", last], False),  # nothing could be read
        ):
            with self.subTest(lines=lines, status=status):
                self.assertEqual(self.said(status, *lines).is_verdict, is_verdict)

    def test_functions(self):
        said = self.said(1, "fn walk::a::one: proved", "fn walk::a::B::two: not proved", "fn walk::three: no proof", "only=3 proved=1")
        self.assertEqual(said.refused, {"a::B::two", "three"})


if __name__ == "__main__":
    unittest.main()

"""Each edit of the crates can be applied: the mutants of both sets, and those that the compiler or a test has to refuse. One
whose old text went with a change of its crate would show nothing."""

import tempfile
import unittest
from pathlib import Path

import edits
from program import ROOT, crates_list

SOURCE = "fn one() { 1 }\nfn two() { 2 }\nfn again() { 2 }\n"
GOOD = "file: src/lib.rt\nold: { 1 }\nnew: { 2 }\n"
# Edits of these functions, and of what each is bad.
BAD = {
    "the old text stands nowhere": "file: src/lib.rt\nold: { 3 }\nnew: { 4 }\n",
    "it stands twice": "file: src/lib.rt\nold: { 2 }\nnew: { 4 }\n",
    "it went with the step before": GOOD + "old: { 1 }\nnew: { 4 }\n",
    "there are two with the step before": "file: src/lib.rt\nold: one\nnew: two\nold: two\nnew: four\n",
    "there is no such file": "file: src/none.rt\nold: { 1 }\nnew: { 2 }\n",
    "the file is no source": "file: lib.rt\nold: { 1 }\nnew: { 2 }\n",
    "no file is named": "old: { 1 }\nnew: { 2 }\n",
    "there is no old text": "file: src/lib.rt\nnew: { 2 }\n",
    "an old text has no new one": GOOD + "old: two\n",
    "it changes nothing": "file: src/lib.rt\nold: { 1 }\nnew: { 1 }\n",
    "a step takes back the one before": GOOD + "old: one() { 2 }\nnew: one() { 1 }\n",
    "it has no steps": "file: src/lib.rt\n",
    "it is empty": "",
    "a line is of no kind": GOOD + "and more\n",
    "a line is of a kind that there isn't": GOOD + "says: mismatched-types\n",
}


class Edits(unittest.TestCase):
    def test_each_applies(self):
        """To the sources as they are, step after step."""
        for kind in edits.KINDS:
            found = kind.edits(crates_list())
            self.assertTrue(found, f"there are no edits in {kind.folder}/")
            for edit in found:
                with self.subTest(edit=str(edit.relative_to(ROOT))):
                    edits.changed(edit, kind.key, kind.base_of(edit))

    def test_each_stands_in_a_crate_that_is_listed(self):
        """In such a folder there is nothing but edits, whose names rt reads."""
        for kind in edits.KINDS:
            listed = {*kind.edits(crates_list())}
            for file in (ROOT / "crates").glob(f"*/{kind.folder}/**/*"):
                with self.subTest(file=str(file.relative_to(ROOT))):
                    self.assertIn(file, listed)
                    self.assertRegex(file.name, r"\A\w[\w.-]*\.edit\Z")


    def test_each_names_a_test_that_stands(self):
        """The test that an edit of `failing-tests/` has to fail is one of its crate."""
        kind = edits.FAILING_TESTS
        for edit in kind.edits(crates_list()):
            with self.subTest(edit=str(edit.relative_to(ROOT))):
                module, name = edits.due(edit, kind.key).split("::")
                text = (edit.parent.parent / "src" / f"{module}.rt").read_text()
                self.assertRegex(text, rf"#\[test\]\nfn {name}\(")


class Reading(unittest.TestCase):
    def setUp(self):
        self.folder = Path(self.enterContext(tempfile.TemporaryDirectory()))
        (self.folder / "src").mkdir()
        for file in ("src/lib.rt", "lib.rt"):
            (self.folder / file).write_text(SOURCE)

    def changed(self, text, key=None):
        edit = self.folder / "it.edit"
        edit.write_text(text)
        return edits.changed(edit, key, self.folder)

    def test_bad_edits(self):
        for name, text in BAD.items():
            with self.subTest(name), self.assertRaises(edits.BadEdit):
                self.changed(text)

    def test_steps(self):
        """The second step changes what the first has made; lines that rt reads over are none of it."""
        text = f"# a mutant\n\n{GOOD}-- and on\nold: one() {{ 2 }}\nnew: one() {{ 3 }}\n"
        wanted = {"src/lib.rt": SOURCE.replace("{ 1 }", "{ 3 }")}
        self.assertEqual(self.changed(text), wanted)

    def test_what_is_due(self):
        """It is said on the first line, and nowhere else."""
        self.assertEqual([*self.changed(f"test: a::b\n{GOOD}", "test")], ["src/lib.rt"])
        self.assertEqual(edits.due(self.folder / "it.edit", "test"), "a::b")
        for text in (GOOD, f"{GOOD}test: a::b\n", f"test: a::b\ntest: a::b\n{GOOD}", f"test: a::b\n# a comment\n{GOOD}"):
            with self.subTest(text), self.assertRaises(edits.BadEdit):
                self.changed(text, "test")

    def test_applied(self):
        self.changed(GOOD)
        edits.apply(self.folder / "it.edit", None, self.folder)
        self.assertEqual((self.folder / "src/lib.rt").read_text(), SOURCE.replace("{ 1 }", "{ 2 }"))


if __name__ == "__main__":
    unittest.main()

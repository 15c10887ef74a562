"""What `make mutants` makes of what is said of mutants: in a check of their own, where rt says it, and in one with others, where
the places that a check tells of decide."""

import contextlib
import io
import tempfile
import unittest
from pathlib import Path
from types import SimpleNamespace
from unittest import mock

import edits
import kit
import mutants
import program
import refusals
import try_mutants
from tests.tools.test_gate import BARE, NO_PLAIN_REFUSALS, NOT_REFUSED, REFUSED

RT = kit.load_rt()
SOURCE = """\
pub fn one(x: u8) -> u8 {
    x * 2
}

pub fn other(x: u8) -> u8
ensures {
    small(result)
}
{
    x + 1
}
"""
LAST = "only=2 proved=1"
# What a check tells of each of these functions where its body is wrong.
A, B = (f"src/lib.rt:{at}:5: error: `{it}`: it is not proved that it holds" for it, at in (("other", 10), ("one", 2)))


def said_of(*lines, status=1, last=LAST, refused=()):
    """The status of a check of which these functions aren't proved, and what it says."""
    told = [f"fn walk::{it}: {'not ' * (it in refused)}proved" for it in ("one", "other")]
    return status, "".join(f"{it}\n" for it in (*lines, *told, last))


def line_of(name, text, how=f"{refusals.REFUSED}: "):
    """What is told of a mutant."""
    return refusals.line_of("walk", f"{name}.edit", f"{how}{text}")


class Trial(mutants.Trial):
    """A trial that is over, of which this was said."""

    def __init__(self, log, mutants):
        self.name, self.log, self.mutants = "walk", log, mutants


class Judged(unittest.TestCase):
    def judged(self, *said, names=("one", "other")):
        """What fails of two mutants, by the lines of a trial, and what is printed."""
        folder = Path(self.enterContext(tempfile.TemporaryDirectory()))
        log = folder / "walk.log"
        log.write_text("".join(f"{it}\n" for it in said))
        trial = Trial(log, {f"{it}.edit": folder / "mutants" / f"{it}.edit" for it in names})
        with contextlib.redirect_stdout(io.StringIO()) as printed:
            return trial.judge(), printed.getvalue()

    def line(self, name, text):
        return refusals.line_of("walk", f"{name}.edit", text)

    def test_refusals(self):
        said = self.line("one", REFUSED), "rt: a line of its own", self.line("other", BARE)
        self.assertEqual(self.judged(*said), (0, ""))

    def test_what_is_not_plain(self):
        """Each is told, in one line."""
        for name, (text, _) in NO_PLAIN_REFUSALS.items():
            if text is not None:
                with self.subTest(name):
                    said = self.line("one", REFUSED), self.line("other", text)
                    self.assertEqual(self.judged(*said), (1, f"mutants: walk/other.edit: {' '.join(text.split())}\n"))

    def test_nothing_is_said(self):
        """Of one, as where a check was cut off: what the trial said last is shown."""
        failed, printed = self.judged(self.line("one", REFUSED), "cut off")
        self.assertEqual(failed, 1)
        self.assertTrue(printed.startswith(f"mutants: walk/other.edit: {refusals.NOTHING_SAID}\n"))
        self.assertIn("cut off\n", printed)


class Sets(unittest.TestCase):
    def test_a_name_stands_in_one_set(self):
        """The gate, too, knows a mutant by its crate and name."""
        for crate in program.crates_list():
            names = [it.name for kind in mutants.SETS for it in kind.edits([crate])]
            self.assertEqual(len(names), len({*names}), crate)
        folder = Path(self.enterContext(tempfile.TemporaryDirectory()))
        for kind in mutants.SETS[:2]:
            (folder / "crates/walk" / kind.folder).mkdir(parents=True)
            (folder / "crates/walk" / kind.folder / "one.edit").touch()
        self.enterContext(mock.patch.object(edits, "ROOT", folder))
        with self.assertRaisesRegex(SystemExit, "walk/one.edit stands in two sets"):
            mutants.mutants_of("walk", mutants.SETS)


class Crate:
    """A crate of which each check says the next of these texts, and notes what it was asked."""

    name = "walk"

    def __init__(self, folder, *said, whole=NOT_REFUSED):
        self.folder, self.said, self.whole, self.asked = folder, [*said], whole, []

    def texts_of(self, edit):
        return RT.read_edit(str(edit), str(self.folder))[0]

    def check(self, texts, paths, kept):
        self.asked.append(paths)
        status, text = self.said.pop(0)
        return kit.Said(RT, status, text, texts)

    def must_fail(self, edit):
        return self.whole


class Together(unittest.TestCase):
    """Mutants of different functions that are tried in one check."""

    def setUp(self):
        folder = Path(self.enterContext(tempfile.TemporaryDirectory()))
        (folder / "src").mkdir()
        (folder / "src/lib.rt").write_text(SOURCE)
        self.crate = Crate(folder)
        self.group = [self.mutant("old: x + 1\nnew: x + 2\n")]

    def mutant(self, steps):
        edit = Path(self.crate.folder, "it.edit")
        edit.write_text(f"file: src/lib.rt\n{steps}")
        return try_mutants.mutant_of(self.crate, edit)

    def test_the_function_of_a_mutant(self):
        """An edit of one body, and of nothing else."""
        [mutant] = self.group
        self.assertEqual((mutant.name, mutant.place, mutant.lines), ("other", ("src/lib.rt", 4), {9: "    x + 2"}))
        for name, steps in {
            "a head": "old: pub fn one(x: u8)\nnew: pub fn one(x: u16)\n",
            "a clause": "old: small(result)\nnew: large(result)\n",
            "two bodies": "old: x + 1\nnew: x + 2\nold: x * 2\nnew: x * 3\n",
            "it can't be applied": "old: x + 3\nnew: x\n",
        }.items():
            with self.subTest(name):
                self.assertIsNone(self.mutant(steps))

    def refused(self, *lines, status=1, last=LAST, refused=("other",)):
        """The places of which such a check tells a fault."""
        texts = try_mutants.texts_of(self.crate, self.group)
        status, text = said_of(*lines, status=status, last=last, refused=refused)
        return try_mutants.refused_in(kit.Said(RT, status, text, texts), texts, self.group)

    def test_a_fault_in_the_function(self):
        for line in (
            "src/lib.rt:10:5: error: `other`: it is not proved that what the function ensures holds",
            "note: src/lib.rt:10:5: it is not proved that what the function ensures holds",
        ):
            with self.subTest(line):
                self.assertEqual(self.refused(line), {("src/lib.rt", 4): line})

    def test_a_fault_in_its_proofs(self):
        line = "note: proofs/lib/other/Answers.antt:3:5: error: the two sides differ"
        self.assertEqual(self.refused(line), {("src/lib.rt", 4): line})

    def test_faults_that_show_nothing(self):
        """Of another function, of a name that a proof file misses, of no kind, of one that is proved, and of a check that gave no
        verdict."""
        other, own = (f"src/lib.rt:{line}:5: error: `f`: it is not proved that it holds" for line in (2, 10))
        self.assertEqual([*self.refused(own)], [("src/lib.rt", 4)])
        self.assertEqual(self.refused(other), {})
        self.assertEqual(self.refused(own, other), {})  # more is wrong than what was changed
        self.assertEqual(self.refused("proofs/lib/other/Answers.antt:3:5: error: `x` is not in scope"), {})
        self.assertEqual(self.refused("src/lib.rt:10:5: warning: it is long"), {})
        self.assertEqual(self.refused(own, refused=()), {})
        self.assertEqual(self.refused(own, refused=("one",)), {})
        self.assertEqual(self.refused(own, status=3), {})
        self.assertEqual(self.refused(own, last="rattle: no verdict"), {})
        self.assertEqual(self.refused(own, "src/lib.rt:2:5: error: antt ran out of stack"), {})
        self.assertEqual(self.refused(own, "src/lib.rt:2:5: error: `y` is not in scope"), {})

    def test_a_fault_that_follows(self):
        """What rests on a function that was refused is no fault of its own."""
        after = "proofs/lib/one/Proof.antt:1:1: error: `met` was not admitted"
        self.assertEqual([*self.refused(A, after, refused=("one", "other"))], [("src/lib.rt", 4)])

    def test_groups(self):
        """In none a function stands twice, and none is too large."""
        places = [SimpleNamespace(place=it) for it in ("a", "b", "a", "c", "a")]
        self.assertEqual([[it.place for it in group] for group in try_mutants.grouped(places)], [["a", "b", "c"], ["a"], ["a"]])
        many = [SimpleNamespace(place=it) for it in range(try_mutants.MOST + 1)]
        self.assertEqual([len(it) for it in try_mutants.grouped(many)], [try_mutants.MOST, 1])


class Tried(unittest.TestCase):
    """What is told of mutants, by what checks say."""

    def setUp(self):
        self.folder = Path(self.enterContext(tempfile.TemporaryDirectory()))
        (self.folder / "src").mkdir()
        (self.folder / "src/lib.rt").write_text(SOURCE)
        for name, change in {"a": "x + 1\nnew: x + 2", "b": "x * 2\nnew: x * 3"}.items():
            (self.folder / f"{name}.edit").write_text(f"file: src/lib.rt\nold: {change}\n")

    def tried(self, *said, whole=NOT_REFUSED, does="try_groups"):
        """What is told of both, and which functions each check was asked."""
        crate = Crate(self.folder, *said, whole=whole)
        trial = try_mutants.Trial(crate, sorted(self.folder.glob("*.edit")), self.folder)
        with contextlib.redirect_stdout(io.StringIO()) as printed:
            getattr(trial, does)()
        return printed.getvalue().splitlines(), crate.asked

    def test_both_at_once(self):
        lines, asked = self.tried(said_of(A, B, refused=("one", "other")))
        self.assertEqual(lines, [line_of("a", A), line_of("b", B)])
        self.assertEqual(asked, [["one", "other"]])

    def test_one_by_one(self):
        """What isn't shown together is tried alone."""
        lines, asked = self.tried(said_of(A, refused=("other",)), said_of(B, refused=("one",)))
        self.assertEqual(lines, [line_of("a", A), line_of("b", B)])
        self.assertEqual(asked, [["one", "other"], ["one"]])

    def test_another_name(self):
        """Of a function that a check has under another name its module is checked."""
        lacking = (2, "rattle: error: `walk` has no function `one`: help: write the name that a check prints after `fn`\n")
        lines, asked = self.tried(lacking, said_of(A, B, refused=("one", "other")))
        self.assertEqual(len(lines), 2)
        self.assertEqual(asked, [["one", "other"], ["", "other"]])

    def test_by_a_check_of_the_whole(self):
        for text in (REFUSED, NOT_REFUSED):
            with self.subTest(text):
                lines, asked = self.tried(whole=text, does="try_whole")
                self.assertEqual(lines, [line_of("a", text, ""), line_of("b", text, "")])
                self.assertEqual(asked, [])


if __name__ == "__main__":
    unittest.main()

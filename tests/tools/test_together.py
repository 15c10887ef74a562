"""The mutants that the gate tries together: each has to be refused plainly, in this run or in one that is kept."""

import tempfile
import unittest
from pathlib import Path
from types import SimpleNamespace
from unittest import mock

import edits
import gate
import kit
import refusals
import together
from tests.tools.repository import Repository
from tests.tools.test_gate import NO_PLAIN_REFUSALS, REFUSED, said_of

NAMES = "walk/third.edit", "walk/fourth.edit"
# What stands in for tools/kit.py, and for tools/try_mutants.py, which says this of each mutant.
KIT = """
def load_rt():
    return None


class Crate:
    def __init__(self, rt, repository, name):
        pass

    def sum(self):
        return "a sum"
"""
TRIES = """
import sys
from pathlib import Path
room, name, folder = sys.argv[1:]
print("rt: a line of its own")
for edit in sorted(Path(folder).iterdir()):
    assert (Path(room) / "crates" / name).is_dir()
    print(f"mutants: {{name}}/{{edit.name}}: {}", flush=True)
"""


class Kept(dict):
    """What is kept, in memory."""

    def find(self, name):
        return self.get(name)

    def keep(self, name, came):
        self[name] = came


class Noted(unittest.TestCase):
    """What is noted and kept of two mutants of one crate."""

    def setUp(self):
        self.folder = Path(self.enterContext(tempfile.TemporaryDirectory()))
        (self.folder / "crates/walk/gate-mutants").mkdir(parents=True)
        for name in NAMES:
            (self.folder / "crates/walk/gate-mutants" / name.partition("/")[2]).write_text(f"of {name}\n")
        self.kept, self.sum = Kept(), "a sum"
        for holder, name, other in (
            (edits, "ROOT", self.folder),
            (together, "Kept", lambda: self.kept),
            (kit, "load_rt", lambda: None),
            (kit, "Crate", lambda *_: SimpleNamespace(sum=lambda: self.sum)),
        ):
            self.enterContext(mock.patch.object(holder, name, other))

    def left(self):
        """A run that begins: what is left, by name."""
        return {f"walk/{it.name}" for it in together.Together(["walk", "kbroker"]).left_of("walk")}

    def said(self, *texts):
        """A run in which this is said of the mutants."""
        run = together.Together(["walk", "kbroker"])
        for name, text in zip(NAMES, texts):
            run.see(f"{refusals.line_of(*name.split('/'), text)}\n")
        return run

    def test_a_refusal_is_kept(self):
        self.assertEqual(self.left(), {*NAMES})
        self.said(REFUSED)
        self.assertEqual(self.left(), {NAMES[1]})
        self.said(REFUSED, REFUSED)
        self.assertEqual(self.left(), set())
        self.assertEqual(gate.judged_together(together.Together(["walk"])), (2, 0, []))

    def test_what_it_rests_on(self):
        """Sources, the edit, and what judges it: where one of these changes it is tried again."""
        self.said(REFUSED, REFUSED)
        with mock.patch.object(self, "sum", "another sum"):
            self.assertEqual(self.left(), {*NAMES})
        with mock.patch.object(together, "JUDGES", together.JUDGES[:1]):
            self.assertEqual(self.left(), {*NAMES})
        (self.folder / "crates/walk/gate-mutants/third.edit").write_text("another\n")
        self.assertEqual(self.left(), {NAMES[0]})

    def test_no_plain_refusal_is_kept(self):
        for name, (text, _) in NO_PLAIN_REFUSALS.items():
            if text is not None:
                with self.subTest(name):
                    run = self.said(text)
                    self.assertEqual(self.kept, {})
                    passed, failed, faults = gate.judged_together(run)
                    self.assertEqual((passed, failed), (0, 2))
                    self.assertIn(f"mutant {NAMES[0]}: {' '.join(text.split())}", faults)

    def test_a_kept_text_that_is_no_plain_refusal(self):
        self.said(REFUSED, REFUSED)
        for name in self.kept:
            self.kept[name] = "another text"
        self.assertEqual(self.left(), {*NAMES})

    def test_what_was_not_tried_is_left(self):
        run = self.said("NOT TRIED: its check was killed", "NOT REFUSED: the crate is still proved with this edit")
        self.assertEqual([it.name for it in run.left_of("walk")], ["third.edit"])
        run.see(f"{refusals.line_of('walk', 'third.edit', REFUSED)}\n")  # the last word counts
        self.assertEqual(gate.judged_together(run)[:2], (1, 1))

    def test_lines_of_others(self):
        run = self.said()
        run.see(f"{refusals.line_of('walk', 'fifth.edit', REFUSED)}\n")
        run.see("rt: walk proved\n")
        self.assertEqual(run.said, {})
        self.assertEqual(gate.judged_together(run)[:2], (0, 2))


class Whole(unittest.TestCase):
    """The gate, over a small repository with such mutants."""

    def gate(self, text):
        """What the gate comes to where this is said of each, in two runs of it."""
        with Repository() as repository:
            cache = repository.top / "cache"
            cache.mkdir()
            folder = repository.folder / "crates/walk/gate-mutants"
            folder.mkdir(parents=True)
            for name in NAMES:
                (folder / name.partition("/")[2]).touch()
            (repository.folder / "tools/kit.py").write_text(KIT)
            (repository.folder / "tools/try_mutants.py").write_text(TRIES.format(text))
            repository.say(said_of(REFUSED))
            ends = [repository.run("tools/gate.py", XDG_CACHE_HOME=str(cache)) for _ in range(2)]
            self.assertEqual(repository.left()[1], [], "files are left")
            return ends

    def test_all_are_refused(self):
        for status, lines in self.gate(REFUSED):
            self.assertEqual(status, 0, lines)
            self.assertIn("4 mutants refused", lines[-1])

    def test_one_is_not(self):
        for status, lines in self.gate(NO_PLAIN_REFUSALS["not refused"][0]):
            self.assertEqual(status, 1)
            self.assertRegex(lines[-1], r"\A\d+ passed, 2 failed \(2 crates proved, 2 mutants refused")
            self.assertTrue(any(it.startswith(f"gate: mutant {NAMES[0]}: NOT REFUSED: ") for it in lines), lines)


if __name__ == "__main__":
    unittest.main()

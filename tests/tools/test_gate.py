"""What the gate makes of what rt says: each mutant of the repository has to be refused, plainly and by the last word."""

import contextlib
import io
import unittest
from unittest import mock

import gate
import refusals
from tests.tools.repository import MUTANTS, PROVED, Repository

NAMES = [f"walk/{it}.edit" for it in MUTANTS]
# Lines as rt writes them of a mutant.
REFUSED = "refused, as it must be: src/seek.rt:41:9: error: `seek`: it is not proved that what the function ensures holds"
BARE = "refused, as it must be"
FOR_A_NAME = (
    "refused, as it must be (only because a proof file names what the edit took away, so this says little of the contract: "
    "change a value and keep the names): proofs/seek/Answers.antt:3:5: error: `found` is not in scope"
)
AT_A_LIMIT = (
    "refused, as it must be (only by a limit of the prover, which gave no verdict, so this says less of the contract: choose a "
    "change that it refuses sooner): src/seek.rt:41:9: error: antt ran out of stack"
)
BAD = "BAD EDIT: an 'old:' text is in src/seek.rt 0 times, and not once"
NOT_COMPILED = "BAD EDIT: it did not reach the prover; the first lines of what it said:\nsrc/seek.rt:41:9: error[some-code]"
NOT_REFUSED = (
    "NOT REFUSED: the crate is still proved with this edit (one that means the same as before cannot be refused: remove it)"
)
NOT_TRIED = "NOT TRIED: its check was killed, most likely for memory, so nothing is known of it: run this again"
TRIED_BEFORE = "must-fail edits were tried by an earlier run on this machine, and nothing that they stand on has changed"
# What rt counts for one of two mutants: it passes, it fails nothing, or it fails.
PASSED, UNCOUNTED, FAILED = (4, 0), (3, 0), (3, 1)
NO_PLAIN_REFUSALS = {
    "for a name": (FOR_A_NAME, PASSED),
    "at a limit": (AT_A_LIMIT, PASSED),
    "bad": (BAD, UNCOUNTED),
    "not compiled": (NOT_COMPILED, UNCOUNTED),
    "not refused": (NOT_REFUSED, FAILED),
    "not tried": (NOT_TRIED, FAILED),
    "nothing is said": (None, UNCOUNTED),
}


# A page with the place of the table, which tools/gate_times.py writes.
PAGE = "before\n<!-- made by tools/gate_times.py -->\n\n{}\n\n<!-- so far -->\nafter\n"


def line_of(name, text):
    """What rt says of a mutant."""
    return "" if text is None else f"rt: must-fail {name}: {text}\n"


def said_of(one, other=REFUSED, counted=PASSED):
    """What `rt ci` says of a repository of two crates, with this of their mutants."""
    passed, failed = counted
    lines = [
        "rt: walk is kept: an earlier run on this machine proved the same files over the same libraries",
        "== kbroker",
        "rt: kbroker proved",
        f"rt: walk: 2 of its 2 {TRIED_BEFORE}",
        *(line_of(NAMES[0], one) + line_of(NAMES[1], other)).splitlines(),
        f"rt: FAILED: {NAMES[0]}" if failed else "rt: ok; handles allowed: none; must-fail edits: 2 refused",
        f"{passed} passed, {failed} failed",
    ]
    return "".join(f"{it}\n" for it in lines)


class Judged(unittest.TestCase):
    """What a text comes to."""

    def judged(self, text, status=0, wanted=NAMES):
        return gate.judged(text, status, {*wanted})

    def test_all_are_refused(self):
        """Also where rt names no place, and of what an earlier run has tried, of which rt says the same."""
        for text in (REFUSED, BARE):
            with self.subTest(text):
                self.assertEqual(self.judged(said_of(text)), (4, 0, []))

    def test_what_is_no_plain_refusal_fails(self):
        """It passes nothing and fails once, though rt passes it, leaves it out, or fails it itself."""
        for name, (text, counted) in NO_PLAIN_REFUSALS.items():
            with self.subTest(name):
                passed, failed, faults = self.judged(said_of(text, counted=counted), counted[1])
                self.assertEqual((passed, failed), (3, 1))
                first = (text or refusals.NOTHING_SAID).splitlines()[0]
                self.assertEqual(faults[-1], f"must-fail {NAMES[0]}: {first}")

    def test_both_fail(self):
        passed, failed, faults = self.judged(said_of(BAD, FOR_A_NAME, UNCOUNTED))
        self.assertEqual((passed, failed, len(faults)), (2, 2, 2))

    def test_a_mutant_that_the_files_have_and_rt_does_not(self):
        """So one that stands in a folder that rt doesn't look at, or in a crate that isn't proved."""
        passed, failed, faults = self.judged(said_of(REFUSED), wanted=[*NAMES, "walk/third.edit"])
        self.assertEqual((passed, failed), (4, 1))
        self.assertEqual(faults, [f"must-fail walk/third.edit: {refusals.NOTHING_SAID}"])

    def test_a_mutant_of_another_crate_does_not_count(self):
        passed, failed, _ = self.judged(said_of(REFUSED), wanted=[*NAMES, "kbroker/one.edit"])
        self.assertEqual((passed, failed), (4, 1))

    def test_one_word_more_that_is_not_plain(self):
        """A mutant has to be refused by all that is said of it."""
        for lines in ((REFUSED, BAD), (BAD, REFUSED)):
            with self.subTest(lines):
                text = said_of(lines[0]) + line_of(NAMES[0], lines[1])
                self.assertEqual(self.judged(text)[1], 1)

    def test_other_failures(self):
        """A crate, a test of a crate, a run that ends early, and one that says nothing of how many passed."""
        rows = (
            ("rt: FAILED: walk\n1 passed, 1 failed\n", 1, (1, 3)),
            ("test served::one ... FAILED\nrt: FAILED: walk (tests)\n1 passed, 1 failed\n", 1, (1, 3)),
            ("", -15, (0, 3)),
            ("4 passed, 0 failed (walk and the crates below alone: not the gate)\n", 0, (0, 3)),
            (said_of(REFUSED), 2, (4, 1)),
        )
        for text, status, counted in rows:
            with self.subTest(text):
                passed, failed, faults = self.judged(text, status)
                self.assertEqual((passed, failed), counted)
                self.assertTrue(faults)

    def test_sums(self):
        text = said_of(REFUSED, FOR_A_NAME) + "test result: ok. 7 passed; 0 failed\n"
        sums = "2 crates proved, 1 mutants refused, 7 tests of crates"
        self.assertEqual(gate.sums_of(PROVED + text, text, {*NAMES}), sums)


class Disk(unittest.TestCase):
    def told(self, least):
        with mock.patch.object(gate, "LEAST_DISK", least), contextlib.redirect_stdout(io.StringIO()) as said:
            gate.tell_little_disk()
        return said.getvalue()

    def test_little_disk_is_told(self):
        """In one sentence, and nothing else comes of it."""
        self.assertEqual(self.told(0), "")
        self.assertRegex(self.told(1e18), r"\Agate: \d+ GB of disk are free, and below 1000000000 rt may drop .*\n\Z")


class Mutants(unittest.TestCase):
    """The mutants are tried of crates that are proved, each crate once."""

    def test_what_is_seen(self):
        mutants = gate.Mutants.__new__(gate.Mutants)
        mutants.proved, mutants.waiting = set(), []
        mutants.together = mock.Mock(left_of=lambda name: ["one"] * (name == "admission"))
        for line in ("rt: walk NOT PROVED", "rt: walk: trying its must-fail edits (4)", "rt: walk proved", "rt: walk proved"):
            mutants.see(f"{line}\n")
        # What is kept is left to the end.
        mutants.see("rt: authorizer is kept: an earlier run on this machine proved the same files over the same libraries\n")
        mutants.see("rt: kbroker proved\n")  # it has none
        mutants.see("rt: admission proved\n")  # it has some that are tried together
        self.assertEqual(mutants.waiting, ["walk", "admission"])


class Whole(unittest.TestCase):
    """The gate, over a small repository in which a script stands in for rt."""

    def setUp(self):
        self.repository = self.enterContext(Repository())

    def gate(self, last, status=0):
        self.repository.say(last, status=status)
        ended, lines = self.repository.run("tools/gate.py")
        self.assertEqual(self.repository.left()[1], [], "files are left")
        return ended, lines

    def test_all_passes(self):
        status, lines = self.gate(said_of(REFUSED))
        self.assertEqual(status, 0, lines)
        what = r"2 crates proved, 2 mutants refused, 0 tests of crates and \d+ of tests/ passed, 0 skipped, in "
        self.assertRegex(lines[-1], rf"\A\d+ passed, 0 failed \({what}")

    def test_a_bad_mutant_fails(self):
        """Though rt passes."""
        status, lines = self.gate(said_of(BAD, counted=UNCOUNTED))
        self.assertEqual(status, 1)
        self.assertIn(f"gate: must-fail {NAMES[0]}: {BAD}", lines)
        self.assertRegex(lines[-1], r"\A\d+ passed, 1 failed \(2 crates proved, 1 mutants refused")

    def test_a_case_fails(self):
        self.repository.add_module("tests.golden.test_lines", "self.fail()")
        status, lines = self.gate(said_of(REFUSED))
        self.assertEqual(status, 1)
        self.assertIn("gate: tests.golden.test_lines FAILED: 1 failed", lines)

    def test_what_it_took(self):
        """The edits that tests have to fail and the tests have rows of their own."""
        self.gate(said_of(REFUSED))
        _, lines = self.repository.run("tools/gate_times.py")
        rows = [it.split("|")[1].strip() for it in lines if it.startswith("| ")]
        self.assertIn("tests of `tests/`", rows)
        self.assertEqual(rows[-2:], ["the rest", "**all**"])
        self.assertRegex(lines[-1], r"of \d{4}-\d\d-\d\d, over commit none, by no toolchain\. It took \d+ minutes on \d+ processors ")
        self.assertRegex(lines[-1], r"It ended with `\d+ passed, 0 failed \(2 crates proved, .*`\.\Z")
        page = self.repository.folder / "docs/BUILD.md"
        page.parent.mkdir()
        page.write_text(PAGE.format("an older table"))
        self.assertEqual(self.repository.run("tools/gate_times.py", "--write"), (0, []))
        self.assertEqual(page.read_text(), PAGE.format("\n".join(lines)))
        page.write_text("no place")
        self.assertEqual(self.repository.run("tools/gate_times.py", "--write")[0], 1)


if __name__ == "__main__":
    unittest.main()

"""What `make prove` makes of what rt says: the log of each crate, and which crates aren't proved."""

import contextlib
import io
import tempfile
import unittest
from pathlib import Path
from unittest import mock

import gate_times
import program
import prove
import unproved
from tests.tools.repository import MAKE, Repository

SAID = """\
rt: walk is kept: an earlier run on this machine proved the same files over the same libraries
rt: a line of its own
== authorizer
src/book.rt:12:5: error: `book`: it is not proved that what the function ensures holds
logic=not-proved goals=1
rt: authorizer NOT PROVED
== kbroker
logic=proved
rt: kbroker proved
"""


class Follow(unittest.TestCase):
    def setUp(self):
        self.folder = Path(self.enterContext(tempfile.TemporaryDirectory()))
        self.enterContext(mock.patch.object(prove, "log_of", lambda name: self.folder / name / "prove.log"))

    def follow(self, said):
        """The crates that aren't proved, and what is shown."""
        with contextlib.redirect_stderr(io.StringIO()) as shown:
            return prove.follow(said.splitlines(keepends=True), ["walk", "authorizer", "kbroker"]), shown.getvalue()

    def test_what_is_told(self):
        refused, shown = self.follow(SAID)
        self.assertEqual(refused, ["authorizer"])
        self.assertIn("rt: a line of its own\n", shown)
        self.assertRegex(shown, r"3 of 3 crates, \d+\.\d minutes: kbroker proved\n")
        self.assertIn("it is not proved that what the function ensures holds\n", shown)
        self.assertNotIn("logic=proved", shown)  # a proof is shown where it fails

    def test_logs(self):
        self.follow(SAID)
        logs = {it.parent.name: it.read_text() for it in self.folder.glob("*/prove.log")}
        self.assertEqual({*logs}, {"authorizer", "kbroker"})  # a crate that is kept has the log of its proof
        self.assertEqual(logs["kbroker"], "logic=proved\n")
        self.assertTrue(logs["authorizer"].endswith("logic=not-proved goals=1\n"))

    def test_a_run_that_is_cut_off(self):
        """A crate of which no end is told is not taken for proved: its log is not written."""
        refused, _ = self.follow("== walk\nlogic=proved\n")
        self.assertEqual((refused, [*self.folder.iterdir()]), ([], []))


class Minutes(unittest.TestCase):
    def test_the_page_has_them(self):
        """They stand in docs/BUILD.md alone, and what tells of them reads them there."""
        minutes = program.proving_time()
        self.assertRegex(minutes, r"\d+ minutes\Z")
        self.assertIn(f"| `make prove` where nothing is built | {minutes} |\n", program.BUILD_PAGE.read_text())
        with contextlib.redirect_stderr(io.StringIO()) as told:
            unproved.tell_of(unproved.UNPROVED)
        self.assertIn(minutes, told.getvalue())

    def test_the_page_has_the_place_of_the_table(self):
        """Which tools/gate_times.py writes."""
        self.assertEqual(len(gate_times.PART.findall(program.BUILD_PAGE.read_text())), 1)


class Whole(unittest.TestCase):
    """`make prove` over a small repository in which a script stands in for rt."""

    def setUp(self):
        self.repository = self.enterContext(Repository())
        (self.repository.folder / "crates/kbroker/src/main.rt").touch()

    def prove(self, said, status):
        (self.repository.top / "said").write_text(said)
        self.repository.set_rt(f'{MAKE}\ncat "{self.repository.top}/said"\nexit {status}\n')
        ended, lines = self.repository.run("tools/prove.py")
        self.assertEqual(self.repository.left(), ([], []))
        return ended, lines[-1]

    def test_all_is_proved(self):
        last = "kbroker: proved and built: crates/kbroker/out/kbroker"
        self.assertEqual(self.prove("rt: walk proved\nrt: kbroker proved\n", 0), (0, last))
        self.assertEqual(self.repository.run("tools/program.py"), (0, []))

    def test_a_crate_is_not_proved(self):
        """Whatever the status is, and the program isn't put in its place."""
        for status in (0, 1):
            with self.subTest(status):
                ended, last = self.prove("== walk\nrt: walk NOT PROVED\nrt: kbroker proved\n", status)
                self.assertEqual((ended, last), (1, "kbroker: walk is not proved: see crates/walk/out/prove.log"))
                self.assertFalse((self.repository.folder / "crates/kbroker/out/kbroker").exists())

    def test_rt_fails(self):
        ended, last = self.prove("rt: walk proved\nrt: kbroker proved\n", 2)
        self.assertEqual((ended, last), (1, "kbroker: rt ci ended with status 2: see its last lines above"))


if __name__ == "__main__":
    unittest.main()

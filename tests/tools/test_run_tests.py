"""`make test`, over a small repository in which a script stands in for rt: over which program it runs the tests, and what it
says."""

import os
import shutil
import textwrap
import unittest

from tests.tools.repository import Repository

LOADER = "/lib64/ld-linux-x86-64.so.2"  # `rt try` needs x86-64
NOT_PROVED, PROVED = "(not proved: make verify proves it)", "(proved)"
# As rt does, it runs what it has compiled by the loader, in a folder that has the program.
RT = """
    echo called >> {calls}
    cd "$TMPDIR" && cp /bin/true program
    {loader} /bin/sleep 600 &
    trap 'kill $!; exit 143' TERM
    wait
"""
# A case that fails where it isn't run over this program.
CASE = "import os; self.assertEqual(os.environ['KBROKER'], {!r})"


class RunTests(unittest.TestCase):
    def setUp(self):
        self.repository = self.enterContext(Repository())
        self.unproved = self.repository.folder / "out/unproved/kbroker"
        self.proved = self.repository.folder / "crates/kbroker/out/kbroker"
        self.calls = self.repository.top / "calls"
        (self.repository.folder / "examples").mkdir()
        (self.repository.folder / "examples/server.toml").touch()
        (self.repository.folder / "crates/walk/src/lib.rt").touch()
        self.repository.set_rt(RT.format(calls=self.calls, loader=LOADER))

    def run_tests(self, *words, status=0, **environment):
        """The lines of a run, and how often rt was called so far."""
        ended, lines = self.repository.run("tools/run_tests.py", *words, **environment)
        self.assertEqual(ended, status, lines)
        self.assertEqual(self.repository.left(), ([], []))
        return lines, len(self.calls.read_text().split()) if self.calls.exists() else 0

    def wants(self, program):
        """Has a case want to be run over this program."""
        self.repository.add_module("tests.golden.test_lines", CASE.format(str(program)))

    def make_proved(self):
        """Puts a program where the proved one stands."""
        self.proved.parent.mkdir(parents=True)
        shutil.copy("/bin/true", self.proved)

    def test_where_nothing_is_built(self):
        """It is compiled, once for as long as no source changes."""
        self.wants(self.unproved)
        for source, calls in ((None, 1), (None, 1), ("crates/walk/src/lib.rt", 2)):
            with self.subTest(source=source):
                if source:
                    os.utime(self.repository.folder / source)
                lines, called = self.run_tests()
                self.assertEqual(called, calls)
                self.assertRegex(lines[-1], r"\A\d+ passed, 0 failed, 0 skipped, in \d")
                self.assertTrue(lines[-1].endswith(NOT_PROVED), lines[-1])

    def test_a_source_that_changes_meanwhile(self):
        """What was compiled is as old as the reading of its sources, so it is compiled once more."""
        script = RT.format(calls=self.calls, loader=LOADER)
        self.repository.set_rt(f'touch "{self.repository.folder}/crates/walk/src/lib.rt"\n{textwrap.dedent(script)}')
        for calls in (1, 2):
            self.assertEqual(self.run_tests("-k", "test_lines")[1], calls)

    def test_where_it_is_proved(self):
        self.make_proved()
        self.wants(self.proved)
        lines, called = self.run_tests()
        self.assertEqual(called, 0)
        self.assertTrue(lines[-1].endswith(PROVED), lines[-1])

    def test_where_the_proved_one_is_older(self):
        self.make_proved()
        os.utime(self.proved, (0, 0))
        self.wants(self.unproved)
        lines, called = self.run_tests()
        self.assertEqual(called, 1)
        self.assertTrue(lines[-1].endswith(NOT_PROVED), lines[-1])

    def test_where_it_does_not_compile(self):
        self.repository.set_rt("echo 'src/main.rt:1:1: error'; exit 1")
        lines, _ = self.run_tests(status=1)
        self.assertEqual(lines[-1], "tests: FAILED: the program doesn't compile")

    def test_another_program(self):
        self.wants("/bin/true")
        lines, called = self.run_tests(KBROKER="/bin/true")
        self.assertEqual(called, 0)
        self.assertTrue(lines[-1].endswith("(over /bin/true)"), lines[-1])

    def test_cases_by_their_names(self):
        """What needs no program waits for no compilation."""
        lines, called = self.run_tests("-k", "test_edits")
        self.assertEqual((lines[-1], called), ("tests: passed (no program is needed)", 0))
        lines, called = self.run_tests("-k", "test_lines")
        self.assertEqual((lines[-1], called), (f"tests: passed {NOT_PROVED}", 1))

    def test_a_case_fails(self):
        self.wants("/none")
        lines, _ = self.run_tests(status=1)
        self.assertRegex(lines[-1], r"\A\d+ passed, 1 failed, 0 skipped, in \d")
        lines, _ = self.run_tests("-k", "test_lines", status=1)
        self.assertEqual(lines[-1], f"tests: FAILED {NOT_PROVED}")


if __name__ == "__main__":
    unittest.main()

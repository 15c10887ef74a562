"""What is stopped leaves nothing: a signal to the harness or the gate ends all that they began, and their files go.

A script stands in for rt. As rt does, it has a process in a session of its own, and ends that and removes its folder where it is
told to end; where it is killed, both stay.
"""

import os
import signal
import unittest

from kbroker_testing.waiting import wait_until
from processes import children_of, processes
from tests.harness import ON_SOURCES
from tests.tools.repository import EDITS, PROVED, TRIED_AT_ONCE, WAIT, Repository

# Each call notes its number, and that of the process that it started, which does so: before it runs a signal to it may get lost.
RT = """
    room=$TMPDIR/rt-$$
    trap 'kill $!; rm -rf "$room"; exit 143' TERM
    mkdir "$room"
    setsid sh -c 'echo $0 $$ >> {begun}; exec sleep 600' $$ &
    wait
"""
# One that can't be told to end.
DEAF = """
    trap '' TERM
    echo $$ $$ >> {begun}
    exec sleep 600
"""
# One that ends at once, and leaves a process in a session of its own, as `rt ci` does where it runs a program.
LEAVING = """
    setsid sh -c 'echo $0 $$ >> {begun}; exec sleep 600' $$ &
    wait
"""
# A case that calls it, and sees to nothing.
CALLS = 'import subprocess; subprocess.Popen(["rt", "try"]).wait()'
# The tests that try edits, as they are, and how many calls of rt they have side by side: of the first more wait in turn.
FAILING, COMPILING = (ON_SOURCES, TRIED_AT_ONCE), ("tests.sources.test_must_not_compile", len(EDITS))


class Signals(unittest.TestCase):
    def setUp(self):
        self.repository = self.enterContext(Repository())
        self.begun = self.repository.top / "begun"
        self.begun.touch()
        self.repository.set_rt(RT.format(begun=self.begun))
        self.repository.add_edits()

    def started(self):
        """The processes that the calls of rt so far noted."""
        return [int(it) for it in self.begun.read_text().split()]

    def left(self):
        """Those of them that run, and what else is left."""
        running = [it for it in self.started() if os.path.exists(f"/proc/{it}") and not is_dead(it)]
        return running, *self.repository.left()

    def assert_ends(self, process, number, calls, leaves_files=False):
        """Sends a signal once so many calls of rt run. Then all of it ends."""
        self.addCleanup(self.end_all)
        wait_until(lambda: len(self.started()) >= 2 * calls, WAIT, "rt wasn't called")
        process.send_signal(number)
        said, _ = process.communicate(timeout=WAIT)
        self.assertEqual(process.returncode, -number if number == signal.SIGKILL else 128 + number, said)
        if number == signal.SIGKILL:  # it waits for nothing
            wait_until(lambda: self.left()[:2] == ([], []), WAIT, "processes are left")
        running, working, files = self.left()
        self.assertEqual((running, working), ([], []))
        if not leaves_files:
            self.assertEqual(files, [])

    def end_all(self):
        for it in self.started():
            if not is_dead(it):
                os.kill(it, signal.SIGKILL)

    def test_the_harness(self):
        for number in (signal.SIGTERM, signal.SIGINT, signal.SIGHUP):
            with self.subTest(number=number):
                self.begun.write_text("")
                self.assert_ends(self.repository.start("-m", "tests.harness", FAILING[0]), number, FAILING[1])

    def test_the_harness_is_killed(self):
        """Its modules end all the same. The files of the harness itself stay, as it can put away nothing."""
        for module, calls in (FAILING, COMPILING):
            with self.subTest(module=module):
                self.begun.write_text("")
                self.assert_ends(self.repository.start("-m", "tests.harness", module), signal.SIGKILL, calls, leaves_files=True)

    def test_what_the_compiler_refuses(self):
        self.assert_ends(self.repository.start("-m", "tests.harness", COMPILING[0]), signal.SIGTERM, COMPILING[1])

    def test_cases_by_their_names(self):
        self.assert_ends(self.repository.start("-m", "tests.harness", "-k", "failing_tests"), signal.SIGTERM, FAILING[1])

    def test_a_module_that_sees_to_nothing(self):
        """What it started is told to end, and is killed where it doesn't."""
        self.repository.add_module(FAILING[0], CALLS)
        for script in (RT, DEAF):
            with self.subTest(script):
                self.begun.write_text("")
                self.repository.set_rt(script.format(begun=self.begun))
                self.assert_ends(self.repository.start("-m", "tests.harness", FAILING[0]), signal.SIGTERM, 1)

    def assert_fails(self, process):
        """The harness ends by itself, as a module failed, and nothing is left."""
        self.addCleanup(self.end_all)
        said, _ = process.communicate(timeout=WAIT)
        self.assertEqual(process.returncode, 1, said)
        wait_until(lambda: self.left() == ([], [], []), WAIT, "processes are left")

    def test_a_module_is_killed(self):
        """As where memory runs out. What it started is told to end."""
        for name, calls in (FAILING, COMPILING):
            with self.subTest(name):
                self.begun.write_text("")
                process = self.repository.start("-m", "tests.harness", name)
                wait_until(lambda calls=calls: len(self.started()) >= 2 * calls, WAIT, "rt wasn't called")
                [module] = children_of(processes())[process.pid]
                os.kill(module, signal.SIGKILL)
                self.assert_fails(process)

    def test_a_copy_that_takes_too_long(self):
        """It is told to end, and the others after it are tried."""
        module = self.repository.folder / "tests/sources/test_failing_tests.py"
        module.write_text(module.read_text().replace("LIMIT = 7200 ", "LIMIT = 1 "))
        self.assert_fails(self.repository.start("-m", "tests.harness", FAILING[0]))
        self.assertEqual(len(self.started()), 2 * (len(EDITS) + 1))

    def test_what_is_begun_after_a_signal(self):
        """It doesn't ignore signals, as it would where they were ignored by who began it."""
        begins = "import prove, subprocess; prove.pass_over_signals(); it = subprocess.Popen(['sleep', '600']); it.terminate()"
        status, lines = self.repository.run("-c", f"import sys; sys.path.insert(0, 'tools'); {begins}; print(it.wait())")
        self.assertEqual((status, lines), (0, [str(-signal.SIGTERM)]))

    def test_the_gate_as_it_proves(self):
        """First a copy of the crate on which most others stand, and one of those beside it; that of the program isn't begun. Of
        those that have an edit one is tried beside them."""
        self.assert_ends(self.repository.start("tools/gate.py"), signal.SIGTERM, 3)
        self.assertEqual(len(self.started()), 6, "rt was called once more")

    def test_the_gate_as_it_tries_edits(self):
        """Over copies rt is done at once. What is left are calls of the tests that try edits, and that over the repository."""
        script = f'[ "$1" = try ] || [ "$PWD" = "{self.repository.folder}" ] || exec printf "{PROVED}"\n'
        self.repository.set_rt(script + RT.format(begun=self.begun))
        self.assert_ends(self.repository.start("tools/gate.py"), signal.SIGTERM, FAILING[1] + 1)

    def test_make_prove(self):
        self.assert_ends(self.repository.start("tools/prove.py"), signal.SIGTERM, 1)

    def test_what_rt_leaves(self):
        """It goes too."""
        rows = (["tools/prove.py"], 1), (["tools/gate.py"], 3), (["-m", "tests.harness", FAILING[0]], FAILING[1])
        for words, calls in rows:
            with self.subTest(words):
                self.begun.write_text("")
                self.repository.set_rt(LEAVING.format(begun=self.begun))
                self.assert_ends(self.repository.start(*words), signal.SIGTERM, calls)

    def test_a_compilation(self):
        """That of `make test`, and of `make check`."""
        (self.repository.folder / "examples").mkdir()
        (self.repository.folder / "examples/server.toml").touch()
        for number in (signal.SIGTERM, signal.SIGKILL):
            with self.subTest(number=number):
                self.begun.write_text("")
                self.assert_ends(self.repository.start("tools/run_tests.py"), number, 1, number == signal.SIGKILL)


def is_dead(process):
    """Whether a process has ended."""
    try:
        with open(f"/proc/{process}/stat", encoding="utf-8") as it:
            return it.read().rpartition(")")[2].split()[0] == "Z"
    except (FileNotFoundError, ProcessLookupError):  # it has ended before it was opened, or before it was read
        return True


if __name__ == "__main__":
    unittest.main()

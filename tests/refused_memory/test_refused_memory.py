"""Refuses each allocation in turn: of `kbroker replay` over the program's stored run and each script of examples/, of
`kbroker check` over the settings of each, and of `kbroker show` over one of them.

A run that goes on without the memory, as where a buffer that can't grow ahead grows by what is needed, writes what the
whole run writes. Any other ends with status 1, and has written the front of that, after which at most one of the
lines `stop 1` and `settings refused: NoMemory` stands, the second only where nothing else was written. Each of the two
has to be seen, and of `check` the second. `show` says on standard error that memory was refused, and has written whole
lines. A command line that could not be taken in ends with status 2 and says why on standard error alone.
"""

import re
import subprocess

from program import ROOT
from tests.refused_memory.refusing import RefusingCase
from tests.support import PROGRAM

STOP, SETTINGS = b"stop 1\n", b"settings refused: NoMemory\n"
# How the last lines of each command may be, where memory was refused; each of these is seen.
LAST = {"replay": {STOP, SETTINGS}, "check": {SETTINGS}, "show": {b""}}
# The second before the command line is taken in.
SAYS_WHY = re.compile(rb"^kbroker: (show|standard input): there is not enough memory$|^Error: Kind\(OutOfMemory\)$", re.M)
STORED_RUN = ROOT / "crates/kbroker/stdin"
SHOWN = ROOT / "examples/fencing.txt"
FEWEST = 10


def last_line(output, whole):
    """The last line of an output that is a front of the whole one and at most such a line, or None."""
    for line in (STOP, SETTINGS, b""):
        front = output[: len(output) - len(line)]
        if output.endswith(line) and whole.startswith(front):
            return line
    return None


def fault_of(command, ran, whole):
    """What is wrong with a run, and the last line of one that ended early; each may be None."""
    if ran.returncode == whole.returncode and ran.stdout == whole.stdout:
        return None, None
    if ran.returncode == 2 and ran.stdout == b"" and ran.stderr:
        return None, None  # the command line was not taken in
    line = last_line(ran.stdout, whole.stdout)
    if ran.returncode != 1 or line is None:
        return f"ends so: {ran}", None
    if line == SETTINGS and ran.stdout != line:
        return "refuses the settings after the script", line
    if command == "show" and not (SAYS_WHY.search(ran.stderr) and ran.stdout[-1:] in (b"", b"\n")):
        return "doesn't tell it, or not in whole lines", line
    return None, line


class RefusedMemory(RefusingCase):
    def run_program(self, command, text, refused_at):
        """The program's run, in which this allocation is refused, or none for 0."""
        where = self.environment(refused_at)
        return subprocess.run([PROGRAM, command], input=text, capture_output=True, env=where, timeout=60)

    def refuse_each(self, command, text):
        """Refuses each allocation of a command in turn."""
        whole = self.run_program(command, text, 0)
        self.assertEqual(whole.returncode, 0, whole.stderr)
        count, seen, faults = self.counted(whole.stderr.decode(), FEWEST), set(), []
        for at, ran in self.each_refused(count, lambda it: self.run_program(command, text, it)):
            fault, line = fault_of(command, ran, whole)
            seen.add(line)
            faults += [f"where allocation {at} of {count} is refused, it {fault}"] * bool(fault)
        self.assert_no_faults(faults)
        self.assertGreaterEqual(seen, LAST[command], "the last lines")

    def refuse_each_of_script(self, script):
        """Refuses each of a script's replay, and each of the check of its settings."""
        text = script.read_bytes()
        for command, given in (("replay", text), ("check", text.partition(b"---\n")[0])):
            with self.subTest(script=script.name, command=command):
                self.refuse_each(command, given)

    def test_the_stored_run(self):
        self.refuse_each_of_script(STORED_RUN)

    def test_examples(self):
        scripts = sorted((ROOT / "examples").glob("*.txt"))
        self.assertIn(SHOWN, scripts)
        for script in scripts:
            self.refuse_each_of_script(script)

    def test_show_of_fencing(self):
        self.refuse_each("show", SHOWN.read_bytes())

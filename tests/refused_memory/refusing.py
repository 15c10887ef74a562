"""Runs programs in which one allocation is refused, for the tests that refuse each in turn."""

import os
import re
import subprocess
import tempfile
import unittest
from concurrent.futures import ThreadPoolExecutor
from pathlib import Path

from program import ROOT
from tests.support import needs_crate, needs_proved_program

REFUSED_RUNS = ROOT / "crates/refused_runs/out/refused_runs"
NOT_BEGUN, FAILED = 3, 1  # the statuses of that program
COUNTED = re.compile(r"^allocations: (\d+)$", re.M)
MOST_FAULTS = 5  # that are told of a run whose allocations are refused in turn


needs_refused_runs = needs_crate(REFUSED_RUNS)


@needs_proved_program("an allocator is preloaded")
class RefusingCase(unittest.TestCase):
    """Tests that preload the library which refuses an allocation."""

    @classmethod
    def setUpClass(cls):
        cls.folder = Path(cls.enterClassContext(tempfile.TemporaryDirectory()))
        cls.library = cls.folder / "refuse_memory.so"
        compiler = os.environ.get("CC", "cc")
        source = Path(__file__).parent / "refuse_memory.c"
        subprocess.run([compiler, "-O2", "-shared", "-fPIC", "-o", cls.library, source], check=True)

    def environment(self, refused_at):
        """The environment of a program in which the allocation of this number is refused, or none for 0."""
        return {"LD_PRELOAD": str(self.library), "REFUSE_AT": str(refused_at)}

    def counted(self, told, fewest):
        """How many allocations there were, by what a program in which none was refused said on standard error."""
        found = COUNTED.search(told)
        self.assertIsNotNone(found, told)
        self.assertGreaterEqual(int(found[1]), fewest, "allocations were seen")
        return int(found[1])

    def each_refused(self, count, run):
        """The runs in which each of so many allocations is refused in turn, with its number."""
        with ThreadPoolExecutor(os.cpu_count()) as workers:
            yield from enumerate(workers.map(run, range(1, count + 1)), 1)

    def assert_no_faults(self, faults):
        """Fails where there are any, and tells the first of them."""
        shown = "\n".join(faults[:MOST_FAULTS])
        self.assertFalse(faults, f"{len(faults)} refused allocations come to what must not be:\n{shown}")


class Run:
    """A way of the program `refused_runs` over a text, with this environment."""

    def __init__(self, environment, way, text):
        # a file, since a pipe takes more reads or fewer by chance, and each of them allocates
        with tempfile.TemporaryFile() as given:
            given.write(text.encode())
            given.seek(0)
            ran = subprocess.run([REFUSED_RUNS, way], stdin=given, capture_output=True, env=environment, timeout=60)
        self.status, self.text, self.told = ran.returncode, ran.stdout.decode(), ran.stderr.decode()

    def outside(self, whole):
        """What came of an allocation outside what is served, or None: nothing, no beginning, or no telling of it."""
        if self.text == whole.text and self.status == 0:
            return "nothing"
        if self.status == NOT_BEGUN and not self.text:
            return "not begun"
        if self.status == FAILED and whole.text.startswith(self.text):
            return "not told"
        return None

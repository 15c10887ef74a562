"""The bank of examples/bank passes its tests, by whoever has confluent-kafka: by unittest, and by pytest where that is installed."""

import os
import subprocess
import unittest

from program import ROOT
from tests.clients.test_pages import interpreter_with_kafka
from tests.support import PROGRAM

BANK = ROOT / "examples/bank"
TESTS, BY_PYTEST = 12, 2  # how many there are, and how many more with pytest's fixtures
LIMIT = 600  # seconds, which they take by far


class Bank(unittest.TestCase):
    def setUp(self):
        self.interpreter = interpreter_with_kafka(self)

    def run_python(self, *words):
        """The status of a run, and what it says."""
        more = {"PYTHONPATH": str(ROOT / "python"), "KBROKER": str(PROGRAM.resolve()), "PYTHONDONTWRITEBYTECODE": "1"}
        told = {"stdin": subprocess.DEVNULL, "stdout": subprocess.PIPE, "stderr": subprocess.STDOUT, "encoding": "utf-8"}
        ran = subprocess.run([self.interpreter, *words], cwd=ROOT, env={**os.environ, **more}, timeout=LIMIT, **told)
        return ran.returncode, ran.stdout

    def test_by_unittest(self):
        status, said = self.run_python("-m", "unittest", "discover", str(BANK))
        self.assertEqual(status, 0, said)
        self.assertRegex(said, rf"(?s)Ran {TESTS} tests .*\nOK\n\Z")

    def test_by_pytest(self):
        """With the fixtures of the package."""
        if self.run_python("-c", "import pytest")[0]:
            self.skipTest("pytest isn't installed: Debian's package python3-pytest has it")
        words = ["-q", "-p", "no:cacheprovider", "-p", "kbroker_testing.pytest_plugin", str(BANK / "pytest_bank_test.py")]
        status, said = self.run_python("-m", "pytest", *words)
        self.assertEqual(status, 0, said)
        self.assertRegex(said, rf"(?m)^{BY_PYTEST} passed in ")


if __name__ == "__main__":
    unittest.main()

"""`.ci/run` runs both makes, the tests first, ends as they do, and leaves the machine as it was, whatever ends it.

Scripts stand in for apt-get and make, and a file for what the machine does with huge pages.
"""

import os
import signal
import subprocess
import tempfile
import unittest
from pathlib import Path

from kbroker_testing.waiting import wait_until
from program import ROOT
from tests.tools.repository import WAIT

PAGES = "/sys/kernel/mm/transparent_hugepage/enabled"
SCRIPTS = {
    "apt-get": 'echo "apt-get $1" >> "$SAID"; exit $(cat "$TOP/apt")',
    "sleep": ":",
    "make": """
        echo "make $1: $(cat "$TOP/pages")" >> "$SAID"
        read status < "$TOP/$1"
        [ "$status" != waits ] || exec /bin/sleep 600
        exit $status
    """,
}
INSTALLED = ["apt-get update", "apt-get install"]


class Run(unittest.TestCase):
    def setUp(self):
        self.top = Path(self.enterContext(tempfile.TemporaryDirectory()))
        (self.top / ".ci").mkdir()
        (self.top / "bin").mkdir()
        text = (ROOT / ".ci/run").read_text()
        self.assertEqual(text.count(PAGES), 1)
        self.add(".ci/run", text.replace(PAGES, str(self.top / "pages")))
        for name, script in SCRIPTS.items():
            self.add(f"bin/{name}", f"#!/bin/sh\n{script}\n")
        self.set(pages="always [madvise] never", apt="0", test="0", verify="0")

    def add(self, name, text):
        (self.top / name).write_text(text)
        (self.top / name).chmod(0o700)

    def set(self, **files):
        for name, text in files.items():
            (self.top / name).write_text(f"{text}\n")

    def start(self):
        paths = {"PATH": f"{self.top / 'bin'}:{os.environ['PATH']}", "TOP": str(self.top), "SAID": str(self.top / "said")}
        streams = {"stdin": subprocess.DEVNULL, "stdout": subprocess.PIPE, "stderr": subprocess.STDOUT, "text": True}
        return subprocess.Popen([self.top / ".ci/run"], env={**os.environ, **paths}, **streams)

    def said(self):
        """What was called, and of make what the machine did with huge pages then."""
        file = self.top / "said"
        return file.read_text().splitlines() if file.exists() else []

    def assert_ends(self, status, calls, process=None):
        process = process or self.start()
        printed, _ = process.communicate(timeout=WAIT)
        self.assertEqual(process.returncode, status, printed)
        self.assertEqual(self.said(), calls)
        self.assertEqual((self.top / "pages").read_text(), "madvise\n")
        return printed

    def test_all_passes(self):
        self.assert_ends(0, [*INSTALLED, "make test: always", "make verify: always"])

    def test_the_tests_fail(self):
        self.set(test="2")
        self.assert_ends(2, [*INSTALLED, "make test: always"])

    def test_the_gate_fails(self):
        self.set(verify="2")
        self.assert_ends(2, [*INSTALLED, "make test: always", "make verify: always"])

    def test_packages_that_can_not_be_had(self):
        """It tries three times, and says so; what lacks is for the tests to tell."""
        self.set(apt="100")
        printed = self.assert_ends(0, [INSTALLED[0]] * 3 + ["make test: always", "make verify: always"])
        self.assertEqual(printed, "ci: packages can't be installed\n")

    def test_a_signal(self):
        self.set(verify="waits")
        process = self.start()
        self.addCleanup(process.kill)
        wait_until(lambda: len(self.said()) == 4, WAIT, "the gate isn't run")
        process.send_signal(signal.SIGTERM)
        self.assert_ends(143, [*INSTALLED, "make test: always", "make verify: always"], process)


if __name__ == "__main__":
    unittest.main()

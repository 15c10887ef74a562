"""What tests need: which are skipped over which program, and the packages that are named where they lack."""

import contextlib
import io
import os
import shutil
import subprocess
import sys
import unittest
from unittest import mock

import packages
from program import PROGRAM
from tests import ROOT
from unproved import UNPROVED

# Prints whether a case is skipped that has each of the marks.
MARKS = """
import unittest
from pathlib import Path
from tests import support

for mark in (support.needs_proved_program("why"), support.needs_crate(Path("/none")), support.tries_edits):
    print(getattr(mark(type("It", (unittest.TestCase,), {})), "__unittest_skip__", False))
"""


def skipped(program, run_by=None):
    """Whether each of these marks has a case skipped over a program: that it has to be proved, that a crate's program has to be
    built, and that edits are tried."""
    environment = {name: it for name, it in os.environ.items() if not name.startswith("KBROKER")} | {"KBROKER": str(program)}
    environment |= {"KBROKER_RUN": run_by} if run_by else {}
    told = subprocess.run([sys.executable, "-c", MARKS], cwd=ROOT, env=environment, capture_output=True, text=True, check=True)
    return tuple(it == "True" for it in told.stdout.split())


class Marks(unittest.TestCase):
    def test_what_is_skipped(self):
        """`make verify` skips nothing; whoever names cases has edits tried."""
        rows = (
            (UNPROVED, "quick", (True, True, True)),
            (PROGRAM, "quick", (False, True, True)),
            (UNPROVED, None, (True, True, False)),
            (PROGRAM, None, (False, True, False)),
            (PROGRAM, "verify", (False, False, False)),
        )
        for program, run_by, wanted in rows:
            with self.subTest(program=program.name, run_by=run_by):
                self.assertEqual(skipped(program, run_by), wanted)


class Packages(unittest.TestCase):
    def demanded(self, lacks=(), kafka=True, ci=False):
        """What is said where these commands aren't there, on standard error or as the end."""
        plain = shutil.which
        self.enterContext(mock.patch.object(packages, "IN_CI", ci))
        self.enterContext(mock.patch.object(packages, "has_kafka", lambda interpreter: kafka))
        which = mock.patch.object(shutil, "which", lambda name: None if name in lacks else plain(name) or name)
        with which, contextlib.redirect_stderr(io.StringIO()) as told:
            try:
                packages.demand("tests")
            except SystemExit as ended:
                return ended.code
        return told.getvalue()

    def test_what_is_told(self):
        skipped = "tests: tests of clients are skipped without Debian's kcat and python3-confluent-kafka\n"
        needed = "tests: these packages of Debian are needed: apt-get install "
        rows = (
            ({}, ""),
            ({"lacks": ["cc"]}, f"{needed}gcc libc6-dev"),
            ({"lacks": ["setpriv"]}, f"{needed}util-linux"),
            ({"lacks": ["rt"]}, "tests: the toolchain's command rt is not on the PATH"),
            ({"lacks": ["kcat"], "kafka": False}, skipped),
            ({"lacks": ["kcat"], "kafka": False, "ci": True}, f"{needed}kcat python3-confluent-kafka"),
            ({"kafka": False, "ci": True}, f"{needed}python3-confluent-kafka"),
        )
        for given, told in rows:
            with self.subTest(given=given):
                self.assertEqual(self.demanded(**given), told)

    def test_a_client_that_lacks_in_ci(self):
        """Its case fails there, and is skipped elsewhere."""
        from tests import support

        for ci, kind in ((True, self.failureException), (False, unittest.SkipTest)):
            with self.subTest(ci=ci), mock.patch.object(support, "IN_CI", ci):
                with self.assertRaises((self.failureException, unittest.SkipTest)) as came:
                    support.without_package(self, "kcat")
                self.assertIs(type(came.exception), kind)


if __name__ == "__main__":
    unittest.main()

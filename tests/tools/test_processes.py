"""The folders in which the tools have rt work."""

import os
import shutil
import subprocess
import tempfile
import unittest
from pathlib import Path
from unittest import mock

import processes
from tests import ROOT  # noqa: F401

NOBODY = 65534


class Room(unittest.TestCase):
    def test_nobody_passes_through(self):
        """`rt ci` runs tests as nobody, by a program that nobody starts: in a folder of root's alone they all fail."""
        with processes.room("kbroker-passed-") as room:
            (room / "bin").mkdir()
            program = shutil.copy(shutil.which("true"), room / "bin/it")
            others = {"user": NOBODY, "group": NOBODY, "extra_groups": []} if os.geteuid() == 0 else {}
            said = subprocess.run(["sh", "-c", f"exec {program}"], cwd="/", check=False, capture_output=True, **others)
            self.assertEqual(said.returncode, 0, said.stderr)
            self.assertEqual(oct(room.stat().st_mode & 0o777), "0o711")

    def test_it_goes(self):
        with processes.room("kbroker-passed-") as room:
            (room / "left").touch()
        self.assertFalse(room.exists())


class AtOnce(unittest.TestCase):
    """How many processes may run at a time."""

    def setUp(self):
        self.folder = self.enterContext(tempfile.TemporaryDirectory())
        self.enterContext(mock.patch.object(tempfile, "tempdir", self.folder))
        self.enterContext(mock.patch.object(os, "sched_getaffinity", lambda _: {*range(8)}))

    def at_once(self, free, held=()):
        """How many of 4 bytes each may run where so many bytes are free, and those that run hold so many each."""
        running = {number: (0, 0, 0.0, bytes_held) for number, bytes_held in enumerate(held)}
        with (
            mock.patch.object(processes, "free_memory", lambda: free),
            mock.patch.object(processes, "processes", lambda: running),
            mock.patch.object(processes, "below", lambda _: [*running, 99]),
        ):
            return processes.at_once(4)

    def test_memory(self):
        """It is for so many, with what those hold that run; one may run always."""
        rows = ((0, (), 1), (3, (), 1), (4, (), 1), (8, (), 2), (11, (), 2), (100, (), 8), (6, (1, 1), 2), (9, (4, 3), 4))
        for free, held, wanted in rows:
            with self.subTest(free=free, held=held):
                self.assertEqual(self.at_once(free, held), wanted)

    def test_beside_proofs(self):
        Path(self.folder, processes.BESIDE_PROOFS).touch()
        self.assertEqual(self.at_once(100), 1)

    def test_this_machine(self):
        self.assertGreater(processes.free_memory(), 0)
        self.assertEqual((processes.at_once(1), processes.at_once(1e18)), (8, 1))


if __name__ == "__main__":
    unittest.main()

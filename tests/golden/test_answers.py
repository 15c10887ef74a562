"""Answers each script of `examples/` and of this folder anew, and the program's stored run, and compares what is printed with the
file of the same name that ends in `.out`, or with `stdout`, byte for byte.

Each is answered to its end. What a script shows stands on its first lines, as a comment of its settings.
"""

import subprocess
import unittest

from tests.golden.scripts import a_case_for_each, assert_lines, folders, output_of
from tests.support import PROGRAM

# What is said of each line that is answered `closed`.
CLOSED = r"\Akbroker: line \d+ of the input: here the broker would close the connection; `kbroker show` tells why\Z"


@a_case_for_each
class Answers(unittest.TestCase):
    def look_at(self, script):
        ran = subprocess.run([PROGRAM, "replay"], input=script.read_bytes(), capture_output=True, timeout=60)
        wanted = output_of(script).read_bytes()
        said = ran.stderr.decode().splitlines()
        self.assertEqual((ran.returncode, len(said)), (0, wanted.splitlines().count(b"closed")))
        for line in said:
            self.assertRegex(line, CLOSED)
        assert_lines(self, ran.stdout.splitlines(keepends=True), wanted.splitlines(keepends=True))


class Folders(unittest.TestCase):
    def test_each_folder_has_scripts(self):
        for folder in folders():
            with self.subTest(folder=folder.name):
                self.assertTrue([*folder.rglob("*.txt")])

    def test_each_output_has_a_script(self):
        for folder in folders():
            for output in folder.rglob("*.out"):
                with self.subTest(output=output.name):
                    self.assertTrue(output.with_suffix(".txt").exists())

"""The harness itself: what it counts, and that it can't pass where cases are missing."""

import contextlib
import io
import json
import os
import subprocess
import sys
import unittest
from pathlib import Path
from unittest import mock

from program import PROGRAM
from tests import ROOT, harness
from tests.harness import Count, Worker, discover, files, judged, told_of_program, total
from unproved import UNPROVED

CASES = ["m.C.test_a", "m.C.test_b", "m.C.test_c"]


def came(ran=tuple(CASES), failed=(), skipped=()):
    """What a module's process tells."""
    return {"ran": [*ran], "failed": [*failed], "skipped": dict.fromkeys(skipped, "not here"), "text": "FAILED (failures=1)"}


class Judged(unittest.TestCase):
    def test_what_is_counted(self):
        rows = (
            (came(), Count(3, 0, 0)),
            (came(failed=CASES[:1]), Count(2, 1, 0)),
            (came(skipped=CASES[1:]), Count(1, 0, 2)),
            (came(failed=CASES[:1], skipped=CASES[1:2]), Count(1, 1, 1)),
            # a class that can't be set up, and its cases
            (came(ran=CASES[:1], failed=["setUpClass (m.D)"]), Count(1, 3, 0)),
            (came(ran=()), Count(0, 3, 0)),
            (came(ran=[*CASES, "m.C.test_d"]), Count(3, 1, 0)),
        )
        for told, count in rows:
            with self.subTest(told=told):
                self.assertEqual(judged(CASES, told)[0], count)

    def test_what_is_told(self):
        self.assertEqual(judged(CASES, came())[1], [])
        self.assertEqual(judged(CASES, came(failed=CASES[:1]))[1], ["\nFAILED (failures=1)"])
        self.assertEqual(judged(CASES, came(skipped=CASES[:1]))[1], ["m.C.test_a is skipped: not here"])
        self.assertEqual(judged(CASES, came(ran=CASES[1:]))[1], ["m.C.test_a did not run"])

    def test_sums(self):
        self.assertEqual(total([]), Count(0, 0, 0))
        self.assertEqual(total([Count(1, 2, 3), Count(4, 0, 1)]), Count(5, 2, 4))


class Processes(unittest.TestCase):
    def started(self, cases):
        """The process of a module that is not there."""
        worker = Worker("tests.none", cases)
        self.addCleanup(worker.stop)
        return worker

    def test_a_module_that_is_not_there(self):
        """Its process tells no case of it."""
        worker = self.started(["tests.none.C.test_a"])
        worker.process.wait()
        self.assertEqual(judged(worker.cases, json.loads(worker.report.read()))[0].passed, 0)

    def test_a_process_that_tells_nothing(self):
        worker = self.started(CASES)
        worker.process.kill()
        worker.process.wait()
        with contextlib.redirect_stdout(io.StringIO()) as said:
            self.assertEqual(worker.count(), Count(0, len(CASES), 0))
        self.assertEqual(said.getvalue(), "tests: tests.none FAILED: it ended with status -9 and told nothing\n")

    def run_harness(self, *words, **environment):
        words = [sys.executable, "-m", "tests.harness", *words]
        ran = subprocess.run(words, cwd=ROOT, env={**os.environ, **environment}, capture_output=True, text=True, timeout=60)
        return ran.returncode, ran.stdout + ran.stderr

    def test_a_name_that_no_case_has(self):
        status, said = self.run_harness("-k", "no case has this name")
        self.assertEqual((status, said), (1, "tests: no case has no case has this name in its name\n"))

    def test_a_folder_that_is_not_there(self):
        status, said = self.run_harness("tests.none")
        self.assertEqual(status, 1)
        self.assertRegex(said, r"\A0 passed, 0 failed, 0 skipped, in ")

    def test_a_case_by_its_name(self):
        status, said = self.run_harness("-k", "test_what_is_due")
        self.assertEqual(status, 0, said)
        self.assertRegex(said, r"Ran 1 test in")

    def test_no_program(self):
        """One sentence says so, where a case needs it."""
        for words in (("-k", "test_words_are_escaped"), ("tests.golden.test_lines",)):
            with self.subTest(words=words):
                status, said = self.run_harness(*words, KBROKER="/none")
                self.assertEqual(status, 1)
                self.assertRegex(said, r"\Atests: there is no program /none: .*\n\Z")
        self.assertEqual(self.run_harness("-k", "test_what_is_due", KBROKER="/none")[0], 0)

    def test_over_which_program(self):
        """The last line says it."""
        rows = ((str(UNPROVED), "not proved: make verify proves it"), ("/bin/true", "over /bin/true"))
        for program, word in rows:
            with self.subTest(program=program), mock.patch.dict(os.environ, KBROKER=program):
                self.assertEqual(told_of_program(["tests.golden.test_lines"]), word)
                self.assertEqual(told_of_program(["tests.sources.test_edits"]), "no program is needed")
        for lacks, word in ((None, "proved"), ("the program is older than a source", "of other sources than these: make prove")):
            with self.subTest(lacks=lacks), mock.patch.dict(os.environ, KBROKER=str(PROGRAM)):
                with mock.patch.object(harness, "what_lacks", lambda lacks=lacks: lacks):
                    self.assertEqual(told_of_program(["tests.golden.test_lines"]), word)


class Discovery(unittest.TestCase):
    def test_each_file_is_found(self):
        """And has a case."""
        found = discover()
        self.assertEqual(found.faults, [])
        self.assertEqual({*found.modules}, {*files()})
        self.assertIn("tests.package.test_harness", files())
        self.assertIn(self.id(), found.modules["tests.package.test_harness"])

    def test_each_folder_has_a_case(self):
        folders = {it.parent.name for it in Path(ROOT / "tests").glob("*/__init__.py")}
        self.assertEqual(folders, {it.split(".")[1] for it in discover().modules})

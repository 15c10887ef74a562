"""Tries the edits that the compiler has to refuse, crates/NAME/must-not-compile/*.edit.

`rt ci` tries mutants, which reach the prover. These are of another kind: uses that types alone rule out, as that of a
state which a call has used up. The first line of an edit, `says: CODE`, is the code of the error that is due. Each is
applied to a copy of its crate, and `rt check` there refuses it before it proves anything.
"""

import os
import re
import subprocess
import tempfile
import unittest
from pathlib import Path

import edits
import processes
from program import ROOT, crates_list
from prove import copy_crates
from tests.support import tries_edits

SAID = re.compile(r"^\S+: error\[([\w-]+)\]", re.M)
CHECK = *processes.BOUND, "rt", "check"


def started(edit, folder):
    """The check of a copy that has the edit."""
    name, room = edit.parent.parent.name, folder / edit.stem
    room.mkdir()
    copy_crates([name], room)
    edits.apply(edit, edits.MUST_NOT_COMPILE.key, room / "crates" / name)
    told = {"stdout": subprocess.PIPE, "stderr": subprocess.STDOUT, "stdin": subprocess.DEVNULL}
    environment = {**os.environ, "TMPDIR": str(folder)}
    return subprocess.Popen(CHECK, cwd=room / "crates" / name, text=True, env=environment, **told)


@tries_edits
class MustNotCompile(unittest.TestCase):
    def test_each_edit_is_refused_as_it_says(self):
        """All are checked side by side."""
        found = edits.MUST_NOT_COMPILE.edits(crates_list())
        self.assertTrue(found, "there are no edits")
        folder = Path(self.enterContext(tempfile.TemporaryDirectory(prefix="must-not-compile-")))
        checks = []
        for edit in found:
            checks.append((edit, started(edit, folder)))
            self.addCleanup(processes.end, checks[-1][1])
        for edit, check in checks:
            with self.subTest(edit=str(edit.relative_to(ROOT))):
                text = check.communicate()[0]
                self.assertNotEqual(check.returncode, 0, text[-500:])
                self.assertEqual(SAID.findall(text)[:1], [edits.due(edit, edits.MUST_NOT_COMPILE.key)], text[-500:])

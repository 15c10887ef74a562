"""Tries the edits that no contract can refuse, and that a test has to: crates/NAME/failing-tests/*.edit.

No clause says that two sessions run at once, or that an event is ever taken. So a pool that serves one session after the
other, one that holds a second lock over each, and a desk that takes nothing are proved as well as ours; they must fail the test
that the first line of an edit names, `test: PATH`. The files that an edit names stand below crates/. Each edit is applied to
a copy of the sources, whose tests run without a proof, beside a copy with no edit for each crate, in which those tests have to
pass. Other tests of the crate stand aside in the copies. Of a copy that came to what is due this is kept on the machine, by a
checksum of all that it rests on, and the same copy isn't tried again (tools/kept.py). The environment may name edits, and these
alone are tried, or have all tried, whatever is kept:

    KBROKER_FAILING_TESTS="one another" make test K=failing_tests
    KBROKER_ANEW=1 make test K=failing_tests
"""

import functools
import hashlib
import os
import re
import subprocess
import sys
import tempfile
import time
import unittest
from pathlib import Path
from typing import NamedTuple

import edits
import processes
from kept import Kept, sum_of
from program import PARTS, ROOT, crates_list, crates_of
from tests.support import tries_edits

NAMED = os.environ.get("KBROKER_FAILING_TESTS", "").split()
MEMORY_OF_COPY = 5e9  # bytes; of server_tests one was seen to take 5.0 GB
SECONDS = 600  # a test's, with the checks of `rt try`: it gives way to proofs, beside which it may stand still
LIMIT = 7200  # a copy's, with its compilation
WORDS = *processes.BOUND, "rt", "try", "--test", "--seconds", str(SECONDS)
RAN = re.compile(r"^test (\S+) \.\.\. (ok|FAILED)$((?:\n    .*)*)", re.M)
ASSERTED = re.compile(r"^    src/\S+\.rt:\d+:\d+: the test was killed by signal 6", re.M)
TESTS = re.compile(r"#\[cfg\(test\)\]\nmod (\w+);\n")
USED = re.compile(r"^use crate::(\w+)", re.M)
OWN_SUM = hashlib.sha256(Path(__file__).read_bytes()).hexdigest()


class Trial(NamedTuple):
    """A copy of a crate with an edit and the test that has to fail there, or with none and the tests that have to pass."""

    crate: str
    tests: tuple
    edit: Path | None

    @property
    def name(self):
        return self.edit.stem if self.edit else "no edit"

    @property
    def due(self):
        """The end of each of these tests that is due."""
        return dict.fromkeys(self.tests, "FAILED" if self.edit else "ok")


def trials():
    """Each edit, and for each crate that has some a copy with none."""
    found = []
    for name in crates_list():
        files = edits.FAILING_TESTS.edits([name])
        of_edits = [Trial(name, (edits.due(it, edits.FAILING_TESTS.key),), it) for it in files]
        if of_edits:
            found += [Trial(name, tuple(sorted({it.tests[0] for it in of_edits})), None), *of_edits]
    return found


# ---- copies


def sources(crates):
    """The sources of these crates and of those below them, by their paths."""
    tops = (ROOT / "crates" / name / part for name in crates_of(crates) for part in PARTS)
    return {str(it.relative_to(ROOT)): it.read_bytes() for top in tops for it in top.rglob("*") if it.is_file()}


def needed(read, folder, modules):
    """The modules of a crate's tests that these use, and these."""
    found, left = set(), [*modules]
    while left:
        found.add(left[-1])
        text = read[f"{folder}/{left.pop()}.rt"].decode()
        left += {*USED.findall(text)} - found
    return found


def copy_of(trial, read):
    """The files of a copy of a crate and of those below it, with the edit, by their paths. Of its modules of tests those stay
    that the tests need."""
    names = crates_of([trial.crate])
    lines = (ROOT / "crates.txt").read_text().splitlines(keepends=True)
    lines = [it for it in lines if {*it.partition(":")[0].split()[:1]} & {*names}]
    files = {path: content for path, content in read.items() if path.split("/")[1] in names}
    if trial.edit:
        texts = edits.changed(trial.edit, edits.FAILING_TESTS.key, ROOT / "crates")
        files |= {f"crates/{path}": text.encode() for path, text in texts.items()}
    folder = f"crates/{trial.crate}/src"
    top = files[f"{folder}/lib.rt"].decode()
    modules = needed(files, folder, {it.partition("::")[0] for it in trial.tests})
    for module in {*TESTS.findall(top)} - modules:
        del files[f"{folder}/{module}.rt"]
    files[f"{folder}/lib.rt"] = TESTS.sub(lambda it: it[0] if it[1] in modules else "", top).encode()
    return {**files, "crates.txt": "".join(lines).encode()}


@functools.cache
def digest(content):
    """A checksum of a file, of which many copies have the same."""
    return hashlib.sha256(content).hexdigest()


def name_of(trial, files, kit):
    """The name under which it is kept what a copy comes to: a checksum of all that this rests on."""
    return sum_of(OWN_SUM, kit, WORDS, trial.crate, trial.due, sorted((path, digest(it)) for path, it in files.items()))


def lay_out(files, room):
    """Writes a copy."""
    for path, content in files.items():
        (room / path).parent.mkdir(parents=True, exist_ok=True)
        (room / path).write_bytes(content)


# ---- tries


class Try:
    """A copy whose tests run. What it says goes into a file."""

    def __init__(self, trial, files, folder):
        self.trial, self.files, self.was_beside_proofs = trial, files, processes.run_beside_proofs()
        room = Path(tempfile.mkdtemp(prefix=f"{trial.crate}-{trial.name}-".replace(" ", "_"), dir=folder))
        lay_out(files, room)
        self.said, self.until = (room / "said").open("w+b"), time.monotonic() + LIMIT
        how = {"stdin": subprocess.DEVNULL, "stdout": self.said, "stderr": subprocess.STDOUT}
        how["env"] = {**os.environ, "TMPDIR": str(folder)}
        self.process = subprocess.Popen(WORDS, cwd=room / "crates" / trial.crate, **how)

    def has_ended(self):
        """Whether it has ended, or is to be ended."""
        return self.process.poll() is not None or time.monotonic() > self.until

    def end(self):
        """Ends it, and gives what its tests came to: each test's end by its name, and all that was said."""
        is_late = self.process.poll() is None
        processes.end(self.process)
        with self.said:
            self.said.seek(0)
            text = self.said.read().decode(errors="replace")
        if is_late:
            return {}, f"not done after {LIMIT} seconds"
        # a test that is cut off in place of an assertion that doesn't hold says nothing
        return {test: end for test, end, why in RAN.findall(text) if end == "ok" or ASSERTED.search(why)}, text


def try_all(copies, folder):
    """Tries copies side by side, each a trial and its files, and gives each try, and what it came to, as they end. What isn't
    as due beside proofs may have stood still there, and is tried again once these have ended."""
    left, again, running = [*copies], [], []
    try:
        while left or again or running:
            if again and not processes.run_beside_proofs():
                left, again = left + again, []
            while left and (not running or len(running) < processes.at_once(MEMORY_OF_COPY)):
                running.append(Try(*left.pop(0), folder))
            for it in [it for it in running if it.has_ended()]:
                running.remove(it)
                ends, said = it.end()
                if it.was_beside_proofs and not is_as_due(it.trial, ends):
                    again.append((it.trial, it.files))
                else:
                    yield it, ends, said
            time.sleep(0.2)
    finally:
        for it in running:
            it.end()


def is_as_due(trial, ends):
    """Whether each test of a trial came to what is due."""
    return {it: ends.get(it) for it in trial.tests} == trial.due


def results(tried):
    """What the tests of each trial came to, and what was said: of a copy that was tried before, that it is kept. It tells how
    many these are."""
    kept, read, found, left = Kept(), sources({it.crate for it in tried}), {}, []
    kept.drop_unused()
    for trial in tried:
        files = copy_of(trial, read)
        name = name_of(trial, files, kept.kit)
        if kept.find(name) == trial.due:
            found[trial] = trial.due, "kept"
        else:
            left.append((trial, files))
    can_keep = "" if kept.folder else ", and what they come to can't be kept"
    print(f"tests: {len(found)} copies of crates are kept, and {len(left)} are tried{can_keep}", file=sys.stderr, flush=True)
    with tempfile.TemporaryDirectory(prefix="failing-tests-") as made:
        for it, ends, said in try_all(left, Path(made)):
            found[it.trial] = ends, said
            if is_as_due(it.trial, ends):
                kept.keep(name_of(it.trial, it.files, kept.kit), it.trial.due)
    return found


@tries_edits
class FailingTests(unittest.TestCase):
    def test_each_edit_fails_its_test(self):
        """And the sources as they are pass it."""
        tried = [it for it in trials() if not NAMED or it.edit and it.name in NAMED]
        self.assertTrue(any(it.edit for it in tried), "there are no edits")
        found = results(tried)
        for trial in tried:
            ends, said = found[trial]
            for test in trial.tests:
                with self.subTest(edit=trial.name, test=test):
                    self.assertEqual(ends.get(test), trial.due[test], said[-1500:])

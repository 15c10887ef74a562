"""What the tools take of the toolchain's inside: its command `rt` is a Python program, and is imported here as a module, and nowhere else.

No command of rt checks some functions of a crate with other bodies (docs/DECISIONS.md, 205), nor lays what `rt ci` has kept where
`rt check` goes on from it (206). What is taken is tried with the toolchain named below; tests/tools/test_kit.py fails for another
one, so that whoever takes it looks at each of these functions.
"""

import hashlib
import importlib.machinery
import importlib.util
import os
import re
import shutil
import sys
from pathlib import Path

TRIED = "rattle-kit-13f"
CALLED = re.compile(r"^fn (\S+): (.*)$", re.M)
ENDED = re.compile(r"^only=\d+ proved=\d+$")
ONE_JOB = ["--jobs", "1"]


def load_rt():
    """The toolchain's command `rt` as a module."""
    command = shutil.which("rt")
    if command is None:
        sys.exit("kbroker: the toolchain's command rt is not on the PATH")
    sys.dont_write_bytecode = True  # nothing is left beside the command
    loader = importlib.machinery.SourceFileLoader("rt", os.path.realpath(command))
    module = importlib.util.module_from_spec(importlib.util.spec_from_loader("rt", loader))
    loader.exec_module(module)
    return module


class Said:
    """What a check of some functions said: its lines, and which functions it doesn't call proved."""

    def __init__(self, rt, status, text, texts):
        self.lines = text.rstrip("\n").split("\n")
        # by their paths below the crate
        self.refused = {name.partition("::")[2] for name, word in CALLED.findall(text) if word != "proved"}
        # one that ended, that could read what was changed, and met no limit of the prover's
        is_whole = status in (0, 1) and ENDED.match(self.lines[-1]) and not rt.LIMITS.search(text)
        self.is_verdict = bool(is_whole) and not any(rt.unread(it, texts) for it in self.lines)


class Crate:
    """A crate of a repository in which the libraries that it stands on are built."""

    def __init__(self, rt, repository, name):
        self.rt, self.name = rt, name
        rt.Crate.allowed = rt.handles_of(str(repository))
        self.inner = next(it for it in rt.rtlib.crates_below(str(repository)) if it.name == name)
        self.folder = Path(self.inner.folder)

    def texts_of(self, edit):
        """The files that an edit makes of the crate's, by their paths, or None where it can't be applied."""
        return self.rt.read_edit(str(edit), self.inner.folder)[0]

    def check(self, texts, paths, kept):
        """Checks the functions that these paths name, and those that they call, with these texts in the place of the crate's. What
        earlier checks over the same folder have proved of them, and what is unchanged, is taken from there."""
        flags = [*ONE_JOB, *(it for path in paths for it in ("--only", path))]
        ran = self.rt.checked(self.inner, texts, flags, str(kept))
        return Said(self.rt, ran.returncode, ran.stdout, texts)

    def must_fail(self, edit):
        """What `rt must-fail` says of an edit, after its name: it checks the whole crate from nothing."""
        _, text = self.rt.must_fail(self.inner, str(edit), ONE_JOB)
        return text.partition(": ")[2]

    def sum(self):
        """A sum of all that a verdict on the crate rests on: its sources and those of the crates below it, and the toolchain."""
        return hashlib.sha256(self.rt.stamp_of(self.inner, {}).encode()).hexdigest()


def lay_kept(rt, repository, names):
    """Lays the libraries of these crates, lowest first, where `rt check` goes on from them: those that `rt ci` has kept of these very
    sources. Gives the crates whose library lacks."""
    rt.Crate.allowed = rt.handles_of(str(repository))
    crates = {it.name: it for it in rt.crates_of(str(repository))}
    kept, lacking = rt.Kept([crates[it] for it in names]), []
    for crate in (crates[it] for it in names):
        library = Path(crate.folder, "out/rlib")
        shutil.rmtree(library, ignore_errors=True)  # rt takes what it can't lay over another one for damaged, and drops it
        if any(it.name in lacking for it in crate.below()) or not kept.give(crate, False, kept.key(crate)):
            lacking.append(crate.name)
        else:
            kept.is_built(crate)
            (library / "stamp").write_text(crate.stamp())
    return lacking

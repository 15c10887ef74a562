"""A small repository with the tools and the harness of this one, and a script that stands in for rt."""

import os
import shutil
import subprocess
import sys
import tempfile
import textwrap
from pathlib import Path

from processes import processes, remove
from tests import ROOT
from tests.harness import ON_SOURCES, SIDE_BY_SIDE

WAIT = 120  # seconds, at most, for what is to happen
CASE = "import unittest\n\n\nclass It(unittest.TestCase):\n    def test_it(self):\n        {}\n"
# Two crates, and the mutants of the first.
CRATES = "walk:\nkbroker: walk\n"
MUTANTS = "one", "other"
EDIT = "file: src/lib.rt\nold: {0}\nnew: not {0}\n"
# Edits that a test or the compiler has to refuse. Of the first kind so many copies run at a time, of which one has no edit.
EDITS = "abcde"
TRIED_AT_ONCE = min(len(EDITS) + 1, len(os.sched_getaffinity(0)))
# Files of a toolchain: what names it, and what `rt try` reads.
KIT = "KIT-ID", "toolchain/bin/clang", "c/asan.a", "rattle/std/src/io/lib.rt", "rlibs/std.rlib/format"
# What a stand-in writes in the place of the program, as a proof of it would.
MAKE = "[ ! -d crates/kbroker ] || { mkdir -p crates/kbroker/out; cp /bin/true crates/kbroker/out/kbroker; }"
PROVED = "rt: walk proved\nrt: kbroker proved\n"


class Repository:
    """Such a repository, as a context manager."""

    def __enter__(self):
        self.top = Path(tempfile.mkdtemp())
        self.folder, self.files = self.top / "repository", self.top / "files"
        self.files.mkdir()
        for name in ("tools", "python"):
            shutil.copytree(ROOT / name, self.folder / name, ignore=shutil.ignore_patterns("__pycache__"))
        for name in (*SIDE_BY_SIDE, ON_SOURCES):
            self.add_module(name)
        for name in ("__init__.py", "harness.py"):
            shutil.copy(ROOT / "tests" / name, self.folder / "tests")
        (self.folder / "crates.txt").write_text(CRATES)
        (self.folder / "HANDLES").write_text("Handles allowed: none.\n")
        for crate in ("walk", "kbroker"):
            (self.folder / "crates" / crate / "src").mkdir(parents=True)
        (self.folder / "crates/walk/must-fail").mkdir()
        for it in MUTANTS:
            (self.folder / f"crates/walk/must-fail/{it}.edit").write_text(EDIT.format(it))
        return self

    def __exit__(self, *_):
        remove(self.top)

    def add_module(self, name, does="pass"):
        """Adds a module of tests with one case, which does this."""
        path = self.folder / f"{name.replace('.', '/')}.py"
        path.parent.mkdir(parents=True, exist_ok=True)
        (path.parent / "__init__.py").touch()
        path.write_text(CASE.format(does))

    def add_edits(self):
        """Adds the modules that try edits, as they are, and edits of a crate that they try."""
        for it in ("support.py", "sources/test_failing_tests.py", "sources/test_must_not_compile.py"):
            shutil.copy(ROOT / "tests" / it, self.folder / "tests" / it)
        module = self.folder / "tests/sources/test_failing_tests.py"
        # processors alone decide how many run at a time
        module.write_text(module.read_text().replace("MEMORY_OF_COPY = 5e9 ", "MEMORY_OF_COPY = 1 "))
        crate = self.folder / "crates/walk"
        (crate / "src/lib.rt").write_text("#[cfg(test)]\nmod found;\nfn one() {}\n")
        (crate / "src/found.rt").touch()
        for folder, head, base in (("failing-tests", "test: found::it", "walk/"), ("must-not-compile", "says: syntax", "")):
            (crate / folder).mkdir()
            for name in EDITS:
                (crate / folder / f"{name}.edit").write_text(f"{head}\nfile: {base}src/lib.rt\nold: one\nnew: two_{name}\n")

    def set_rt(self, script):
        """Has this script stand in for rt."""
        rt = self.top / "kit/bin/rt"
        rt.parent.mkdir(parents=True, exist_ok=True)
        rt.write_text("#!/bin/sh\n" + textwrap.dedent(script))
        rt.chmod(0o700)

    def add_kit(self):
        """Adds files of a toolchain, of which the stand-in is then a part."""
        for it in KIT:
            (self.top / "kit" / it).parent.mkdir(parents=True, exist_ok=True)
            (self.top / "kit" / it).write_text(it)

    def say(self, last, copies=PROVED, status=0):
        """Has rt say this of the repository, and that of copies of crates, where all is proved."""
        (self.top / "last").write_text(last)
        (self.top / "copies").write_text(copies)
        self.set_rt(f"""
            {MAKE}
            [ "$PWD" = "{self.folder}" ] || exec cat "{self.top}/copies"
            cat "{self.top}/last"
            exit {status}
        """)

    def start(self, *words, **more):
        """Starts a program of Python's there, with the stand-in on the PATH, and a folder of its own for temporary files."""
        paths = {"PATH": f"{self.top / 'kit/bin'}:{os.environ['PATH']}", "XDG_CACHE_HOME": str(self.top / "cache")}
        paths |= {"TMPDIR": str(self.files), "PYTHONDONTWRITEBYTECODE": "1"}
        asked = ("KBROKER", "CI")
        environment = {name: it for name, it in os.environ.items() if not name.startswith(asked)} | paths | more
        streams = {"stdin": subprocess.DEVNULL, "stdout": subprocess.PIPE, "stderr": subprocess.STDOUT, "text": True}
        return subprocess.Popen([sys.executable, *words], cwd=self.folder, env=environment, **streams)

    def run(self, *words, **more):
        """The status of such a program, and the lines that it says."""
        process = self.start(*words, **more)
        said, _ = process.communicate(timeout=WAIT)
        return process.returncode, said.splitlines()

    def left(self):
        """The processes that work in folders of this repository, or began there, and the files that were left."""
        working = []
        for it in processes():
            try:
                folder = os.readlink(f"/proc/{it}/cwd")
            except OSError:
                continue  # it has ended, or is another's
            if folder.startswith(str(self.top)):
                working.append(it)
        return working, [it.name for it in self.files.iterdir()]

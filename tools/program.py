#!/usr/bin/env python3
"""Says whether the proved program is built from the sources as they stand; what measures it asks it before each run.

Where it is not, a sentence on standard error says what to do, and the status is 3.
"""

import os
import re
import sys
from pathlib import Path

ROOT = Path(__file__).resolve().parent.parent
NAME = "kbroker"
PROGRAM = ROOT / "crates" / NAME / "out" / NAME
PARTS = ("src", "specs", "proofs")
NOT_BUILT = 3
# The page that says how long things take, and its row of `make prove` where nothing is built.
BUILD_PAGE = ROOT / "docs/BUILD.md"
PROVING = re.compile(r"^\| `make prove` where nothing is built \| (.+?) \|$", re.M)


def crates_list():
    """The libraries that each crate of crates.txt names, those of the toolchain among them."""
    lines = (ROOT / "crates.txt").read_text().splitlines()
    rows = [line.partition("#")[0].partition(":") for line in lines]
    return {head.split()[0]: below.split() for head, _, below in rows if head.strip()}


def crates_of(names):
    """The crates of the repository that these stand on, and these, lowest first."""
    listed, found = crates_list(), []

    def add(name):
        if name in listed and name not in found:
            for below in listed[name]:
                add(below)
            found.append(name)

    for name in names:
        if name not in listed:
            sys.exit(f"kbroker: crates.txt lists no crate {name}")
        add(name)
    return found


def changed_since(built, name=NAME):
    """Whether a source of the program is newer than this time, or a folder, as after a file was removed from it; or of another
    crate."""
    paths = [ROOT / "crates.txt"]
    for crate in crates_of([name]):
        for part in PARTS:
            for folder, _, files in os.walk(ROOT / "crates" / crate / part):
                paths += [folder, *(f"{folder}/{it}" for it in files)]
    return any(os.stat(it).st_mtime_ns > built for it in paths)


def what_lacks():
    """Why the program can't be run as it is, or None."""
    if not os.access(PROGRAM, os.X_OK):
        return "the program isn't built"
    if changed_since(PROGRAM.stat().st_mtime_ns):
        return "the program is older than a source"
    return None


def proving_time():
    """How long `make prove` takes where nothing is built, as the page says."""
    found = PROVING.search(BUILD_PAGE.read_text()) if BUILD_PAGE.is_file() else None
    return found[1] if found else "an hour or more"


def main():
    lacks = what_lacks()
    if lacks:
        print(
            f"kbroker: {lacks}: `make prove` proves and builds it (in {proving_time()} where nothing is built)",
            file=sys.stderr,
        )
        sys.exit(NOT_BUILT)


if __name__ == "__main__":
    main()

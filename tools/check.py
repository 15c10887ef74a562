#!/usr/bin/env python3
"""What a developer runs in minutes: `make check`, or `make check SINCE=COMMIT`.

It lays out the crates that changed since a commit, in the working tree too, checks each of them, compiles the program without
a proof, and runs the tests that take seconds over what was compiled. All failures are told, and the status is 1 where there are
any. What was compiled is out/unproved/kbroker (tools/unproved.py).
"""

import argparse
import os
import subprocess
import sys

import processes
from program import ROOT, crates_list
from prove import end_on_signals
from unproved import UNPROVED, compiles

# What takes seconds over it: the others refuse memory, wait for times, answer very many lines, or keep all processors busy.
QUICK = (
    "tests.package",
    "tests.golden",
    "tests.models.test_drawn_bindings",
    "tests.models.test_group_histories",
    "tests.server.test_sessions",
    "tests.server.test_steered",
)


def say(text):
    """Tells how far it is."""
    print(f"check: {text}", file=sys.stderr, flush=True)


def git(*words):
    """The lines that git prints."""
    ran = subprocess.run(["git", *words], cwd=ROOT, capture_output=True, text=True)
    if ran.returncode:
        sys.exit(f"check: git {' '.join(words)}: {ran.stderr.strip()}")
    return ran.stdout.splitlines()


def changed_crates(since):
    """The crates of which a file changed since a commit, lowest first."""
    files = git("diff", "--name-only", since, "--", "crates") + git("ls-files", "--others", "--exclude-standard", "--", "crates")
    names = {it.split("/")[1] for it in files}
    return [it for it in crates_list() if it in names]


def is_well(words, folder, **more):
    """Whether a command ends well."""
    say(f"{' '.join(map(str, words))} in {folder.relative_to(ROOT)}")
    process = subprocess.Popen([*processes.BOUND, *words], cwd=folder, stdin=subprocess.DEVNULL, **more)
    try:
        return process.wait() == 0
    finally:
        processes.end(process)


def main():
    does = "Checks what changed since a commit, compiles the program, and runs the quick tests."
    parser = argparse.ArgumentParser(description=does)
    parser.add_argument("since", nargs="?", default="HEAD", metavar="COMMIT", help="HEAD, if none is named")
    crates = changed_crates(parser.parse_args().since)
    end_on_signals()
    failed = [f"{name} isn't laid out" for name in crates if not is_well(["rt", "fmt"], ROOT / "crates" / name)]
    failed += [f"{name} isn't proved" for name in crates if not is_well(["rt", "check"], ROOT / "crates" / name)]
    say("rt try in crates/kbroker, which takes minutes")
    if compiles():
        words, where = [sys.executable, "-m", "tests.harness", *QUICK], {**os.environ, "KBROKER": str(UNPROVED)}
        failed += [] if is_well(words, ROOT, env=where) else ["a quick test fails"]
    else:
        failed.append("the program doesn't compile, and no test is run")
    for it in failed:
        say(f"FAILED: {it}")
    say(f"{len(crates)} crates changed; {'FAILED' if failed else 'passed'}")
    sys.exit(1 if failed else 0)


if __name__ == "__main__":
    main()

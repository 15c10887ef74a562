#!/usr/bin/env python3
"""Runs the tests of tests/ in minutes: `make test`, or with `-k NAME` those that have NAME in their names: `make test K=NAME`.

They run over the proved program where it is built from the sources as they stand. Elsewhere `rt try` compiles the same sources
without a proof. `KBROKER=FILE` in the environment has another program run. Of all tests those are skipped, and say so, that need
what isn't proved, or try edits of crates: `make verify` runs them. The last line says over which program they ran.
"""

import argparse
import os
import subprocess
import sys

import packages
import prove
from program import ROOT
from unproved import built

HARNESS = sys.executable, "-m", "tests.harness"


def say(text):
    """Tells how far it is."""
    print(f"tests: {text}", file=sys.stderr, flush=True)


def main():
    parser = argparse.ArgumentParser(description="Runs the tests over the program, proved or not.")
    parser.add_argument("-k", metavar="NAME", help="the cases that have this in their names")
    name = parser.parse_args().k
    packages.demand_tools("tests") if name else packages.demand("tests")
    prove.end_on_signals()
    words = [*HARNESS, "-k", name] if name else HARNESS
    needs_none = name and subprocess.run([*words, "--needs-no-program"], cwd=ROOT).returncode == 0
    if "KBROKER" not in os.environ and not needs_none:
        os.environ["KBROKER"] = str(built(say, "tests: FAILED"))
    if not name:
        os.environ["KBROKER_RUN"] = "quick"
    os.chdir(ROOT)
    os.execv(sys.executable, words)


if __name__ == "__main__":
    main()

#!/usr/bin/env python3
"""Answers the shipped example, for whoever has just got this repository: `make run`.

The proved program answers it where it is built from the sources as they stand. Elsewhere these are compiled without a proof, in
some minutes, and a line on standard error says so. Another line says how the answers are shown in words.
"""

import subprocess
import sys

from program import ROOT
from prove import end_on_signals
from unproved import built, tell, tell_of

EXAMPLE = ROOT / "examples/metadata.txt"


def main():
    end_on_signals()
    program = built()
    tell_of(program)
    with EXAMPLE.open("rb") as given:
        status = subprocess.run([program, "replay"], stdin=given).returncode
    tell(f"`./kbroker show {EXAMPLE.relative_to(ROOT)}` shows these answers in words")
    sys.exit(status)


if __name__ == "__main__":
    main()

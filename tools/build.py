#!/usr/bin/env python3
"""Compiles the program without a proof, in minutes: `make build`.

What is compiled is out/unproved/kbroker. `./kbroker` and `make serve` run it until `make prove` has built the proved program from
the same sources, and say that it isn't proved.
"""

from program import ROOT
from prove import end_on_signals
from unproved import UNPROVED, built, tell


def main():
    end_on_signals()
    program = built()
    proved = "not proved" if program == UNPROVED else "proved"
    tell(f"built, and {proved}: {program.relative_to(ROOT)}, which ./kbroker runs")


if __name__ == "__main__":
    main()

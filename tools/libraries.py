#!/usr/bin/env python3
"""Lays out the libraries over which `rt check` of crates goes on: `tools/libraries.py walk`.

The first `rt check` of a crate builds each crate below it, one after the other, and takes nothing of what `rt ci` has proved. This
proves them as `make prove` does, side by side and where they aren't kept, and lays their libraries into crates/NAME/out/rlib,
where `rt check` finds them. Run it again after a change of a crate below.
"""

import argparse
import sys

import kit
import processes
from program import ROOT, crates_list, crates_of
from prove import NotProved, end_on_signals, hold_alone, prove


def main():
    parser = argparse.ArgumentParser(description="Lays out the libraries over which `rt check` of crates goes on.")
    parser.add_argument("crates", nargs="+", metavar="CRATE", help="that is to be checked")
    given = parser.parse_args()
    unknown = {*given.crates} - {*crates_list()}
    if unknown:
        parser.error(f"no such crates: {', '.join(sorted(unknown))}")
    needed = {it for name in given.crates for it in crates_of([name])[:-1]}
    below = [it for it in crates_of(given.crates) if it in needed]
    end_on_signals()
    hold_alone()
    with processes.room("kbroker-libraries-") as room:
        try:
            if below:
                prove(below, room)
        except NotProved as error:
            sys.exit(f"kbroker: {error}")
    lacking = kit.lay_kept(kit.load_rt(), ROOT, below)
    if lacking:
        sys.exit(f"kbroker: nothing is kept of {', '.join(lacking)}: is the disk full?")
    print(f"kbroker: {len(below)} libraries are laid out: go on by `rt check` in crates/{given.crates[0]}", file=sys.stderr)


if __name__ == "__main__":
    main()

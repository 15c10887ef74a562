#!/usr/bin/env python3
"""Prints which program is built from the sources as they stand: the proved one, or else one without a proof, of which standard error
says so. Where there is none, a sentence there says what to do, and the status is 3. `./kbroker` asks it before each run.
"""

import sys

from program import NOT_BUILT, proving_time, what_lacks
from unproved import chosen, tell, tell_of


def demanded():
    """The program that is built from the sources as they stand. Where there is none, this process ends."""
    program = chosen()
    if program is None:
        builds = f"`make prove` proves and builds it (in {proving_time()} where nothing is built)"
        tell(f"{what_lacks()}: `make build` builds it without a proof, in minutes, and {builds}")
        sys.exit(NOT_BUILT)
    tell_of(program)
    return program


def main():
    print(demanded())


if __name__ == "__main__":
    main()

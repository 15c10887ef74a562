#!/usr/bin/env python3
"""Prints, in Markdown, what the last `make verify` took: each crate, the edits that tests have to fail, and the tests.

With `--write` it puts that into docs/BUILD.md, in the place of what stands between the two lines that name this file.
"""

import argparse
import json
import re
import sys

from gate import TIMES
from program import BUILD_PAGE

KINDS = ("proof", "tests", "mutants")
PART = re.compile(r"(?<=<!-- made by tools/gate_times.py -->\n).*(?=<!-- so far -->\n)", re.S)


def row(name, *seconds):
    """A row of the table, in minutes; a time of nothing is left out."""
    cells = [f"{it / 60:.1f}" if it else "" for it in seconds]
    return f"| {' | '.join([name, *cells])} |"


def table(taken):
    """The rows, those that took most first, and what is in none of them."""
    rows = {name: [kinds[it] for it in KINDS] for name, kinds in taken["crates"].items()}
    rows = dict(sorted(rows.items(), key=lambda it: -sum(it[1])))
    sums = [sum(column) for column in zip(*rows.values())] or [0.0] * len(KINDS)
    lines = ["| crate, or what is of none | proof | tests | mutants | together |", "|---|--:|--:|--:|--:|"]
    lines += [row(name if " " in name else f"`{name}`", *seconds, sum(seconds)) for name, seconds in rows.items()]
    lines.append(row("the rest", *[0] * len(KINDS), max(taken["total"] - sum(sums), 0)))
    return [*lines, row("**all**", *sums, max(taken["total"], sum(sums)))]


def told(taken):
    """The table, and the run and the machine that it is of."""
    where = f"{taken['processors']} processors ({taken['machine']}), and {taken['peak'] / 1e9:.1f} GB of memory at most"
    what = f"In processor minutes. That run was of {taken['date']}, over commit {taken['commit']}, by {taken['kit']}"
    ended = f"It ended with `{taken['last']}`."
    return "\n".join([*table(taken), "", f"{what}. It took {taken['wall'] / 60:.0f} minutes on {where}. {ended}", ""])


def main():
    parser = argparse.ArgumentParser(description="Prints what the last `make verify` took.")
    parser.add_argument("--write", action="store_true", help="into docs/BUILD.md")
    is_written = parser.parse_args().write
    if not TIMES.is_file():
        sys.exit("gate times: there are none: run `make verify` first")
    text = told(json.loads(TIMES.read_text()))
    if not is_written:
        print(text, end="")
        return
    page, count = PART.subn(lambda _: f"\n{text}\n", BUILD_PAGE.read_text())
    if count != 1:
        sys.exit("gate times: docs/BUILD.md has no such place")
    BUILD_PAGE.write_text(page)


if __name__ == "__main__":
    main()

"""Reads and applies the edits of crates: mutants, which the prover has to refuse, and those that the compiler or a test has to.

An edit has lines `file:`, `old:` and `new:`: the text of `old:` stands once in the file, as the lines before it left that, and
that of `new:` takes its place. Each text is of one line. Where a test tries the edit, its first line, `KEY: TEXT`, says what is
due. Where rt tries it, empty lines and lines that begin as comments do are read over, as rt reads over them.
"""

import os
import re
from typing import NamedTuple

from program import PARTS, ROOT

PART = re.compile(r"^(\w+):(?: |$)")
COMMENTS = ("#", "--", "//")


class Kind(NamedTuple):
    """A folder of a crate in which edits stand: the key of their first line, if they have one, and from where they name files."""

    folder: str
    key: str | None = None
    base: str = "."

    def edits(self, crates):
        """The edits of these crates."""
        return [it for name in crates for it in sorted((ROOT / "crates" / name / self.folder).glob("*.edit"))]

    def base_of(self, edit):
        """The folder from which an edit names files."""
        return edit.parent.parent / self.base


MUST_FAIL, MUTANTS = Kind("must-fail"), Kind("mutants")
# Those that the gate tries of different functions in one check, where `rt ci` tries each of must-fail/ in a check of its own.
TOGETHER = Kind("gate-mutants")
FAILING_TESTS = Kind("failing-tests", "test", "..")
MUST_NOT_COMPILE = Kind("must-not-compile", "says")
KINDS = MUST_FAIL, MUTANTS, TOGETHER, FAILING_TESTS, MUST_NOT_COMPILE


class BadEdit(Exception):
    """An edit has a line that isn't understood, or can't be applied."""


def is_read_over(line):
    """Whether rt reads over a line."""
    return not line.strip() or line.startswith(COMMENTS)


def parts_of(edit, key=None):
    """The lines of an edit, each its kind and its text. The first is of this kind, if there is one."""
    parts = []
    for line in edit.read_text().removesuffix("\n").split("\n"):
        if key is None and is_read_over(line):
            continue
        found = PART.match(line)
        is_known = found and found[1] in ("file", "old", "new", key)
        if not is_known or key and (found[1] == key) != (not parts):
            raise BadEdit(f"{edit} has a line that isn't understood: {line}")
        parts.append((found[1], line[found.end() :]))
    return parts


def due(edit, key):
    """What an edit says is due."""
    return parts_of(edit, key)[0][1]


def text_of(folder, file):
    """The text of a source, by its path from a folder."""
    if not {*PARTS} & {*file.split("/")[:2]} or os.path.normpath(file) != file or not (folder / file).is_file():
        raise BadEdit(f"there is no source {file}")
    return (folder / file).read_text()


def changed(edit, key, folder):
    """The texts that an edit makes of files of this folder, by their paths from there."""
    texts, was, file, old = {}, {}, None, None
    for kind, text in parts_of(edit, key)[bool(key) :]:
        if kind == "file":
            file = text
            was.setdefault(file, text_of(folder, file))
            texts.setdefault(file, was[file])
        elif kind == "old":
            old = text
        elif not file or not old:
            raise BadEdit(f"{edit} has a new text in the place of none")
        elif texts[file].count(old) != 1:
            raise BadEdit(f"{edit} names what doesn't stand there once: {old}")
        else:
            texts[file], old = texts[file].replace(old, text), None
    if texts == was or old is not None:
        raise BadEdit(f"{edit} changes nothing, or ends with an old text")
    return texts


def apply(edit, key, folder):
    """Applies an edit to a copy in this folder, from which its files are named."""
    for file, text in changed(edit, key, folder).items():
        (folder / file).write_text(text)

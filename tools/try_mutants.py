#!/usr/bin/env python3
"""Tries mutants of one crate, those of different functions in one check.

`tools/try_mutants.py REPOSITORY CRATE FOLDER` tries the edits of this folder, and prints a line for each: its name, and what was
said of it, as rt says it. It is called by tools/mutants.py and tools/gate.py, in a copy of a repository in which `rt ci`
has just proved the crate: so what is refused here is refused for what an edit changes.

A function is proved from the contracts of those that it calls and never from their bodies, so of two bodies that are
wrong at once each has to be refused at a place of its own: in the function itself, or in its folder of proofs/, where no
other function of that name is changed in the same check. A mutant is tried so where it changes lines of one body in src/
and nothing else. The check is of the functions that are changed, and of those that they call, which later checks don't prove
again; all else is left out. A mutant
counts as refused where the check says that its function isn't proved and tells a fault at such a place, for more than a name that
a proof file misses. A fault at any other place, or a limit of the prover, and the check shows nothing. What is not refused so is
checked alone, and at last as `rt must-fail` does it, from nothing.
"""

import re
import sys
from pathlib import Path

import kit
import processes
from refusals import REFUSED, line_of

FUNCTION = re.compile(r"( *)(?:pub(?:\([a-z]+\))? )?(?:const )?fn (\w+)")
BLOCK = re.compile(r"(?:pub(?:\([a-z]+\))? )?(?:impl|trait)\b(?:<(.*?)>(?= ))? ?(.*?)(?: where .*)?(?: \{)?$")
PARAMETER = re.compile(r"(?:^|, )(?:const )?('?\w+)")
PLACE = re.compile(r"(?:note: )?(?:\./)?(\S+?):(\d+):\d+: (.*)")
IS_FAULT = re.compile(r"^error|it is not proved that")
LACKS_NAME = re.compile(r"has no field|is not in scope|has no `|was not admitted")
LACKS_FUNCTION = re.compile(r"has no function `([^`]+)`")
MOST = 16  # functions that are changed in one check


class Span:
    """A function in a file of src/: its name with the type and trait whose it is, the lines where it and its body begin, and its
    last line."""

    def __init__(self, name, owner, first, body, last):
        self.name, self.owner, self.first, self.body, self.last = name, owner, first, body, last


def end_of(lines, at, indent):
    """The lines where the body of the function that begins here begins and ends, or None where it has no lines."""
    body = None
    for it in range(at, len(lines)):
        line = lines[it]
        if body is not None and line == f"{indent}}}":
            return body, it
        if body is None and it > at and (FUNCTION.match(line) or line == f"{indent}{{}}"):
            return None
        closes_head = it == at or line.startswith(f"{indent})")
        if body is None and (line == f"{indent}{{" or closes_head and line.endswith(" {")):
            body = it
    return None


def owner_of(lines, at):
    """By what name a check has the block in which this line of a function stands: its type, and its trait after it, each with
    what it is of but for the block's own parameters; or a trait's. None where there is no block."""
    head = next((it for it in map(BLOCK.match, reversed(lines[:at])) if it), None)
    if head is None:
        return None
    own = {*PARAMETER.findall(head[1] or "")}
    of, _, of_type = head[2].rpartition(" for ")
    words = [it for it in re.findall(r"'?\w+(?!\w|::)", f"{of_type} {of}") if it[0] != "'" and it not in own]
    return "".join(it[0].upper() + it[1:] for it in words).removesuffix("Drop")


def spans(lines):
    """The functions of a source."""
    found = []
    for at, line in enumerate(lines):
        head = FUNCTION.match(line)
        ends = end_of(lines, at, head[1]) if head else None
        if ends:
            found.append(Span(head[2], owner_of(lines, at) if head[1] else None, at, *ends))
    return found


def module_of(path):
    """The module of a file of src/, by its path below the crate."""
    parts = path.removeprefix("src/").removesuffix(".rt").split("/")
    return "::".join(it for it in parts if it not in ("lib", "main", "mod"))


class Mutant:
    """An edit that changes lines of the body of one function in src/: the file, the function's name, its path below the crate and
    its place, and the new lines."""

    def __init__(self, edit, path, span, lines):
        self.edit, self.path, self.name, self.lines = edit, path, span.name, lines
        self.place, self.module = (path, span.first), module_of(path)
        # a type may be of another module than what it does here
        self.function = self.asked = "::".join(it for it in (span.owner or self.module, span.name) if it)

    def ask_for_module(self):
        """Has its whole module checked, as the function has another name in a check."""
        self.function, self.asked = self.name, self.module

    def is_of(self, function):
        """Whether a check means the function that is changed, or a closure in it."""
        return f"::{self.function}::" in f"::{function}::"


def mutant_of(crate, edit):
    """The mutant that an edit makes, where it changes one body and nothing else, or None."""
    texts = crate.texts_of(edit)
    if not texts or len(texts) > 1 or not next(iter(texts)).startswith("src/"):
        return None
    [(path, text)] = texts.items()
    old, new = Path(crate.folder, path).read_text().split("\n"), text.split("\n")
    changed = {at: new[at] for at in range(len(old)) if old[at] != new[at]}
    around = [it for it in spans(old) if it.body < min(changed) and max(changed) < it.last]
    return Mutant(edit, path, around[-1], changed) if around else None


def grouped(mutants):
    """These in groups, in none of which a function stands twice."""
    groups = []
    for mutant in mutants:
        group = next((it for it in groups if mutant.place not in it and len(it) < MOST), None)
        if group is None:
            groups.append(group := {})
        group[mutant.place] = mutant
    return [[*it.values()] for it in groups]


def texts_of(crate, mutants):
    """The files of the crate in which these change lines, by their paths."""
    texts = {}
    for mutant in mutants:
        lines = texts.setdefault(mutant.path, Path(crate.folder, mutant.path).read_text().split("\n"))
        for at, line in mutant.lines.items():
            lines[at] = line
    return {path: "\n".join(lines) for path, lines in texts.items()}


def faults_of(said, texts, group):
    """The faults that a check tells, each with the places of the changed functions where it stands."""
    functions = {path: spans(text.split("\n")) for path, text in texts.items()}
    changed = {it.place for it in group}
    for line in said.lines:
        place = PLACE.match(line)
        if place and IS_FAULT.search(place[3]) and not (place[1].startswith("proofs/") and LACKS_NAME.search(line)):
            path, at = place[1], int(place[2]) - 1
            if path.startswith("proofs/"):
                named = [it.place for it in group if it.name == path.split("/")[-2].lstrip("+")]
                yield line, named if len(named) == 1 else []
            else:
                inside = [(path, it.first) for it in functions.get(path, []) if it.first <= at <= it.last]
                yield line, [it for it in inside if it in changed]


def refused_in(said, texts, group):
    """The places of these functions that a check refuses, and what it tells first of each."""
    found = {}
    for line, places in faults_of(said, texts, group) if said.is_verdict else ():
        if not places:
            return {}  # of something that no edit has changed
        for it in places:
            found.setdefault(it, line)
    refused = {it.place for it in group if any(it.is_of(name) for name in said.refused)}
    return {place: line for place, line in found.items() if place in refused}


class Trial:
    """The mutants of a crate that is proved."""

    def __init__(self, crate, edits, kept):
        self.crate, self.left, self.kept = crate, [*edits], kept

    def tell(self, edit, text):
        """Prints what came of a mutant."""
        self.left.remove(edit)
        print(line_of(self.crate.name, edit.name, text), flush=True)

    def check(self, texts, group):
        """A check of the functions that these change."""
        while True:
            said = self.crate.check(texts, sorted({it.asked for it in group}), self.kept)
            lacking = {it for line in said.lines for it in LACKS_FUNCTION.findall(line)}
            renamed = [it for it in group if it.asked in lacking and it.asked != it.module]
            if not renamed:
                return said
            for it in renamed:
                it.ask_for_module()

    def try_together(self, group):
        """Tries the mutants of different functions in one check."""
        texts = texts_of(self.crate, group)
        found = refused_in(self.check(texts, group), texts, group)
        for mutant in group:
            if mutant.place in found:
                self.tell(mutant.edit, f"{REFUSED}: {found[mutant.place]}")

    def try_groups(self):
        """Tries the mutants of different functions together, and those that this doesn't show refused one by one."""
        mutants = [it for it in (mutant_of(self.crate, edit) for edit in self.left) if it]
        for group in grouped(mutants):
            self.try_together(group)
        for mutant in mutants:
            if len(mutants) > 1 and mutant.edit in self.left:
                self.try_together([mutant])

    def try_whole(self):
        """Tries each mutant that is left as `rt must-fail` does."""
        for edit in [*self.left]:
            self.tell(edit, self.crate.must_fail(edit))


def main():
    repository, name, folder, *options = sys.argv[1:]
    with processes.room("kbroker-kept-") as kept:
        trial = Trial(kit.Crate(kit.load_rt(), repository, name), sorted(Path(folder).glob("*.edit")), kept)
        if "--alone" not in options:
            trial.try_groups()
        trial.try_whole()


if __name__ == "__main__":
    main()

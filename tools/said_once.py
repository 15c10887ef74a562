#!/usr/bin/env python3
"""Prints the table of the definitions that are said once: `tools/said_once.py`; `--write` puts it into docs/SAID_ONCE.md.

A definition is a function, a relation, a record or a data type of a file of specs/. (What stands there with a proof is none: nobody
has to believe it.) It is *reached* where a contract of a file of src/ names it, or the definition of a reached one does.

It is *checked* where it is a rule that a law is over, or a part of one: what the rule's definition names, what that names, and so on.
Rules are those of which a clause of a laws.rt says a law, beside one that no wrong rule has it, and what the column 'definition' of
docs/PROOFS.md, "Rules that are said twice", names. Of the step as a whole (`STEPS`) laws often say single cases: it is no such rule.

What is reached and isn't checked is *said once*. Why that may be so stands in tools/said_once.toml, module by module. The status is
1 where a reason lacks, is about nothing or is too long, or where a name of that column isn't one definition's.
"""

import argparse
import re
import sys
import tomllib
from pathlib import Path

import refutations
from generated import Part

ROOT = Path(__file__).resolve().parent.parent
REASONS, RULES, THEOREM = "tools/said_once.toml", "docs/PROOFS.md", "docs/THEOREM.md"
PART = Part(ROOT / "docs/SAID_ONCE.md", "said_once")
CRATES_OF_LAWS = {"api_laws", "broker_laws", "durability_laws", "read_laws", "session_laws", "tenant_laws", "txn_laws", "wire_laws"}
CRATES_OF_LAWS |= {"wrong_rules"}
STEPS = {("api_dispatch", "Step", it) for it in ("outcome", "step", "reply_to", "request_outcome")}
STEPS |= {("request_handlers", "Headline", "state_after")}
MOST_WORDS = 20  # of a reason
USE = re.compile(r"^\s*(?:pub |ghost )*use Rattle\.(\w+)\.specs\.([\w.]+)\.\{([^}]*)\};?$", re.M)
COMMENT = re.compile(r"^\s*--.*\n|\s--\s.*$", re.M)
SHARED = re.compile(r"^pub use Rattle\.(\w+)\.specs\.([\w.]+)$", re.M)
# Where something of a file begins: a definition, of which this has the name, or a proof, a use, and so on.
DEFINED = r" *(?:abbrev|unfoldable) (?:pub )?(\S+)|(?:pub )?(?:record|data) (\S+)"
START = re.compile(rf"^(?:{DEFINED}|(?:pub|use|unfolding|infix\w*|module) |\S+ :)", re.M)
WORD = re.compile(r'"(?:[^"\\]|\\.)*"|[^\s(){};,]+')  # a text is one word
SECTION = re.compile(r"^## Rules that are said twice\n(.*?)(?=^## |\Z)", re.M | re.S)
CODE = re.compile(r"( of )?`([\w.]+)`")
COUNT = re.compile(r"\d+(?= definitions that contracts speak of are said once)")  # in docs/THEOREM.md


class Sources:
    """The definitions of the files of specs/ below a folder, each by its crate, module and name."""

    def __init__(self, root):
        self.root, self.texts, self.scopes, self.shared = root, {}, {}, {}
        for path in sorted((root / "crates").glob("*/specs/**/*.antt")):
            crate, _, *below = path.relative_to(root / "crates").with_suffix("").parts
            text, module = path.read_text(encoding="utf-8"), ".".join(below)
            self.texts |= {(crate, module, name): it for name, it in texts_of(text)}
            self.scopes[crate, module] = text
            self.shared |= {(crate, it[1]): it for it in SHARED.findall(text)}  # modules of other crates, under the same name
        for module, text in self.scopes.items():
            own = {it[2]: it for it in self.texts if it[:2] == module}
            self.scopes[module] = self.used(text) | own

    def used(self, text):
        """The definitions that the uses of a text bring in, by their names there."""
        found = {}
        for crate, module, names in USE.findall(text):
            for name, _, own in (it.strip().partition(" as ") for it in names.split(",")):
                it = *self.shared.get((crate, module), (crate, module)), name
                if it in self.texts:
                    found[own or name] = it
        return found

    def parts(self, definition):
        """The definitions that a definition names; of an operator, one of its words is its name."""
        scope = self.scopes[definition[:2]]
        words = words_of(self.texts[definition])
        return {it for name, it in scope.items() if words & {*name.split("◌")} - {""}} - {definition}

    def closure(self, definitions, without=frozenset()):
        """These, their parts, and the parts of those, but for some, whose parts aren't looked at."""
        found, rest = set(), [*definitions]
        while rest:
            it = rest.pop()
            if it not in found and it not in without:
                found.add(it)
                rest += self.parts(it)
        return found

    def reached(self):
        """The definitions that contracts speak of."""
        paths = sorted((self.root / "crates").glob("*/src/**/*.rt"))
        laws = {*refutations.files_of_laws(self.root)}
        texts = [it.read_text(encoding="utf-8") for it in paths if it not in laws]
        found = self.closure(it for text in texts for it in self.used(text).values())
        return {it for it in found if it[0] not in CRATES_OF_LAWS}

    def rules_of_clauses(self):
        """The rules of the laws that refute others."""
        found = set()
        for path in refutations.files_of_laws(self.root):
            used = self.used(path.read_text(encoding="utf-8"))
            found |= {used[it] for law in refutations.laws_of(path)[0] for rules in law.right for it in rules if it in used}
        return found

    def rules_of_page(self):
        """The rules that are said twice, and which names of them aren't one definition's. Where ' of `CRATE`' follows, or of a module
        of it, that is said of the names before it.
        """
        found, lacks = set(), []
        lines = SECTION.search((self.root / RULES).read_text(encoding="utf-8"))[1].splitlines()
        rows = [it.split(" | ") for it in lines if it.startswith("| ")][1:]
        for part in (it for row in rows for it in row[1].split(";")):
            place = ""
            for of, name in reversed(CODE.findall(part)):
                if of:
                    place = f"{name}."
                    continue
                those = [it for it in self.texts if it[2] == name and ".".join(it).startswith(place)]
                those = [it for it in those if it[0] not in CRATES_OF_LAWS] or those
                lacks += [] if len(those) == 1 else [f"{RULES}: {len(those)} definitions are called {place}{name}"]
                found |= {*those}
        return found, lacks

    def said_once(self):
        """What is said once, by its module; how many definitions are reached; and which names of rules aren't one definition's."""
        of_page, lacks = self.rules_of_page()
        checked, reached, found = self.closure(self.rules_of_clauses() | of_page, STEPS), self.reached(), {}
        for crate, module, name in sorted(reached - checked):
            found.setdefault(f"{crate}.{module}", []).append(name)
        return found, len(reached), lacks


def texts_of(text):
    """The name and the text of each definition of a file."""
    text = COMMENT.sub("\n", text)
    starts = [*START.finditer(text)]
    for it, after in zip(starts, [*(it.start() for it in starts[1:]), len(text)]):
        if name := it[1] or it[2]:
            yield name, text[it.start() : after]


def words_of(text):
    """The words of a definition, of which those before a point name what it has a field of."""
    return {it.partition(".")[0] for it in WORD.findall(text)}


def lacks_of(found, reasons):
    """What lacks in the reasons."""
    lacks = [f"{it}: no reason says why it is said once" for it in found if not reasons.get(it)]
    lacks += [f"{it}: nothing of it is said once" for it in reasons if it not in found]
    return lacks + [f"{it}: the reason has more than {MOST_WORDS} words" for it, why in reasons.items() if len(why.split()) > MOST_WORDS]


def table(root=ROOT):
    """The table, how many definitions it has, and what lacks."""
    found, count, lacks = Sources(root).said_once()
    reasons = tomllib.loads((root / REASONS).read_text(encoding="utf-8"))
    once = sum(len(it) for it in found.values())
    rows = [f"Contracts speak of {count} definitions: {count - once} are checked, and {once} are said once.\n"]
    rows += ["| in specs/ of | said once | why |", "|---|---|---|"]
    rows += [f"| `{it}` | {', '.join(f'`{name}`' for name in names)} | {reasons.get(it, '')} |" for it, names in found.items()]
    return "\n".join(rows) + "\n", once, lacks + lacks_of(found, reasons)


def main():
    parser = argparse.ArgumentParser(description="Prints the table of the definitions that are said once.")
    parser.add_argument("--write", action="store_true", help=f"puts it into docs/SAID_ONCE.md, and their number into {THEOREM}")
    made, once, lacks = table()
    if parser.parse_args().write:
        PART.write(made)
        (ROOT / THEOREM).write_text(COUNT.sub(f"{once}", (ROOT / THEOREM).read_text(encoding="utf-8")), encoding="utf-8")
    else:
        print(made, end="")
    for it in lacks:
        print(f"kbroker: {it}", file=sys.stderr)
    return 1 if lacks else 0


if __name__ == "__main__":
    sys.exit(main())

#!/usr/bin/env python3
"""Prints the table of the laws that refute wrong rules: `tools/refutations.py`; `--write` puts it into docs/PROOFS.md.

A law over a rule is a predicate. A function of laws.rt has a clause that the broker's own rule has it, and beside it clauses that
wrong ones haven't, as `¬ Law wrong`, or that no other rule has it. What the law says is the comment above its definition, and so it
is with each wrong rule, of which the table has the name. The status is 1 where a law is refuted and no clause of that function says
what has it, or where a comment lacks.
"""

import argparse
import re
import sys
from pathlib import Path

from generated import Part

ROOT = Path(__file__).resolve().parent.parent
PART = Part(ROOT / "docs/PROOFS.md", "refutations")
FUNCTION = re.compile(r"^pub fn (\w+)\(\)\n(.*?)^\{\}$", re.M | re.S)
CLAUSE = re.compile(r"ensures (?:(\w+) )?\{(.*?)\}", re.S)
USE = re.compile(r"^ghost use Rattle\.(\w+)\.specs\.([\w.]+)\.\{(.*?)\};$", re.M | re.S)
DEFINITION = re.compile(r"((?:^-- .*\n)+)(?:abbrev |unfoldable )?pub (?:record |data )?([\w]+)", re.M)
ONLY = "IsTheOnly"  # of a law and a rule: no other rule has the law
REFUTED = re.compile(r"^(?:\(.*\) → )?¬ (.*)$", re.S)


def files_of_laws(root):
    """The sources of a repository that hold laws: each crate's laws.rt, and what is too long for it in files whose names end so."""
    return sorted((root / "crates").glob("*/src/*laws.rt"))


class Law:
    """A law of a function: its name, the rules that have it, and the wrong ones that it refutes."""

    def __init__(self, crate, function, name):
        self.crate, self.function, self.name = crate, function, name
        self.right, self.wrong = [], []
        self.is_only = name.startswith(("OnlyRuleOf", "IsOnly"))  # whether it refutes each other rule


def comments_of(crate, module):
    """What stands above each definition of a file of specs/, by its name."""
    path = ROOT / "crates" / crate / "specs" / f"{module.replace('.', '/')}.antt"
    if not path.exists():
        return {}
    said = {}
    for lines, name in DEFINITION.findall(path.read_text(encoding="utf-8")):
        said[name] = " ".join(line[3:] for line in lines.splitlines() if not line.startswith("-- ----")).removeprefix("wrong: ")
    return said


def words_of(text):
    """The law of a clause and its arguments, each a rule, which may have an argument of its own."""
    law, *arguments = re.findall(r"\(([^()]*)\)|(\S+)", " ".join(text.split()))
    return law[1], [bracketed.split()[0] if bracketed else word for bracketed, word in arguments]


def laws_of(path):
    """The laws that a file refutes of wrong rules, and what its definitions say."""
    text, crate, said = path.read_text(encoding="utf-8"), path.parts[-3], {}
    for owner, module, names in USE.findall(text):
        comments = comments_of(owner, module)
        said |= {it.strip(): comments.get(it.strip(), "") for it in names.split(",")}
    laws = []
    for function, clauses in FUNCTION.findall(text):
        own = {}
        for _, clause in CLAUSE.findall(clauses):
            refuted = REFUTED.match(clause.strip())
            name, rules = words_of(refuted[1] if refuted else clause)
            if name == ONLY:
                name, *rules = rules
                own.setdefault(name, Law(crate, function, name)).is_only = True
                continue
            law = own.setdefault(name, Law(crate, function, name))
            (law.wrong if refuted else law.right).append(rules)
        laws += [it for it in own.values() if it.wrong or it.is_only]
    return laws, said


def row_of(law, said):
    """The row of a law, and what lacks in it."""
    right = law.right[0] if law.right else []
    others = [[it for it in rules if it not in right] for rules in law.wrong]
    lacks = [] if law.right else [f"{law.crate}: {law.function}: no clause says what has {law.name}"]
    names = [law.name, *(it for rules in others for it in rules)]
    lacks += [f"{law.crate}: {law.function}: no comment says what {it} is" for it in names if not said.get(it)]
    wrong = ", ".join([*(f"`{it}`" for rules in others for it in rules), *["every other rule"] * law.is_only])
    rule = ", ".join(f"`{it}`" for it in right)
    return f"| `{law.crate}`, `{law.function}` | `{law.name}`: {said.get(law.name, '')} | {rule} | {wrong} |", lacks


def table():
    """The table, and what lacks in it."""
    rows, lacks = ["| law of | says | of the rule | and refutes |", "|---|---|---|---|"], []
    for path in files_of_laws(ROOT):
        laws, said = laws_of(path)
        for row, lacking in (row_of(it, said) for it in laws):
            rows.append(row)
            lacks += lacking
    return "\n".join(rows) + "\n", lacks


def main():
    parser = argparse.ArgumentParser(description="Prints the table of the laws that refute wrong rules.")
    parser.add_argument("--write", action="store_true", help="puts it into docs/PROOFS.md")
    made, lacks = table()
    if parser.parse_args().write:
        PART.write(made)
    else:
        print(made, end="")
    for it in lacks:
        print(f"kbroker: {it}", file=sys.stderr)
    return 1 if lacks else 0


if __name__ == "__main__":
    sys.exit(main())

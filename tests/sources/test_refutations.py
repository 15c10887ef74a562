"""The table of wrong rules in docs/PROOFS.md is that of the sources, and no law refutes a rule without holding of the right one."""

import tempfile
import unittest
from pathlib import Path

import refutations

LAWS = """ghost use Rattle.small.specs.Rules.{Law, right, wrong};

/// A law.
pub fn a_law()
%s{}
"""
RULES = """-- what holds
abbrev pub Law : ℕ → Type 0
Law n = n ≡ 1

abbrev pub right : ℕ
right = 1

-- one too many
abbrev pub wrong : ℕ
wrong = 2
"""


class Refutations(unittest.TestCase):
    def rows_of(self, clauses, rules=RULES):
        """The rows of a repository with one law, and what lacks in them."""
        with tempfile.TemporaryDirectory() as folder:
            for name, text in (("src/laws.rt", LAWS % clauses), ("specs/Rules.antt", rules)):
                path = Path(folder, "crates/small", name)
                path.parent.mkdir(parents=True)
                path.write_text(text, encoding="utf-8")
            before, refutations.ROOT = refutations.ROOT, Path(folder)
            try:
                table, lacks = refutations.table()
            finally:
                refutations.ROOT = before
        return table.splitlines()[2:], lacks

    def test_the_table_is_current(self):
        made, lacks = refutations.table()
        self.assertEqual(lacks, [])
        _, held, _ = refutations.PART.split()
        self.assertEqual(held.strip(), made.strip(), "`tools/refutations.py --write` makes it")

    def test_a_law_and_what_it_refutes(self):
        rows, lacks = self.rows_of("    ensures holds { Law right }\n    ensures fails { ¬ Law wrong }\n")
        self.assertEqual(lacks, [])
        self.assertEqual(rows, ["| `small`, `a_law` | `Law`: what holds | `right` | `wrong` |"])

    def test_a_law_that_no_other_rule_has(self):
        rows, lacks = self.rows_of("    ensures holds { Law right }\n    ensures only { IsTheOnly Law right }\n")
        self.assertEqual(lacks, [])
        self.assertEqual(rows, ["| `small`, `a_law` | `Law`: what holds | `right` | every other rule |"])

    def test_a_family_is_named_by_its_rule(self):
        rows, _ = self.rows_of("    ensures holds { Law right }\n    ensures fails { (n : ℕ) → ¬ Law (wrong n) }\n")
        self.assertEqual(rows, ["| `small`, `a_law` | `Law`: what holds | `right` | `wrong` |"])

    def test_a_law_that_nothing_has_is_named(self):
        _, lacks = self.rows_of("    ensures fails { ¬ Law wrong }\n")
        self.assertEqual(lacks, ["small: a_law: no clause says what has Law"])

    def test_a_wrong_rule_without_a_comment_is_named(self):
        clauses = "    ensures holds { Law right }\n    ensures fails { ¬ Law wrong }\n"
        _, lacks = self.rows_of(clauses, RULES.replace("-- one too many\n", ""))
        self.assertEqual(lacks, ["small: a_law: no comment says what wrong is"])

    def test_a_law_without_wrong_rules_has_no_row(self):
        self.assertEqual(self.rows_of("    ensures { Law right }\n"), ([], []))


if __name__ == "__main__":
    unittest.main()

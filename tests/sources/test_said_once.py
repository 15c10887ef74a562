"""The table of docs/SAID_ONCE.md is that of the sources, each module of it has a reason, and docs/THEOREM.md tells how many there are."""

import re
import tempfile
import tomllib
import unittest
from pathlib import Path

import said_once

RULES = """use Rattle.std.specs.Prelude.{ℕ, ◌+◌, ◌≡◌, refl}

-- what the rule adds to
abbrev pub part : ℕ
part = 1

infixl 6 ◌⊕◌
unfoldable pub ◌⊕◌ : ℕ → ℕ → ℕ
m ⊕ n = m + n

-- the rule
abbrev pub rule : ℕ
rule = part ⊕ 1

-- of which only a contract speaks: not of the rule
abbrev pub alone : ℕ
alone = 2

-- of which nothing speaks
abbrev pub unread : ℕ
unread = 3

-- a proof is no definition
pub alone_is : alone ≡ 2
alone_is = refl
"""
HANDLED = """-- in another file a name is another definition's
abbrev pub part : ℕ
part = 4

pub record Held : Type 0 where
  pub kept : ℕ

module _ {T : Type 0} where
  -- what a handler makes of an event
  abbrev pub handled : ℕ
  handled = part
"""
STEP = """use Rattle.small.specs.Handled.{handled as made}

-- the step as a whole
abbrev pub outcome : ℕ
outcome = made
"""
WRONG = """abbrev pub Law : ℕ → Type 0
Law n = n ≡ 2

abbrev pub Case : ℕ → Type 0
Case n = n ≡ 4

abbrev pub wrong : ℕ
wrong = 0
"""
CODE = """ghost use Rattle.small.specs.Rules.{rule, alone};
ghost use Rattle.sharing.specs.Handled.{Held};
ghost use Rattle.api_dispatch.specs.Step.{outcome};

pub fn work() -> u64
    ensures { (result ≡ rule) × (result ≡ alone) × (result ≡ outcome) × Held }
{
    2
}
"""
LAWS = """ghost use Rattle.small.specs.Rules.{rule};
ghost use Rattle.api_dispatch.specs.Step.{outcome};
ghost use Rattle.wrong_rules.specs.Wrong.{Law, Case, wrong};

pub fn a_law()
    ensures holds { Law rule }
%s{}

pub fn a_case()
    ensures holds { Case outcome }
    ensures fails { ¬ Case wrong }
{}
"""
REFUTED = "    ensures fails { ¬ Law wrong }\n"
PAGE = "## Rules that are said twice\n| rule | definition | second statement | tried |\n|---|---|---|---|\n%s\n## Wrong rules\n"
# In reasons: laws of a crate, cases of a crate's file, and paths of tests/, which may have cases.
LAWS_OF = re.compile(r"((?:`\w+`(?:, | and ))*`\w+`) of `(\w+)`")
CASES_OF = re.compile(r"`(\w+)` \(`([\w/]+\.rt)`\)((?:[:,] `\w+`(?! \())*)")
PATH = re.compile(r"`(tests/[\w/.]+)`((?:[:,] `\w+`(?! \())*)")
ONCE = {"api_dispatch.Step": ["outcome"], "small.Handled": ["Held", "handled", "part"], "small.Rules": ["alone"]}


class SaidOnce(unittest.TestCase):
    def setUp(self):
        folder = tempfile.TemporaryDirectory()
        self.addCleanup(folder.cleanup)
        self.root = Path(folder.name)
        self.write("crates/small/specs/Rules.antt", RULES)
        self.write("crates/small/specs/Handled.antt", HANDLED)
        self.write("crates/sharing/specs/Lib.antt", "pub use Rattle.small.specs.Handled\n")
        self.write("crates/small/src/inner/work.rt", CODE)
        self.write("crates/api_dispatch/specs/Step.antt", STEP)
        self.write("crates/wrong_rules/specs/Wrong.antt", WRONG)
        self.write("crates/wrong_rules/src/laws.rt", LAWS % REFUTED)
        self.write(said_once.RULES, PAGE % "")
        self.write(said_once.REASONS, "".join(f'"{it}" = "to be read"\n' for it in ONCE))

    def write(self, name, text):
        """A file of the repository."""
        path = self.root / name
        path.parent.mkdir(parents=True, exist_ok=True)
        path.write_text(text, encoding="utf-8")

    def found(self):
        """What is said once, and what lacks in it."""
        found, _, lacks = said_once.Sources(self.root).said_once()
        return found, lacks

    def test_the_table_is_current(self):
        made, once, lacks = said_once.table()
        self.assertEqual(lacks, [])
        _, held, _ = said_once.PART.split()
        self.assertEqual(held.strip(), made.strip(), "`tools/said_once.py --write` makes it")
        told = said_once.COUNT.findall((said_once.ROOT / said_once.THEOREM).read_text(encoding="utf-8"))
        self.assertEqual(told, [f"{once}"], "`tools/said_once.py --write` tells it")

    def test_each_module_has_a_short_reason(self):
        found = said_once.Sources(said_once.ROOT).said_once()[0]
        reasons = tomllib.loads((said_once.ROOT / said_once.REASONS).read_text(encoding="utf-8"))
        self.assertEqual(said_once.lacks_of(found, reasons), [])

    def test_what_reasons_name_is_there(self):
        """Laws by their crates, scripts and tests by their paths, and cases by their files."""
        seen = 0
        for why in tomllib.loads((said_once.ROOT / said_once.REASONS).read_text(encoding="utf-8")).values():
            laws = [(f"crates/{crate}/src/*laws.rt", names) for names, crate in LAWS_OF.findall(why)]
            cases = [(f"crates/{crate}/src/{path}", names) for crate, path, names in CASES_OF.findall(why)]
            for path, names in laws + cases + PATH.findall(why):
                found = [*said_once.ROOT.glob(path.rstrip("/"))] or [*said_once.ROOT.glob(f"{path}.txt")]
                self.assertTrue(found, why)
                text = "".join(it.read_text(encoding="utf-8") for it in found if it.is_file())
                for name in re.findall(r"`(\w+)`", names):
                    self.assertTrue(re.search(rf"^ *((pub )?fn|def) {name}\b|^{name} = ", text, re.M), why)
                    seen += 1
        self.assertGreater(seen, 100)

    def test_a_rule_of_a_law_and_its_parts_are_checked(self):
        """So of the rule's own file nothing is said once but what a contract alone speaks of."""
        self.assertEqual(self.found(), (ONCE, []))

    def test_a_law_that_refutes_nothing_checks_nothing(self):
        self.write("crates/wrong_rules/src/laws.rt", LAWS % "")
        self.assertEqual(self.found()[0]["small.Rules"], ["alone", "part", "rule", "◌⊕◌"])

    def test_a_rule_that_no_other_has_the_law_of_is_checked(self):
        self.write("crates/wrong_rules/src/laws.rt", LAWS % "    ensures only { IsTheOnly Law rule }\n")
        self.assertEqual(self.found(), (ONCE, []))

    def test_a_rule_that_is_said_twice_is_checked(self):
        self.write(said_once.RULES, PAGE % "| a rule | `alone`; `handled` of `small.Handled` | `a_law` | |\n")
        self.assertEqual(self.found(), ({"api_dispatch.Step": ["outcome"], "small.Handled": ["Held"]}, []))

    def test_a_name_of_two_definitions_needs_its_module(self):
        self.write(said_once.RULES, PAGE % "| a rule | `part` of `small` | `a_law` | |\n")
        self.assertEqual(self.found()[1], ["docs/PROOFS.md: 2 definitions are called small.part"])
        self.write(said_once.RULES, PAGE % "| a rule | `part` of `small.Handled` | `a_law` | |\n")
        self.assertEqual(self.found(), ({**ONCE, "small.Handled": ["Held", "handled"]}, []))

    def test_a_name_of_no_definition_is_told(self):
        self.write(said_once.RULES, PAGE % "| a rule | `gone` | `a_law` | |\n")
        self.assertEqual(self.found()[1], ["docs/PROOFS.md: 0 definitions are called gone"])

    def test_the_whole_step_checks_nothing(self):
        """Neither a law that refutes others of it, nor that it is said twice."""
        self.write(said_once.RULES, PAGE % "| a rule | `outcome` | `a_case` | |\n")
        self.assertEqual(self.found(), (ONCE, []))

    def test_a_rule_that_is_made_of_the_step_does_not_check_its_parts(self):
        path = self.root / "crates/small/specs/Rules.antt"
        path.write_text("use Rattle.api_dispatch.specs.Step.{outcome}\n" + RULES.replace("part ⊕ 1", "part ⊕ outcome"), encoding="utf-8")
        self.assertEqual(self.found(), (ONCE, []))

    def test_what_no_contract_speaks_of_is_not_listed(self):
        self.write("crates/small/src/inner/work.rt", "pub fn work() {}\n")
        self.assertEqual(self.found(), ({}, []))

    def test_the_table(self):
        made, once, lacks = said_once.table(self.root)
        self.assertEqual((once, lacks), (5, []))
        self.assertTrue(made.startswith("Contracts speak of 8 definitions: 3 are checked, and 5 are said once.\n"), made)
        self.assertEqual(made.splitlines()[-1], "| `small.Rules` | `alone` | to be read |")

    def test_reasons_that_lack_are_stale_or_long(self):
        reasons = {"small.Rules": "a " * 21, "small.Gone": "to be read", "small.Handled": ""}
        lacks = said_once.lacks_of(ONCE, reasons)
        self.assertEqual(
            lacks,
            [
                "api_dispatch.Step: no reason says why it is said once",
                "small.Handled: no reason says why it is said once",
                "small.Gone: nothing of it is said once",
                "small.Rules: the reason has more than 20 words",
            ],
        )


if __name__ == "__main__":
    unittest.main()

"""What rt says of mutants, each of which the prover has to refuse for what it changes.

`rt ci` passes where an edit is bad, where it was refused only because a proof file names what it took away, and where the prover
came to a limit of its own. None of these shows anything of a contract, so here they are faults.
"""

import re

# What rt says of a mutant, and what tools/try_mutants.py says of one.
LINE = re.compile(r"^(?:rt: must-fail|mutants:) (\w+/[\w.-]+\.edit): (.*)$", re.M)
PLAIN = re.compile(r"refused, as it must be(?:: .*)?")
REFUSED = "refused, as it must be"
NOT_TRIED = "NOT TRIED: "
NOTHING_SAID = f"{NOT_TRIED}nothing was said of it"


def line_of(crate, edit, text):
    """A line of what came of a mutant."""
    return f"mutants: {crate}/{edit}: {' '.join(text.split())}"


def is_plain(text):
    """Whether what is said of a mutant is a refusal without a reservation."""
    return bool(PLAIN.fullmatch(text))


def faults_of(said, wanted):
    """What was said of each of these mutants that wasn't plainly refused, by their names: CRATE/NAME.edit."""
    texts = {it: [] for it in wanted}
    for name, text in LINE.findall(said):
        texts.setdefault(name, []).append(text)
    return {
        name: next((it for it in found if not is_plain(it)), NOTHING_SAID)
        for name, found in sorted(texts.items())
        if not found or not all(map(is_plain, found))
    }

"""What a package says of the proof of its program: which sources it is of, and what the last `make verify` said of them, or that nothing
was proved."""

import hashlib
import json
import subprocess

from gate import TIMES, commit, kit_id
from program import PROGRAM, ROOT, what_lacks
from unproved import UNPROVED

# What the program is made of, and what is proved of it.
SOURCES = "crates", "crates.txt", "HANDLES"
PROVED = "yes: the prover accepted each function of its crates, as they stand there, before it was built (`make prove`)"
NOT_PROVED = "no: nothing was proved of this program. It was compiled without a proof (`make build`), with checks that make it slow"
UNKNOWN = "unknown: it is neither what `make prove` nor what `make build` has built of what stands there"
# What has to be known of a run of the gate.
KNOWN = {"commit", "date", "kit", "last", "processors", "machine"}
READ_ON = "docs/THEOREM.md says what is promised of a proved program, its premises, and what is trusted.\n"


def is_of(name, root=ROOT):
    """Whether the sources of the program, as they stand, are those of a commit."""
    words = ["git", "-C", str(root), "diff", "--quiet", name, "--", *SOURCES]
    return subprocess.run(words, capture_output=True).returncode == 0


def last_gate(file=TIMES):
    """What is known of the last `make verify`, or None."""
    try:
        told = json.loads(file.read_text())
    except (FileNotFoundError, ValueError):
        return None
    return told if KNOWN <= told.keys() else None


def proved(program):
    """Whether this program was proved."""
    if program == PROGRAM and not what_lacks():
        return PROVED
    return NOT_PROVED if program == UNPROVED else UNKNOWN


def told_of_gate(gate, are_same):
    """What is to be told of the last `make verify`, over the very sources of this program or over others."""
    if gate is None:
        return {"gate": "not run: no `make verify` is known over these sources"}
    if not are_same:
        return {"gate": f"not run over these sources: the last `make verify` was over commit {gate['commit']}"}
    fields = {"gate": gate["last"], "gate over": f"commit {gate['commit']}, by which the program's sources are the same"}
    return {**fields, "gate run": f"{gate['date']}, by {gate['kit']}, on {gate['processors']} processors ({gate['machine']})"}


def text_of(program, version, gate, are_same):
    """What stands in the file PROOF beside this program."""
    fields = {"program": f"kbroker {version}", "sha256": hashlib.sha256(program.read_bytes()).hexdigest()}
    fields |= {"packed at": f"commit {commit()}", "toolchain": kit_id(), "proved": proved(program)}
    if fields["proved"] == PROVED:
        fields |= told_of_gate(gate, are_same)
    return "".join(f"{f'{name}:':<11}{text}\n" for name, text in fields.items()) + f"\n{READ_ON}"


def proof(program, version):
    """The same, as the repository and its last `make verify` have it."""
    gate = last_gate()
    return text_of(program, version, gate, bool(gate) and is_of(gate["commit"]))

#!/usr/bin/env python3
"""Tries the extended set of mutants, crates/NAME/mutants/*.edit: `make mutants`.

A mutant is an edit of one function's body, which its contract has to refuse. The gate tries those of must-fail/ and of
gate-mutants/. These are more of the same kind, for whoever changes a crate: `tools/mutants.py --both walk` tries all of the
crate walk, and with no name all crates are tried. Those of different functions are tried in one check, where
that shows each of them refused (tools/try_mutants.py), and with `--alone` each as `rt must-fail` tries it. What is printed is
each mutant that the prover didn't refuse, or refused for no more than a name in a proof file. The crates are
proved first, as by `make prove`.
"""

import argparse
import os
import shutil
import subprocess
import sys
import time

import edits
import processes
import refusals
from program import ROOT, crates_list, crates_of
from prove import NotProved, end_on_signals, hold_alone, prove

SETS = edits.MUTANTS, edits.TOGETHER, edits.MUST_FAIL
TRY_MUTANTS = ROOT / "tools/try_mutants.py"
MEMORY_OF_CRATE = 4e9  # bytes; four crates at a time were seen to take 10.7 GB


def mutants_of(name, sets):
    """The mutants of a crate in these sets, by their names."""
    found = {}
    for edit in (it for kind in sets for it in kind.edits([name])):
        if edit.name in found:
            sys.exit(f"mutants: {name}/{edit.name} stands in two sets")
        found[edit.name] = edit
    return found


def lay_out(copy, mutants):
    """Proves these crates in a copy of them and of those below, where their libraries stay, and lays their mutants beside it."""
    copy.mkdir()
    prove(sorted(mutants), copy)
    for name, found in mutants.items():
        folder = copy.parent / "mutants" / name
        folder.mkdir(parents=True)
        for edit in found.values():
            shutil.copy(edit, folder)


class Trial:
    """A crate whose mutants are being tried."""

    def __init__(self, name, room, mutants, options):
        self.name, self.mutants = name, mutants
        self.log = room / f"{name}.log"
        with self.log.open("w") as log:
            # what a check leaves in its temporary folders when it is ended goes with the room
            self.process = subprocess.Popen(
                [*processes.BOUND, sys.executable, TRY_MUTANTS, room / "copy", name, room / "mutants" / name, *options],
                env={**os.environ, "TMPDIR": str(room / "tmp")},
                stdin=subprocess.DEVNULL,
                stdout=log,
                stderr=subprocess.STDOUT,
            )

    def stop(self):
        """Ends it before it is done."""
        processes.end(self.process)

    def told(self):
        """What was said, and of it what is no plain refusal, by the names of mutants."""
        said = self.log.read_text(errors="replace")
        return said, refusals.faults_of(said, {f"{self.name}/{it}" for it in self.mutants})

    def judge(self):
        """Prints what is no plain refusal, and returns how many these are."""
        said, faults = self.told()
        for name, text in faults.items():
            print(f"mutants: {name}: {text}", flush=True)
        if refusals.NOTHING_SAID in faults.values():
            print("".join(said.splitlines(keepends=True)[-10:]))
        return len(faults)


def try_side_by_side(mutants, room, options):
    """Tries each crate's mutants, some crates at a time and first those with most mutants, and returns what failed."""
    left, lanes, running = sorted(mutants, key=lambda it: -len(mutants[it])), processes.at_once(MEMORY_OF_CRATE), []
    started, done, seen, failed = time.monotonic(), 0, 0, 0
    try:
        while left or running:
            while left and len(running) < lanes:
                name = left.pop(0)
                running.append(Trial(name, room, mutants[name], options))
            time.sleep(0.5)
            for trial in [it for it in running if it.process.poll() is not None]:
                running.remove(trial)
                failed += trial.judge()
                done, seen = done + 1, seen + len(trial.mutants)
                print(f"mutants: {done} of {len(mutants)} crates, {seen} mutants", file=sys.stderr)
    finally:
        for trial in running:
            trial.stop()
    minutes = (time.monotonic() - started) / 60
    print(f"mutants: {seen} of {done} crates were tried in {minutes:.1f} minutes, and {failed} were not plainly refused")
    return failed


def words_given():
    """The crates that are named, all of them if none is, their sets of mutants, and the options for each copy."""
    parser = argparse.ArgumentParser(description="Tries mutants, each of which the prover has to refuse.")
    parser.add_argument("crates", nargs="*", metavar="CRATE", help="whose mutants are tried; all, if none is named")
    parser.add_argument("--both", action="store_true", help="those too that the gate tries")
    parser.add_argument("--alone", action="store_true", help="each by a check of its whole crate")
    given = parser.parse_args()
    unknown = {*given.crates} - {*crates_list()}
    if unknown:
        parser.error(f"no such crates: {', '.join(sorted(unknown))}")
    return given.crates or [*crates_list()], SETS if given.both else SETS[:1], ["--alone"] if given.alone else []


def main():
    names, sets, options = words_given()
    mutants = {it: mutants_of(it, sets) for it in crates_of(names) if it in names}
    mutants = {name: found for name, found in mutants.items() if found}
    if not mutants:
        sys.exit("mutants: these crates have none")
    end_on_signals()
    held = hold_alone()
    with processes.room("kbroker-mutants-") as room:
        try:
            lay_out(room / "copy", mutants)
        except NotProved as error:
            sys.exit(f"mutants: {error}")
        (room / "tmp").mkdir()
        os.close(held)
        sys.exit(1 if try_side_by_side(mutants, room, options) else 0)


if __name__ == "__main__":
    main()

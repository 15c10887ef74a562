#!/usr/bin/env python3
"""Proves and builds the program: `make prove`. With names, as in `tools/prove.py walk`, it proves those crates and what they stand on.

It calls `rt ci` over a copy of these crates that has no mutants for it to try. `rt ci` proves each crate from nothing, unless a
run of it on this machine has passed the same files over the same libraries; it proves as many side by side as there are processors and
memory for, and keeps what it passed, for the gate too. Each crate's log is crates/NAME/out/prove.log.
"""

import argparse
import fcntl
import os
import re
import shutil
import signal
import subprocess
import sys
import time
from pathlib import Path

import processes
from program import NAME, PROGRAM, ROOT, crates_of, what_lacks

BEGINS = re.compile(r"^== (\w+)$")
ENDS = re.compile(r"^rt: (\w+) (proved|NOT PROVED|is kept)\b")
TOLD = 20  # lines of the log of a crate that isn't proved
SIGNALS = signal.SIGINT, signal.SIGTERM, signal.SIGHUP
LEFT_OUT = shutil.ignore_patterns("out", "must-fail")


class NotProved(Exception):
    """What isn't proved or built, and where to read why."""


def copy_crates(names, room):
    """Copies these crates and those that they stand on, as `rt ci` takes them, into a folder, and gives the names of all."""
    crates = crates_of(names)
    lines = (ROOT / "crates.txt").read_text().splitlines(keepends=True)
    (room / "crates.txt").write_text("".join(it for it in lines if {*it.partition(":")[0].split()[:1]} & {*crates}))
    shutil.copy(ROOT / "HANDLES", room)
    for name in crates:
        shutil.copytree(ROOT / "crates" / name, room / "crates" / name, ignore=LEFT_OUT, dirs_exist_ok=True)
    (room / ".git").mkdir(exist_ok=True)  # it is a repository of its own, wherever it lies
    return crates


def log_of(name):
    """The log of a crate's last proof."""
    return ROOT / "crates" / name / "out/prove.log"


def write_log(name, lines):
    """Writes the log of a crate's proof."""
    log_of(name).parent.mkdir(exist_ok=True)
    log_of(name).write_text("".join(lines))


def follow(lines, crates):
    """Writes each crate's log, and shows all else that `rt ci` says. Gives the crates that have a log and are not proved."""
    started, ended, refused, name, log = time.monotonic(), 0, [], None, []
    for line in lines:
        begins, ends = BEGINS.match(line), ENDS.match(line)
        if begins:
            name, log = begins[1], []
        elif ends:
            ended += 1
            minutes = (time.monotonic() - started) / 60
            print(f"kbroker: {ended} of {len(crates)} crates, {minutes:.1f} minutes: {ends[1]} {ends[2]}", file=sys.stderr)
            if name:
                write_log(name, log)
            if name and ends[2] == "NOT PROVED":
                sys.stderr.writelines(log[-TOLD:])
                refused.append(name)
            name = None
        elif name:
            log.append(line)
        else:
            print(line, end="", file=sys.stderr)
    return refused


def prove(names, room, *flags):
    """Proves these crates and those that they stand on in an empty folder, where what they made is left in crates/NAME/out/."""
    if shutil.which("rt") is None:
        raise NotProved("the toolchain's command rt is not on the PATH")
    crates = copy_crates(names, room)
    said = {"stdin": subprocess.DEVNULL, "stdout": subprocess.PIPE, "stderr": subprocess.STDOUT}
    with processes.room("kbroker-files-") as files:
        said["env"] = {**os.environ, "TMPDIR": str(files)}
        process = subprocess.Popen([*processes.BOUND, "rt", "ci", *flags], cwd=room, text=True, errors="replace", **said)
        try:
            refused = follow((it.replace(str(room), str(ROOT)) for it in process.stdout), crates)
        finally:
            status = processes.end(process)  # with all that it has started, where it hasn't ended
    if refused:
        logs = ", ".join(str(log_of(it).relative_to(ROOT)) for it in refused)
        raise NotProved(f"{', '.join(refused)} {'is' if len(refused) == 1 else 'are'} not proved: see {logs}")
    if status:
        raise NotProved(f"rt ci ended with status {status}: see its last lines above")


def take_program(room, began):
    """Puts the program that was proved in its place. It is as old as the reading of its sources."""
    made = PROGRAM.with_suffix(".new")
    made.parent.mkdir(exist_ok=True)
    shutil.copy(room / PROGRAM.relative_to(ROOT), made)
    os.utime(made, ns=(began, began))
    made.replace(PROGRAM)
    if what_lacks():
        raise NotProved("a source changed meanwhile: run this again")


def hold_alone():
    """Keeps every other such run out of the repository until what it returns is closed, or this process ends."""
    held = os.open(ROOT / "crates", os.O_RDONLY)
    try:
        fcntl.flock(held, fcntl.LOCK_EX | fcntl.LOCK_NB)
    except BlockingIOError:
        sys.exit("kbroker: another run proves this repository: wait for its end")
    return held


def pass_over_signals():
    """Has signals do nothing to this process. Those that it starts don't ignore them, as they would if it did."""
    for it in SIGNALS:
        signal.signal(it, lambda *_: None)


def end_on_signals():
    """Has the first signal end this process by way of its `finally` blocks, in which no other one disturbs it."""

    def end(number, _):
        pass_over_signals()
        sys.exit(128 + number)

    for it in SIGNALS:
        signal.signal(it, end)


def main():
    parser = argparse.ArgumentParser(description="Proves and builds the program, or other crates, and what they stand on.")
    parser.add_argument("crates", nargs="*", metavar="CRATE", help="in place of the program")
    parser.add_argument("--anew", action="store_true", help="from nothing, whatever runs on this machine have passed")
    given = parser.parse_args()
    names, flags = given.crates or [NAME], ["--anew"] * given.anew
    if names == [NAME] and not flags and not what_lacks():
        print("kbroker: the program is newer than its sources: nothing is proved (--anew proves it all the same)", file=sys.stderr)
        return
    end_on_signals()
    hold_alone()
    with processes.room("kbroker-prove-") as room:
        began = time.time_ns()
        try:
            prove(names, room, *flags)
            if NAME in names:
                take_program(room, began)
        except NotProved as error:
            sys.exit(f"kbroker: {error}")
    if NAME in names:
        print(f"kbroker: proved and built: {PROGRAM.relative_to(ROOT)}", file=sys.stderr)


if __name__ == "__main__":
    main()

"""The lesson of examples/steered.md: does what is typed in each window, in order, and gives it with what is printed.

`python3 -m tests.golden.lesson` writes what was printed into the lesson, for whoever changes it and then reads it.
"""

import os
import shlex
import subprocess

from kbroker_testing.broker import Kbroker
from program import ROOT
from tests.golden.scripts import EXAMPLES
from tests.pages import ADDRESS, settings_of

LESSON = EXAMPLES / "steered.md"
SETTINGS = EXAMPLES / "steered.toml"
# What the last line of an answer begins with.
LAST = {"state": "events ", "marks": "markers ", "audit": "refusals "}


class CommandFailed(Exception):
    """A command of the lesson failed."""


def typed(broker, line):
    """What is printed for a line that is typed in the broker's window."""
    if line == "end":
        return broker.wait("end\n")[1].splitlines()
    heard = [broker.say(line)]
    while line in LAST and not heard[-1].startswith(LAST[line]):
        heard.append(broker.next_line())
    return heard


def asked(broker, command):
    """What is printed for a command in the other window."""
    words = [broker.address if word == ADDRESS else word for word in shlex.split(command)]
    environment = {**os.environ, "PYTHONPATH": str(ROOT / "python")}
    ran = subprocess.run(words, cwd=ROOT, capture_output=True, text=True, timeout=30, env=environment)
    if ran.returncode:
        raise CommandFailed(f"{command}: {ran.stderr}")
    return ran.stdout.splitlines()


def followed(broker, lines):
    """The lesson's lines, with what was printed for each that is typed in place of what stands after it."""
    done, in_block, is_after = [], False, False
    for line in lines:
        if line.startswith("```"):
            in_block, is_after = not in_block, False
        if in_block and line.startswith(("> ", "$ ")):
            done += [line, *(typed(broker, line[2:]) if line[0] == ">" else asked(broker, line[2:]))]
            is_after = True
        elif not is_after:
            done.append(line)
    return done


def gone_through():
    """The lesson's lines as they are, and as they should be."""
    lines = LESSON.read_text().splitlines()
    with Kbroker(settings_of(SETTINGS)) as broker:
        return lines, followed(broker, lines)


if __name__ == "__main__":
    LESSON.write_text("".join(f"{line}\n" for line in gone_through()[1]))

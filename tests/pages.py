"""What stands on a page for people: commands of a terminal with what they print, and Python with what it prints.

It is done in a folder of its own, in which the page's paths lead to this repository and the program, and where the broker
listens elsewhere than on the page.
"""

import os
import re
import subprocess
import tempfile
from pathlib import Path
from typing import NamedTuple

from kbroker_testing.broker import ClockedKbroker
from program import ROOT
from serve_example import SETTINGS, WORDS
from tests.support import PROGRAM

ADDRESS = "127.0.0.1:9092"  # on the pages
OWN = ("node_id", "host", "port")  # the keys that the fixture writes itself
WAIT = 120  # seconds that a page's commands may take
BLOCK = re.compile(r"^```(\w*)\n(.*?)^```$", re.M | re.S)
PRINTS = re.compile(r"^ *print\(.*\)  # (.*)$", re.M)
ENDED = "-- this command has ended --"
# A line of librdkafka's own, which the pages leave out.
OF_LIBRDKAFKA = re.compile(r"%\d\|")


class Failed(Exception):
    """Python of a page doesn't run to its end."""


class Step(NamedTuple):
    """A command, and the lines that it prints."""

    command: str
    printed: list


def settings_of(path):
    """The settings of a file, for a broker on whatever port is free."""
    top, table, rest = path.read_text().partition("[[")
    lines = [it for it in top.splitlines() if it.partition(" = ")[0] not in OWN]
    return "\n".join(lines) + "\n" + table + rest


def part_of(page, heading, until=None):
    """What of a page stands after a line, which is a heading, and before another one, or to its end."""
    text = (ROOT / page).read_text().partition(f"\n{heading}")[2]
    return text.partition(f"\n{until}")[0] if until else text


def blocks_of(text, language=""):
    """The blocks of a language, or those of a terminal."""
    return [body for of, body in BLOCK.findall(text) if of == language]


def steps_of(block):
    """The commands of a block, each with what stands below it."""
    steps = []
    for line in block.splitlines():
        if line.startswith("$ "):
            steps.append(Step(line[2:], []))
        elif steps:
            steps[-1].printed.append(line)
    return steps


def prints_of(code):
    """What the comments beside its prints say that Python prints."""
    return PRINTS.findall(code)


def is_printed(line, comment):
    """Whether a comment is the line, or the line and what it means."""
    return comment == line or comment.startswith(f"{line}: ")


# README's first page: what is done in a minute, and in five.
FIRST = part_of("README.md", "## One minute", "## Five minutes")
OWN_TEST = part_of("README.md", "## Five minutes", "## What is served")


def recipes(heading, until):
    """The program of a section of docs/TESTING_WITH_KBROKER.md, which begins with the block of the page's first one."""
    page = "docs/TESTING_WITH_KBROKER.md"
    parts = part_of(page, "## The fixture", "## Recipes with confluent-kafka"), part_of(page, heading, until)
    return "\n".join(block for part in parts for block in blocks_of(part, "python"))


def serving():
    """A broker as `make serve` starts it, but for where it listens."""
    more = WORDS[WORDS.index("--audit") :]
    return ClockedKbroker(settings_of(SETTINGS), workers=16, connections=None, more=more)


class Room:
    """A folder with what the pages name, as a context manager; the broker listens at an address, if there is one."""

    def __init__(self, address=ADDRESS):
        self.address = address

    def __enter__(self):
        self.folder = tempfile.TemporaryDirectory()
        self.path = Path(self.folder.name)
        (self.path / "python").symlink_to(ROOT / "python")
        (self.path / "kbroker").symlink_to(PROGRAM.resolve())
        (self.path / "examples").mkdir()
        shop = (ROOT / "examples/shop.conf").read_text()
        (self.path / "examples/shop.conf").write_text(self.here(shop))
        return self

    def __exit__(self, *_):
        self.folder.cleanup()

    def here(self, text):
        """A text of a page, with the address at which the broker listens."""
        return text.replace(ADDRESS, self.address)

    def printed(self, steps):
        """The lines that each of these commands prints in a terminal, without librdkafka's own."""
        script = "".join(f"{self.here(it.command)}\necho '{ENDED}'\n" for it in steps)
        streams = {"stdin": subprocess.DEVNULL, "stdout": subprocess.PIPE, "stderr": subprocess.STDOUT}
        ran = subprocess.run(["sh", "-c", script], cwd=self.path, encoding="utf-8", timeout=WAIT, **streams)
        lines = [it for it in ran.stdout.splitlines() if not OF_LIBRDKAFKA.match(it)]
        groups = [[]]
        for line in lines:
            if line == ENDED:
                groups.append([])
            else:
                groups[-1].append(line)
        return groups[:-1]

    def run(self, code, interpreter):
        """Runs Python, and gives what it printed and what it said on standard error."""
        environment = {**os.environ, "PYTHONPATH": "python"}
        streams = {"stdin": subprocess.DEVNULL, "capture_output": True, "encoding": "utf-8"}
        words = [interpreter, "-c", self.here(code)]
        ran = subprocess.run(words, cwd=self.path, env=environment, timeout=WAIT, **streams)
        if ran.returncode:
            raise Failed(ran.stderr)
        return ran.stdout.splitlines(), ran.stderr


def assert_steps(case, room, steps):
    """Does what a page's commands say, and compares what they print with what stands there."""
    case.assertTrue(steps)
    for step, printed in zip(steps, room.printed(steps), strict=True):
        case.assertEqual(printed, room.here("\n".join(step.printed)).splitlines(), step.command)


def assert_prints(case, room, code, interpreter):
    """Runs Python of a page, and compares what it prints with the comments beside its prints."""
    printed, wanted = room.run(code, interpreter)[0], prints_of(code)
    case.assertTrue(wanted)
    case.assertEqual(len(printed), len(wanted), printed)
    for line, comment in zip(printed, wanted):
        case.assertTrue(is_printed(line, comment), f"{line} is printed, and the page says {comment}")

"""Refuses each allocation in turn of a server that lines steer: each line is answered as it should be, or told to be stopped.

A step that is stopped may put the broker down, which then takes no more; a line for whose reading there is no memory is the
end. What comes last is that the books are settled, or why they are not.
"""

import re
import subprocess

from tests.refused_memory.refusing import RefusingCase
from tests.support import LISTEN, OF_ROOT, PROGRAM, topic

LINES = ("tick 1", "mark", "state", "marks", "audit", "more", "tick 70000", "state", "end")
WORDS = ("serve", *LISTEN, "--workers", "1", "--control", "--settings")
FIRST = re.compile(r"listening on \S+")
LAST = re.compile(r"sessions 0 events \d+ refusals 0")
ENDS_EARLY = (
    "",
    "listen failed",
    "open failed",
    "settings refused: NoMemory",
    "settle failed: NoMemory",
    "settle failed: NoThread",
)
STOPS = "stop 1", "stop 3"
NUMBER = re.compile(r"\d+")
FEWEST = 50


class Run:
    """The program over the lines, in which an allocation is refused, or none."""

    def __init__(self, environment, folder):
        # a file, since a pipe takes more reads or fewer by chance, and each of them allocates
        with open(folder / "lines", "rb") as given:
            pipes = {"stdin": given, "capture_output": True, "text": True, "timeout": 60}
            ran = subprocess.run([PROGRAM, *WORDS, folder / "settings"], env=environment, **pipes)
        self.status, self.told = ran.returncode, ran.stderr
        lines = ran.stdout.splitlines() or [""]
        self.listens = len(lines) > 1 and bool(FIRST.fullmatch(lines[0]))
        self.answers, self.last = lines[1:-1] if self.listens else [], lines[-1]
        if self.listens and self.status and self.last not in ENDS_EARLY:  # there was no memory for the last line
            self.answers, self.last = lines[1:], ""


def shape(lines):
    """Lines without their numbers: a step that was stopped changes those of what follows."""
    return [NUMBER.sub("N", line) for line in lines]


def is_answered(answers, groups):
    """Whether these are the answers to the first lines, or to all of them, some of which were stopped."""
    for group in groups:
        if not answers:
            return True
        if answers[0] in STOPS:
            answers = answers[1:]
            continue
        if shape(answers[: len(group)]) != shape(group):
            return False
        answers = answers[len(group) :]
    return not answers


def groups_of(answers):
    """The answers of a whole run, line by line: that to `state` ends with the number of events."""
    groups, group = [], []
    for line in answers:
        group.append(line)
        if not group[0].startswith("moment") or line.startswith("events") or " " in group[0][7:]:
            groups.append(group)
            group = []
    return groups


def fault_of(run, groups):
    """What is wrong with a run, or None."""
    if not is_answered(run.answers, groups):
        return "is answered something else"
    if run.status == 0 and not (run.listens and LAST.fullmatch(run.last)):
        return "says another last line"
    if run.status and (run.status not in (1, 2) or run.last not in ENDS_EARLY and not FIRST.fullmatch(run.last)):
        return "doesn't end as it should"
    return None


class RefusedLines(RefusingCase):
    def test_each_line_is_answered_or_stopped(self):
        (self.folder / "settings").write_text(OF_ROOT + topic("b", 2))
        (self.folder / "lines").write_text("".join(f"{line}\n" for line in LINES))
        whole = Run(self.environment(0), self.folder)
        groups = groups_of(whole.answers)
        self.assertIsNone(fault_of(whole, groups), vars(whole))
        self.assertEqual(len(groups), len(LINES) - 1, vars(whole))
        count, faults, stopped = self.counted(whole.told, FEWEST), [], 0
        for at, run in self.each_refused(count, lambda it: Run(self.environment(it), self.folder)):
            fault = fault_of(run, groups)
            faults += [f"where allocation {at} of {count} is refused, a run {fault}: {vars(run)}"] * bool(fault)
            stopped += any(line in STOPS for line in run.answers)
        self.assert_no_faults(faults)
        self.assertTrue(stopped, "no line was stopped")

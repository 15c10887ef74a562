"""Scripts that are drawn: each line with what is wanted of its answer, and how the program's answers are held against that."""

from collections.abc import Callable
from typing import NamedTuple

from kbroker_testing.broker import replay
from kbroker_testing.protocol import response_of

MOST_FAULTS = 5  # that are told of a script


def fields_of(api, answer):
    """What a response tells."""
    return response_of(api, bytes.fromhex(answer)[4:])[1]


class Line(NamedTuple):
    """A line, what is wanted of the answer of an api, what takes that from it, and what is told as refused."""

    text: str
    wanted: object
    api: str | None = None
    taken: Callable = fields_of
    refused: tuple = ()

    def told(self, answer):
        """What is taken of the answer, or all of it where it is no response."""
        try:
            return self.taken(self.api, answer) if self.api else answer
        except ValueError:
            return answer


def assert_answered(case, settings, lines):
    """Fails where for any of a script's lines something else is printed than is wanted, and tells the first of these."""
    answers = replay(settings + "".join(f"{it.text}\n" for it in lines))
    case.assertEqual(len(answers), len(lines), "so many lines are answered")
    faults = []
    for at, (line, (answer, refused)) in enumerate(zip(lines, answers), 1):
        told, wanted = [line.told(answer), *refused], [line.wanted, *line.refused]
        if told != wanted:
            faults.append(f"line {at}: {line.api or line.text} is told {told} in place of {wanted}")
    shown = "\n".join(faults[:MOST_FAULTS])
    case.assertFalse(faults, f"{len(faults)} lines are answered otherwise:\n{shown}")

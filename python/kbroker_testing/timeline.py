"""A picture of a script, as SVG: `python3 -m kbroker_testing.timeline examples/transfer.txt > run.svg`.

Each partition is a lane, in which time goes from left to right: its batches where they were appended, transactional ones by what
became of them, its markers, its last stable offset, and below it what a read_committed consumer sees from then on. A step in which
nothing of this changes has no column. The steps of the script stand below. For this the script is replayed once more, with two
fetches of each partition after each of its lines; those change nothing. The program is the one that the environment's KBROKER names,
or `kbroker` on the path.
"""

import re
import sys
from collections.abc import Sequence
from html import escape
from typing import Any, NamedTuple

from kbroker_testing.apis import APIS, SCHEMAS
from kbroker_testing.broker import TABLE, Answered, BrokerFailed, replay
from kbroker_testing.codes import Code
from kbroker_testing.protocol import NAME, Batch, Fields, Reader
from kbroker_testing.protocol import batches_of, committed, errors_in, in_partition, partition_of, request_digits, response_of

Part = tuple[str, int]  # a topic, and a partition's index

LOOKER = "timeline"  # the super user who fetches
SUPERS = re.compile(r"^([ \t]*supers[ \t]*=[ \t]*\[)", re.M)
API_OF = {(key, version): name for name, (key, version, *_) in APIS.items()}
ALL = 1 << 26  # bytes, more than a script's log has
COLUMN, LANE, LEFT, TOP, LINE, WIDTH = 84, 92, 130, 40, 18, 960  # pixels
COLORS = {"committed": "#2a9d5c", "aborted": "#c0392b", "open": "#d99a00", "plain": "#3b6ea5"}
WORDS = {
    "committed": "of a committed transaction",
    "aborted": "of an aborted one",
    "open": "of one that is open or prepared",
    "plain": "of no transaction",
}


class Step(NamedTuple):
    """A line of a script in words, and what a fetch of each partition then answers, uncommitted records too and without them."""

    text: str
    whole: dict[Part, Fields]
    stable: dict[Part, Fields]


class Appended(NamedTuple):
    """A batch or a marker, and the number of the step in which it was appended."""

    step: int
    batch: Batch


def with_looker(settings: str) -> str:
    """These settings with one more super user."""
    principal = f'"User:{LOOKER}"'
    top, table = TABLE.split(settings, maxsplit=1)[0], settings
    if SUPERS.search(top):
        return SUPERS.sub(rf"\g<1>{principal}, ", table, count=1)
    return f"supers = [{principal}]\n{settings}"


def look(api: str, **fields: Any) -> str:
    """A line in which the super user asks."""
    return f"req {LOOKER} {LOOKER} {request_digits(api, **fields)}\n"


def answer_of(api: str, printed: str) -> Fields:
    """The fields of an answer, none where there is none."""
    return response_of(api, bytes.fromhex(printed)[4:])[1] if re.fullmatch("[0-9a-f]+", printed) else {}


def partitions_in(settings: str) -> list[Part]:
    """The topics' partitions, in the order in which Metadata tells them."""
    [told] = replay(f"{settings}---\n{look('Metadata', topics=None)}")
    topics = answer_of("Metadata", told.answer)["topics"]
    return [(it["topic"], number) for it in topics for number in range(len(it["partitions"]))]


def named(code: int) -> str:
    """An error code by its name."""
    return Code(code).name if code in [*Code] else str(code)


def asked_by(words: Sequence[str]) -> tuple[str | None, Fields]:
    """The api of a line and its fields, or nothing of a frame that can't be read."""
    reader = Reader(bytes.fromhex(words[3])[4:])
    try:
        api = API_OF[reader.number(">h"), reader.number(">h")]
        reader.number(">i"), reader.read("s", False)
        if APIS[api][2]:
            reader.skip_tags()
        return api, reader.read_fields(SCHEMAS[api][0], APIS[api][2])
    except (KeyError, ValueError):
        return None, {}


def shortened(value: bytes | None) -> str:
    """A record's value in a few letters."""
    text = "null" if value is None else value.decode(errors="replace")
    return text if len(text) <= 12 else f"{text[:11]}…"


def details(api: str, fields: Fields) -> list[str]:
    """What a request is about."""
    topics = [it for it in fields.get("topics") or () if isinstance(it, dict)]
    own = [(topic["topic"], it) for topic in topics for it in topic.get("partitions") or ()]
    parts = [f"{topic}-{it if isinstance(it, int) else it['index']}" for topic, it in own]
    if api == "Produce":
        sent = [batches_of(it["records"] or b"") for _, it in own]
        values = [[shortened(record.value) for batch in batches for record in batch.records] for batches in sent]
        parts = [f"{name}: {', '.join(it)}" for name, it in zip(parts, values)]
    if api.startswith("EndTxn"):
        parts = ["commit" if fields["committed"] else "abort"]
    return [*parts, *(str(fields[it]) for it in ("transactional_id", "group") if fields.get(it))]


def text_of(line: str, answered: Answered) -> str:
    """A line in words, with the errors of its answer."""
    words = line.split(" ")
    if words[0] != "req":
        return f"the clock shows {words[1]} ms" if words[0] == "tick" else "the oldest pending marker is written, if there is one"
    api, fields = asked_by(words)
    if api is None:
        return f"{words[1]} sends what can't be read"
    errors, about = sorted(errors_in(answer_of(api, answered.answer))), details(api, fields)
    text = f"{words[1]}: {api}{' ' * bool(about)}{'; '.join(about)}"
    return text + (f" → {', '.join(map(named, errors))}" if errors else "")


def steps_of(script: str) -> tuple[list[Part], list[Step]]:
    """The partitions of a script, and its steps."""
    settings, _, rest = script.partition("---\n")
    settings, lines = with_looker(settings), rest.splitlines()
    parts = partitions_in(settings)
    asked = [(part, {"isolation": it, "max_bytes": ALL}) for part in parts for it in (0, 1)]
    fetches = "".join(look("Fetch", topics=in_partition(part, offset=0, max_bytes=ALL), **it) for part, it in asked)
    answers = iter(replay(f"{settings}---\n" + "".join(f"{line}\n{fetches}" for line in lines)))
    steps = []
    for line in lines:
        step = Step(text_of(line, next(answers)), {}, {})
        for part in parts:
            for found in (step.whole, step.stable):
                found[part] = partition_of(answer_of("Fetch", next(answers).answer))
        steps.append(step)
    return parts, steps


def appended(steps: Sequence[Step], part: Part) -> list[Appended]:
    """The batches of a partition, each with its step."""
    found: list[Appended] = []
    for number, step in enumerate(steps):
        found += [Appended(number, it) for it in batches_of(step.whole[part]["records"])[len(found) :]]
    return found


def state_of(at: int, batches: Sequence[Appended]) -> str:
    """What became of a batch in the end."""
    if not batches[at].batch.is_transactional:
        return "plain"
    ends = (it.batch for it in batches[at + 1 :] if it.batch.is_control and it.batch.producer == batches[at].batch.producer)
    end = next(ends, None)
    return "open" if end is None else "committed" if end.commits else "aborted"


def words_at(
    x: int, y: int, words: str, color: str = "#222", size: int = 12, anchor: str = "start", weight: str = "normal"
) -> str:
    """A text of the picture."""
    style = f'fill="{color}" font-size="{size}" text-anchor="{anchor}" font-weight="{weight}"'
    return f'<text x="{x}" y="{y}" {style}>{escape(words)}</text>'


def is_moving(steps: Sequence[Step], at: int) -> bool:
    """Whether something is appended or shows in a step."""
    before = steps[at - 1] if at else None
    return before is None or steps[at].whole != before.whole or steps[at].stable != before.stable


def columns_of(steps: Sequence[Step]) -> dict[int, int]:
    """Where the columns of the steps begin that have one."""
    moving = [it for it in range(len(steps)) if is_moving(steps, it)]
    return {step: LEFT + number * COLUMN for number, step in enumerate(moving)}


def draw_batch(it: Appended, state: str, x: int, y: int) -> list[str]:
    """A batch with its values and its first offset, or a marker, which is a circle."""
    batch = it.batch
    if batch.is_control:
        sign, color = ("✓", COLORS["committed"]) if batch.commits else ("✗", COLORS["aborted"])
        circle = f'<circle cx="{x + 20}" cy="{y + 14}" r="13" fill="white" stroke="{color}" stroke-width="2"/>'
        inside = words_at(x + 20, y + 19, sign, color, 14, "middle", "bold")
        return [circle, inside, words_at(x + 38, y + 18, f"at {batch.base}", "#666", 10)]
    values = ", ".join(shortened(record.value) for record in batch.records)
    box = f'<rect x="{x + 2}" y="{y}" width="{COLUMN - 6}" height="28" rx="4" fill="{COLORS[state]}"/>'
    return [box, words_at(x + 8, y + 13, values[:14], "white", 11), words_at(x + 8, y + 24, f"at {batch.base}", "white", 9)]


def draw_lane(number: int, part: Part, steps: Sequence[Step], columns: dict[int, int]) -> list[str]:
    """A partition's lane."""
    y, batches = TOP + number * LANE, appended(steps, part)
    shade = ("#f6f6f3", "#eeeeea")[number % 2]
    found = [f'<rect x="{LEFT}" y="{y - 6}" width="{len(columns) * COLUMN}" height="{LANE - 12}" fill="{shade}"/>']
    found.append(words_at(10, y + 18, f"{part[0]}-{part[1]}", weight="bold", size=13))
    found += [words_at(10, y + 46, "last stable offset", "#666", 10), words_at(10, y + 66, "read_committed sees", "#666", 10)]
    for at, it in enumerate(batches):
        found += draw_batch(it, state_of(at, batches), columns[it.step], y)
    stable: int | None = None
    seen: list[tuple[int, bytes | None]] = []
    for at, step in enumerate(steps):
        answer = step.stable[part]
        if answer["last_stable_offset"] != stable:
            stable = answer["last_stable_offset"]
            found.append(words_at(columns[at] + 8, y + 46, str(stable), size=11))
        records = committed(answer)
        if records != seen:
            new = [shortened(value) for offset, value in records if (offset, value) not in seen]
            seen = records
            found.append(words_at(columns[at] + 8, y + 66, ", ".join(new)[:14], COLORS["committed"], 11, weight="bold"))
    return found


def picture(script: str) -> str:
    """The picture of a script."""
    parts, steps = steps_of(script)
    columns, below = columns_of(steps), TOP + len(parts) * LANE
    found = [words_at(x + 8, TOP - 14, f"step {step + 1}", "#666", 10) for step, x in columns.items()]
    for number, part in enumerate(parts):
        found += draw_lane(number, part, steps, columns)
    for at, (state, color) in enumerate(COLORS.items()):
        x = LEFT + at * 200
        found.append(f'<rect x="{x}" y="{below}" width="14" height="14" rx="3" fill="{color}"/>')
        found.append(words_at(x + 20, below + 12, WORDS[state], size=11))
    found += [words_at(LEFT, below + 44 + at * LINE, f"{at + 1}  {step.text}") for at, step in enumerate(steps)]
    width, height = max(WIDTH, LEFT + len(columns) * COLUMN + 10), below + 44 + len(steps) * LINE
    size = f'viewBox="0 0 {width} {height}" width="{width}" height="{height}"'
    head = f'<svg xmlns="http://www.w3.org/2000/svg" {size} font-family="sans-serif">'
    return "\n".join([head, f'<rect width="{width}" height="{height}" fill="white"/>', *found, "</svg>"]) + "\n"


def main() -> None:
    """Draws the script that the command line names."""
    if len(sys.argv) != 2:
        sys.exit("usage: python3 -m kbroker_testing.timeline SCRIPT > run.svg")
    try:
        with open(sys.argv[1], encoding="utf-8") as it:
            drawn = picture(it.read())
    except (OSError, UnicodeDecodeError) as fault:
        sys.exit(f"{NAME}: {sys.argv[1]} can't be read: {getattr(fault, 'strerror', fault)}")
    except BrokerFailed as fault:
        sys.exit(f"{NAME}: {fault}")
    sys.stdout.write(drawn)


if __name__ == "__main__":
    main()

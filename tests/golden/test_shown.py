"""Shows each script of `examples/` and of this folder in words, and compares what is shown with what `kbroker_testing.protocol`
reads of the same frames: each value, in the order of the wire. With the answers of an earlier run the same has to be shown, and
without settings the same requests. What examples/fencing.txt is shown as stands beside it, to be read by a person.

Besides, each script of `show/` is shown as the text beside it, which was written by hand, with the answers beside it if there
are any, and says on standard error what stands beside it. What that text tells of whole frames is read by
`kbroker_testing.protocol` too, without the program, and what is inside of batches here, by the protocol guide. And what can't be
read or written ends with status 1.
"""

import math
import os
import re
import struct
import subprocess
import unittest
from typing import NamedTuple

from kbroker_testing.apis import APIS, SCHEMAS
from kbroker_testing.protocol import Reader, response_of
from program import ROOT
from tests.golden.scripts import EXAMPLES, SHOWN, a_case_for_each, assert_lines, output_of
from tests.golden.test_plain_answers import printed
from tests.models.frames import SERVED
from tests.models.plain_log import Batch, batch_of
from tests.support import PROGRAM

HEAD = re.compile(
    r"line (\d+): (?:mark|tick \d+|User:.* at .* (?:asks (\w+) version (\d+)|sends \d+ bytes that are no request: .*"
    r"|asks ApiVersions in a version that isn't served))"
)
TEXT = re.compile(r'"(?:[^"\\]|\\.)*"')
ESCAPE = re.compile(r"\\(u\{([0-9a-f]+)\}|.)")
ESCAPED = {"n": "\n", "r": "\r", "t": "\t", "0": "\0"}
NUMBER = re.compile(r"-?\d+")
READABLE = EXAMPLES / "fencing.txt"
EACH_API = "each_api.script"
# Frames and answers with faults, and what isn't shown to its end, are read by hand alone.
BY_HAND_ALONE = "faults", "unfitting", "no_section", "full", "stopped", "refused_settings", "unreadable"
# Of these bytes the text tells something else: how long a password is.
OTHERWISE = "auth_bytes"
NO_BATCH = re.compile(r"\d+ bytes that are no batch(?=: )")
MARKERS = {0: "abort", 1: "commit"}


class Bytes(NamedTuple):
    """Bytes that are shown in hexadecimal digits."""

    digits: str


class Text(NamedTuple):
    """What is shown in quotes."""

    text: str


def unescaped(quoted):
    """The text that stands in quotes."""

    def plain(found):
        return chr(int(found[2], 16)) if found[2] else ESCAPED.get(found[1], found[1])

    return Text(ESCAPE.sub(plain, quoted[1:-1]))


def values_of(words):
    """The values that stand after a field's name."""
    if words.startswith("["):
        inner = words[1:-1]
        return [unescaped(it) for it in TEXT.findall(inner)] or [it for it in inner.split(", ") if it]
    if words.startswith('"'):
        return [unescaped(words)]
    first, _, rest = words.partition(" ")
    return [Bytes(rest) if first == "hex" else first]


def told(lines):
    """The values that are shown, in order, but for those of passwords. Of bytes that are no batch it is told how many these are."""
    found, within = [], None
    for line in lines:
        bare = line.lstrip(" ")
        indent = len(line) - len(bare)
        if within is not None and indent > within:
            continue
        within = None
        while bare.startswith("- "):
            bare, indent = bare[2:], indent + 2
        name, _, words = bare.partition(" ")
        if name == OTHERWISE:
            within = indent
        elif no_batch := NO_BATCH.match(bare):
            found.append(no_batch[0])
        elif bare.startswith('"') or NUMBER.fullmatch(bare):
            found += values_of(bare)
        elif words:
            found += values_of(words)
    return found


def wanted_bytes(data):
    """How bytes are shown."""
    try:
        text = data.decode()
    except UnicodeDecodeError:
        return Bytes(data.hex())
    is_hidden = any((it < " " and it not in "\t\n\r") or it == "\x7f" for it in text)
    return Bytes(data.hex()) if is_hidden else Text(text)


def of_record(record, base, is_control):
    """The values of a record ("Record"), at its offset: of a marker its kind, which is the second number of its key."""
    record.take(1)
    delta, offset, key, value = record.zigzag(), base + record.zigzag(), record.part(), record.part()
    headers = [it for _ in range(record.zigzag()) for it in (record.part(), record.part())]
    if is_control:
        return [str(offset), MARKERS[struct.unpack(">hh", key or b"")[1]]]
    return [str(offset), str(delta), *("null" if it is None else wanted_bytes(it) for it in (key, value, *headers))]


def of_records(batch, count, base, is_control):
    """The values of a batch's records, or how many bytes are none."""
    size = len(batch.data) - batch.at
    try:
        return [it for _ in range(count) for it in of_record(Reader(batch.take(batch.zigzag())), base, is_control)]
    except (ValueError, KeyError, struct.error):
        return [str(size)]


def of_batch(reader):
    """The values of a batch ("Record Batch" of the protocol's guide), and of its records where the batch has no fault."""
    began, base, length = reader.at, reader.number(">q"), reader.number(">i")
    batch = Reader(reader.take(length))
    leader, magic, _ = batch.number(">i"), batch.number(">b"), batch.number(">I")
    if magic != 2:
        raise ValueError("it is of another format")
    *head, count = struct.unpack(">hiqqqhii", batch.take(40))
    is_control, size = bool(head[0] & 32), len(batch.data) - batch.at
    is_right = is_control or isinstance(batch_of(reader.data[began : reader.at], math.inf), Batch)
    records = of_records(batch, count, base, is_control) if is_right else [str(size)]
    return [*(str(it) for it in (base, leader, *head)), *records]


def of_batches(data):
    """The values of batches, and how many bytes come then that are none."""
    reader, found = Reader(data), []
    while reader.at < len(data):
        began = reader.at
        try:
            found += of_batch(reader)
        except ValueError:
            return [*found, f"{len(data) - began} bytes that are no batch"]
    return found


def wanted(kind, value, name=""):
    """The values of what the protocol reads, in order."""
    if isinstance(kind, list):
        if any(value[name] is None and not may_be_null for name, _, may_be_null in kind):
            raise ValueError("what may not be null is null")
        return [one for name, of, _ in kind for one in wanted(of, value[name], name)]
    if kind == "b" and name == "auth":
        return []
    if kind == "b" and name == "records" and value is not None:
        return of_batches(value)
    if value is None:
        return ["null"]
    if isinstance(kind, tuple):
        return [one for it in value for one in wanted(kind[1], it)]
    if kind == "bool":
        return ["true" if value else "false"]
    if kind == "b":
        return [wanted_bytes(value)]
    return [Text(value) if kind == "s" else str(value)]


def asked(digits):
    """The api of a frame, and the values of its correlation id, its client id and its body; None where it asks another."""
    reader = Reader(bytes.fromhex(digits)[4:])
    key, version, correlation = reader.number(">h"), reader.number(">h"), reader.number(">i")
    api = SERVED.get((key, version))
    if api is None:
        return None
    client, flexible = reader.read("s", False), APIS[api][2]
    if flexible:
        reader.skip_tags()
    fields = reader.read(SCHEMAS[api][0], flexible)
    if reader.at != len(reader.data):
        return None
    head = [str(correlation), "null" if client is None else Text(client)]
    return api, version, head + wanted(SCHEMAS[api][0], fields)


def answered(api, digits):
    """The values of an answer's body."""
    _, fields = response_of(api, bytes.fromhex(digits)[4:])
    return wanted(SCHEMAS[api][1], fields)


def blocks_of(text):
    """What is shown of each line: its first line, what is asked, and what is answered."""
    blocks = []
    for line in filter(None, text.splitlines()):
        if not line.startswith(" "):
            blocks.append((line, [], []))
            part = 1
        elif line == "  answer":
            part = 2
        elif line.startswith("  answer none") or line == "  refused":
            part = None
        elif part:
            blocks[-1][part].append(line[2 * part - 2 :])
    return blocks


def is_as_told(block, line, out):
    """Whether a block is what the protocol reads of a script's line and of its answer."""
    head, request, reply = block
    found, words = HEAD.fullmatch(head), line.split(" ")
    if not found or words[0] != "req":
        return bool(found) and not request and not reply
    try:
        read = asked(words[3])
    except (ValueError, UnicodeDecodeError, struct.error, IndexError):
        read = None
    if read is None:
        return found[2] is None
    api, version, values = read
    if (found[2], found[3]) != (api.rstrip("12345") if api.startswith("EndTxn") else api, str(version)):
        return False
    if told(request) != values:
        return False
    return told(reply) == (answered(api, out) if re.fullmatch("[0-9a-f]+", out) else [])


def without_refusals(lines):
    """These lines, but for those of refusals, which belong to the answer before them."""
    return [it for it in lines if not it.startswith(("denied ", "unmatched "))]


def ended(*words, **streams):
    """The status, the text and the errors of a run over READABLE, or over other streams."""
    with READABLE.open("rb") as script:
        streams = {"stdin": script, "stdout": subprocess.PIPE} | streams
        ran = subprocess.run([PROGRAM, "show", *words], stderr=subprocess.PIPE, timeout=60, **streams)
    return ran.returncode, (ran.stdout or b"").decode(), ran.stderr.decode()


class ShownCase(unittest.TestCase):
    """Has the program show scripts."""

    def shown(self, text, *words):
        """What a script is shown as."""
        ran = subprocess.run([PROGRAM, "show", *words], input=text, capture_output=True, timeout=60)
        self.assertEqual((ran.returncode, ran.stderr), (0, b""))
        return ran.stdout.decode()

    def assert_read(self, text, lines, outs):
        """Whether what is shown is what the protocol reads of lines and their answers."""
        blocks = blocks_of(text)
        self.assertEqual(len(blocks), len(lines), "so many lines are shown")
        for number, (block, line, out) in enumerate(zip(blocks, lines, outs), 1):
            self.assertTrue(is_as_told(block, line, out), f"line {number}, {line} answered {out}, is shown as {block}")


@a_case_for_each
class Shown(ShownCase):
    def look_at(self, script):
        text = script.read_bytes()
        _, _, lines = text.decode().partition("\n---\n")
        lines = lines.splitlines()
        outs = without_refusals(output_of(script).read_text().splitlines())
        self.assertEqual(len(outs), len(lines), "so many lines are answered")
        whole = self.shown(text)
        self.assert_read(whole, lines, outs)
        self.assertEqual(self.shown(text, "--answers", output_of(script)), whole, "with its answers")
        blocks, alone = blocks_of(whole), blocks_of(self.shown("".join(f"{it}\n" for it in lines).encode()))
        self.assertEqual([it[:2] for it in alone], [it[:2] for it in blocks], "without its settings")
        self.assertFalse(any(it[2] for it in alone), "an answer is shown without settings")

    def test_fencing_is_shown_as_beside_it(self):
        text, wanted = self.shown(READABLE.read_bytes()), READABLE.with_suffix(".show").read_text()
        assert_lines(self, text.splitlines(keepends=True), wanted.splitlines(keepends=True))


class ByHand(ShownCase):
    def assert_as_written(self, script):
        """Whether a script is shown as written by hand beside it."""
        answers, errors = script.with_suffix(".answers"), script.with_suffix(".errors")
        words = ["--answers", answers] if answers.exists() else []
        wanted = errors.read_text() if errors.exists() else ""
        with script.open("rb") as lines:
            status, text, said = ended(*words, stdin=lines)
        self.assertEqual((status, said), (int(bool(wanted)), wanted))
        assert_lines(self, text.splitlines(keepends=True), script.with_suffix(".show").read_text().splitlines(keepends=True))

    def test_scripts_that_were_written_by_hand(self):
        scripts = sorted(SHOWN.glob("*.script"))
        self.assertIn(SHOWN / EACH_API, scripts)
        for script in scripts:
            with self.subTest(script=script.name):
                self.assert_as_written(script)

    def test_what_was_written_is_what_the_protocol_reads(self):
        """With the answers beside it, or those of the plain broker where there are settings. The program isn't asked."""
        read = [it for it in sorted(SHOWN.glob("*.script")) if it.stem not in BY_HAND_ALONE]
        self.assertIn(SHOWN / EACH_API, read)
        for script in read:
            with self.subTest(script=script.name):
                settings, mark, body = script.read_text().rpartition("---\n")
                lines, answers = body.splitlines(), script.with_suffix(".answers")
                if answers.exists():
                    outs = without_refusals(answers.read_text().splitlines())
                else:
                    outs = without_refusals(printed(f"{settings}{mark}{body}")) if mark else ["-"] * len(lines)
                self.assertEqual(len(outs), len(lines), "so many answers")
                self.assert_read(script.with_suffix(".show").read_text(), lines, outs)

    def test_what_can_be_neither_read_nor_written(self):
        folder = os.open(ROOT, os.O_RDONLY)
        self.addCleanup(os.close, folder)
        full = self.enterContext(open("/dev/full", "wb"))
        ways = (
            ("show: the text can't be written", (), {"stdout": full}),
            ("standard input: it can't be read\nkbroker: standard input: is a directory", (), {"stdin": folder}),
            (f"{ROOT}: it can't be read: is a directory", ("--answers", ROOT), {}),
            (f"{ROOT}/none: the file can't be opened: no such file or directory", ("--answers", ROOT / "none"), {}),
        )
        for why, words, streams in ways:
            with self.subTest(why=why):
                self.assertEqual(ended(*words, **streams), (1, "", f"kbroker: {why}\n"))

#!/usr/bin/env python3
"""Prints, in Markdown, the tables of the messages of a server: each as the sources of the crates write it, with what docs/OPERATING.md
says of it.

With `--write` it puts them into that page, each between the two lines that name it. A message that the page doesn't have yet gets a
row without words, and one that is gone loses its row. tests/sources/test_messages.py holds that the page has what this makes of the
sources, that each row has words, and that each text of a crate is a part of a message or said here to be none.
"""

import argparse
import re
import sys
from functools import cache
from typing import NamedTuple

from program import ROOT, crates_of

PAGE = ROOT / "docs/OPERATING.md"
# The tables: what standard error has where a server doesn't start, and while it runs; what that tells of a session's last frame,
# and why a session ended; and what standard output has.
STARTING, RUNNING, FRAMES, REASONS, PRINTED = TABLES = "starting", "running", "frames", "reasons", "printed"
HEADING = "| message | means | do |\n|---|---|---|\n"
PART = r"(?<=<!-- made by tools/messages\.py: {} -->\n).*?(?=<!-- so far: {} -->\n)"
ROW = re.compile(r"^\| (``? ?.+? ?``?) \| (.*?) ?\| (.*?) ?\|$", re.M)
LITERAL = re.compile(r'"((?:[^"\\]|\\.)*)"', re.S)
COMMENT = re.compile(r"^\s*//[^\n]*", re.M)
HOLE = re.compile(r"\{(\w+)[^}]*\}")
# The texts that lines begin with.
SAID, OF_SETTINGS, OF_SESSION, OF_SETTLING = "kbroker: ", "kbroker: settings: ", "kbroker: session SESSION ", "settle failed: "
# What the crate `clap` makes of what is wrong with a command line.
OF_CLAP = STARTING, "error: SENTENCE"
# How a request of HTTP begins.
METHODS = "GET ", "HEAD", "POST", "PUT ", "DELE", "CONN", "OPTI", "TRAC", "PATC", "PRI "
OF_THE_PROTOCOL = (
    *("acl_binding", "authorizer", "group_handlers", "group_offsets", "message_words", "msg_login", "partition_log", "record_batch"),
    *("sasl_login", "wire_types"),
)


class Source(NamedTuple):
    """The texts of a file of the crates, or of all files whose paths begin so.

    A message of more than one text is a tuple: its table, and then the texts, with what stands between them. Each of the other
    texts is a message of `table`, after `front`; where there is no table, it is none, for the reason in `none`.
    """

    path: str
    messages: tuple = ()
    table: str | None = None
    front: str = ""
    parts: tuple = ()  # texts that stand in other messages
    none: str | None = None


# Those that stand first are looked at first, and in this order stand their messages.
SOURCES = (
    Source(
        "core_reports/src/starting.rt",
        (
            (
                RUNNING,
                "kbroker: version {version} as node {node}: ",
                "topics {topics}, partitions {partitions}",
                ", users {users}, ACLs {bindings}, workers {workers}",
                ", a trail of {limit} events",
                " ({hours} hours at rest)",
                ", not encrypted",
            ),
        ),
    ),
    Source("commands/src/open.rt", ((RUNNING, OF_SETTINGS, "warning: {sentence}"),)),
    Source("arguments/src/misused.rt", (OF_CLAP,), none="each says which option is wrong, and what it takes"),
    Source("arguments/", none="the command line and its help"),
    Source(
        "kbroker/src/main.rt",
        (
            (STARTING, SAID, "the command line", ": ", "an argument is not UTF-8"),
            (STARTING, SAID, "standard input", ": ", "waiting for the settings, up to Ctrl-D"),
            (STARTING, SAID, "standard input", ": ", "there is not enough memory for its lines"),
            (STARTING, SAID, "FILE: ", "the settings' file can't be opened", ": REASON"),
            (STARTING, SAID, "FILE: ", "the file can't be opened", ": REASON"),
            (STARTING, SAID, "FILE: ", "{reason}"),
            (STARTING, SAID, "ADDRESS: ", "the address can't be listened on", ": REASON"),
            (STARTING, SAID, "random bytes", ": ", "the system gives none, by which names are hashed"),
            (PRINTED, "open failed"),
            (PRINTED, "listen failed"),
        ),
        parts=("", "waiting for the script, up to Ctrl-D"),
    ),
    Source("commands/src/cause.rt", table=STARTING, front=SAID, parts=("there is not enough memory for the next line of the script",)),
    Source("commands/src/hints.rt", table=STARTING, front=OF_SETTINGS, parts=("---", "---\\r")),
    Source(
        "commands/src/run.rt",
        ((STARTING, "kbroker: settings: {sentence}"), (PRINTED, "settings refused: NoMemory")),
        parts=("kbroker: line {number} of the input: {sentence}", "kbroker: {sentence}"),
        none="of `replay` and `check`",
    ),
    Source("commands/src/text.rt", ((PRINTED, "settings refused: {name}"),), none="what `replay` answers"),
    Source("commands/", none="the lines of scripts"),
    Source(
        "broker_keeping/src/operator_log.rt",
        ((RUNNING, OF_SESSION, "of {who} from {host}: {why}"),),
        table=RUNNING,
        parts=("nobody",),
    ),
    Source(
        "log_queue/src/log_message.rt",
        (
            (FRAMES, "fails to log in"),
            (FRAMES, "asks before its login, or out of its order"),
            (FRAMES, "asks what isn't served"),
            (FRAMES, "ends before its login"),
        ),
        none="the level of a line",
    ),
    Source("log_queue/src/repeats.rt", table=RUNNING),
    Source("broker_keeping/src/watch.rt", table=RUNNING),
    Source(
        "broker_keeping/src/refused.rt",
        (
            (FRAMES, "logs in as", " NAME", ": no user has this name and password"),
            (FRAMES, "asks for the mechanism", " NAME", ", which isn't offered: PLAIN is"),
            (FRAMES, "asks {name}", " before its login"),
            (FRAMES, "asks api {key}", " before its login"),
            (FRAMES, "asks {name}", " out of its order"),
        ),
        table=FRAMES,
        parts=("{name:.64}..", "isn't logged in"),  # the latter is of no request that is answered before a login
    ),
    Source("broker_keeping/", none="the lines of standard input, and what they are answered"),
    Source("core_reports/src/unserved.rt", table=FRAMES, parts=("{key:?}",)),
    Source(
        "audit_trail/src/audit_line.rt",
        ((RUNNING, "unmatched", " OP KIND NAME PRINCIPAL HOST"), (RUNNING, "denied", " OP KIND NAME PRINCIPAL HOST", " by {number}")),
        parts=(" ", "", "{why} {op} {kind}"),
    ),
    Source("core_reports/src/logged.rt", table=RUNNING, parts=("{name:.64}..", "")),
    Source(
        "core_reports/src/counts.rt",
        ((RUNNING, "kbroker: requests {requests}, ticks {ticks}", ", marks {marks}", "; ", "API EVENTS", " ({refusals} refusals)", ", .."),),
        parts=("{before}{name} {events}", " (1 refusal)", ", ", ""),
    ),
    Source("core_reports/", none="what `state` and the steps of `--control` are answered"),
    Source("log_queue/src/log_writer.rt", table=RUNNING),
    Source("log_queue/", none="the time and the level before a line"),
    Source("session_pool/src/end_reason.rt", table=REASONS, parts=("the connection was closed between two requests",)),
    Source("request_handlers/src/stop.rt", table=REASONS, parts=("stop 1", "stop 2", "stop 3")),
    Source(
        "session_workers/src/times.rt",
        (
            (REASONS, "its login", " took longer than SECONDS seconds"),
            (REASONS, "a frame", " took longer than SECONDS seconds"),
        ),
        table=REASONS,
        parts=("second", "seconds", "{what} took longer than {seconds} {unit}", *METHODS),
    ),
    Source("broker_server/src/server.rt", table=STARTING, parts=("{address}",)),
    Source(
        "broker_server/src/lines.rt",
        (
            (PRINTED, "listen failed"),
            (PRINTED, "settings refused: NoMemory"),
            (PRINTED, "listening on {address}"),
            (PRINTED, "sessions {sessions}", " events {events}", " refusals {refusals}"),
        ),
        parts=("settle failed: {name}", "the listener can't tell where it listens", "there is not enough memory for the first line"),
    ),
    Source(
        "session_workers/src/workers.rt",
        ((PRINTED, OF_SETTLING, "NoMemory"), (PRINTED, OF_SETTLING, "NoThread"), (PRINTED, OF_SETTLING, "NoSeat")),
        none="faults in sentences, of which a server tells the names alone",
    ),
    Source(
        "session_workers/src/settlement.rt",
        (
            (PRINTED, OF_SETTLING, "NoMemory"),
            (PRINTED, OF_SETTLING, "Stray"),
            (PRINTED, OF_SETTLING, "Twice"),
            (PRINTED, OF_SETTLING, "Missing"),
        ),
        none="faults in sentences, as above",
    ),
    Source("settings/", none="sentences, which say where the settings are wrong, and what may stand there"),
    Source("settings_text/", none="sentences, as above, and the faults that they are about"),
    Source("show/src/command.rt", parts=("kbroker: {what}: {why}",), none="of `show`"),
    Source("show/", none="what `show` prints"),
    Source("byte_streams/", none="faults, which commands/src/cause.rt has in sentences"),
    Source("frame_streams/", none="faults, which session_pool/src/end_reason.rt has in sentences"),
    Source("admission/", none="addresses"),
    *(Source(f"{it}/", none="faults and words of the protocol, which no server tells by themselves") for it in OF_THE_PROTOCOL),
)


def texts_of(path):
    """The texts of a file, without the line feed at their ends, each once."""
    found = LITERAL.findall(COMMENT.sub("", path.read_text(encoding="utf-8")))
    return [*dict.fromkeys(it.removesuffix("\\n").replace('\\"', '"') for it in found)]


@cache
def all_texts():
    """The texts of each file, by its path below crates/, of the crates that the program stands on."""
    files = [it for crate in crates_of(["kbroker"]) for it in sorted((ROOT / "crates" / crate / "src").rglob("*.rt"))]
    found = {str(it.relative_to(ROOT / "crates")): texts_of(it) for it in files}
    return {path: texts for path, texts in found.items() if texts}


def source_of(path):
    """The first source that is about a file, or None."""
    return next((it for it in SOURCES if path.startswith(it.path)), None)


def texts_by_source():
    """The texts of each source, by its path."""
    found = {it.path: [] for it in SOURCES}
    for path, texts in all_texts().items():
        if source := source_of(path):
            found[source.path] += texts
    return found


def named_in(source):
    """The texts that a source names."""
    return {part for _, *parts in source.messages for part in parts} | {*source.parts}


def shown(text):
    """A message as the page has it: what is put in stands in capitals."""
    text = HOLE.sub(lambda it: it[1].upper(), text)
    return f"`` {text} ``" if "`" in text and text[-1] == "`" else f"``{text}``" if "`" in text else f"`{text}`"


def faults():
    """Texts of which nothing is said here, and texts of which something is said and that stand nowhere."""
    wrong = [f"crates/{it} has texts, and no source of tools/messages.py is about it" for it in all_texts() if not source_of(it)]
    found = texts_by_source()
    for source in SOURCES:
        texts, named = found[source.path], named_in(source)
        is_open = source.table is None and source.none is None
        lost = [it for it in texts if it not in named and source.table is None and (is_open or it.startswith(SAID))]
        wrong += [f"crates/{source.path}: {it!r} is a part of no message" for it in lost]
        wrong += [f"crates/{source.path} has no text {it!r}" for it in source.parts if it not in texts]
        for message in source.messages:
            if message != OF_CLAP and not any(it in texts for it in message[1:]):
                wrong.append(f"crates/{source.path} has no part of {''.join(message[1:])!r}")
    return wrong


def messages():
    """The messages of each table, in order, as the page has them."""
    made, found = {it: {} for it in TABLES}, texts_by_source()
    for source in SOURCES:
        for table, *parts in source.messages:
            made[table][shown("".join(parts))] = None
        if source.table:
            rest = [it for it in found[source.path] if it not in named_in(source)]
            made[source.table] |= {shown(source.front + it): None for it in rest}
    return {table: [*those] for table, those in made.items()}


def place_of(table):
    """Where a table stands on the page."""
    return re.compile(PART.format(table, table), re.S)


def words_of(page):
    """What a page says of the messages of each table."""
    return {table: {message: (means, do) for message, means, do in ROW.findall(place_of(table).search(page)[0])} for table in TABLES}


def tables(page):
    """The tables, with the words of a page."""
    words = words_of(page)
    return {
        table: f"\n{HEADING}"
        + "".join(f"| {it} | {' | '.join(words[table].get(it, ('', '')))} |\n" for it in those)
        + "\n"
        for table, those in messages().items()
    }


def main():
    parser = argparse.ArgumentParser(description="Prints the tables of the messages of a server.")
    parser.add_argument("--write", action="store_true", help="into docs/OPERATING.md")
    is_written = parser.parse_args().write
    if wrong := faults():
        sys.exit("\n".join(f"messages: {it}" for it in wrong))
    page = PAGE.read_text(encoding="utf-8")
    missing = [it for it in TABLES if not place_of(it).search(page)]
    if missing:
        sys.exit(f"messages: docs/OPERATING.md has no place for {', '.join(missing)}")
    made = tables(page)
    if not is_written:
        print("".join(made.values()), end="")
        return
    for table, text in made.items():
        page = place_of(table).sub(lambda _: text, page)
    PAGE.write_text(page, encoding="utf-8")


if __name__ == "__main__":
    main()

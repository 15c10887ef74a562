"""Draws what happens to the offsets of three groups, and holds each OffsetFetch against a plain list of what happened.

Three producers stage offsets in transactions and end these, and offsets are committed beside them without a member.
Markers are written one at a time, so that much happens between the end of a transaction and its decision in each group.
After each event every group is asked for its offsets, once for stable ones alone.

An EndTxn of version 0 leaves the producer its epoch: so a history is drawn to its end before the program answers it.
"""

import random
import unittest
from collections import Counter
from typing import NamedTuple

from kbroker_testing.codes import Code
from kbroker_testing.protocol import in_partition, partitions_of, request_digits
from tests.models.drawn import Line, assert_answered
from tests.support import OF_ROOT, topic

SEEDS = range(5)
EVENTS = 300

GROUPS = "billing", "bill", "audit"
TOPICS = {"orders": 2, "order": 1}
PLACES = [(name, index) for name, count in TOPICS.items() for index in range(count)]
ALL = [{"topic": name, "partitions": [*range(count)]} for name, count in TOPICS.items()]
SETTINGS = OF_ROOT + "".join(topic(*it) for it in TOPICS.items()) + "---\n"
# Each transactional id is given the producer id of its place here.
PRODUCERS = "pay", "pays", "stock"

PUT, STAGE, COMMIT, ABORT = "put", "stage", "commit", "abort"

# Codes by api, and decisions of something that waits: each of these is seen so often at least.
ENOUGH = 50
LOOKED_FOR = (
    ("OffsetCommit", Code.NONE),
    ("TxnOffsetCommit", Code.NONE),
    ("TxnOffsetCommit", Code.INVALID_TXN_STATE),
    ("AddOffsetsToTxn", Code.CONCURRENT_TRANSACTIONS),
    ("OffsetFetch", Code.NONE),
    ("OffsetFetch", Code.UNSTABLE_OFFSET_COMMIT),
    COMMIT,
    ABORT,
)


# ---- what happened to a group


class Happened(NamedTuple):
    """A put is no producer's, and a decision is about no place."""

    what: str
    producer: str | None
    place: tuple | None = None
    offset: int | None = None


def waiting(events, producer, place):
    """The offset that waits for the producer's decision, or None."""
    for it in reversed(events):
        if it.producer == producer and it.what in (COMMIT, ABORT):
            return None
        if it.producer == producer and it.place == place:
            return it.offset
    return None


def committed(events, place):
    """The offset that was put last, or staged and committed last, or None."""
    for at, it in reversed([*enumerate(events)]):
        if it.what == PUT and it.place == place:
            return it.offset
        decided = waiting(events[:at], it.producer, place) if it.what == COMMIT else None
        if decided is not None:
            return decided
    return None


def fetched(events, place, stable):
    """What an OffsetFetch tells of a place."""
    offset, error = committed(events, place), Code.NONE
    if stable and any(waiting(events, it, place) is not None for it in PRODUCERS):
        offset, error = None, Code.UNSTABLE_OFFSET_COMMIT
    offset, metadata = (-1, "") if offset is None else (offset, f"m{offset}")
    return {"index": place[1], "offset": offset, "leader_epoch": -1, "metadata": metadata, "error": error}


# ---- what is drawn


class History:
    """Draws lines, by what happened in each group and which markers are pending."""

    def __init__(self, seed):
        self.random, self.lines, self.seen = random.Random(seed), [], Counter()
        self.events = {it: [] for it in GROUPS}
        self.added = {it: [] for it in PRODUCERS}
        self.ended = dict.fromkeys(PRODUCERS)
        self.owed = []
        for number, name in enumerate(PRODUCERS):
            wanted = {"throttle": 0, "error": Code.NONE, "producer": number, "epoch": 0}
            self.ask("InitProducerId", wanted, transactional_id=name, timeout=60_000)
        for offset in range(EVENTS):
            self.draw(offset)
            for group in GROUPS:
                self.look(group, False)
                self.look(group, True)

    def ask(self, api, wanted, **fields):
        self.lines.append(Line(f"req root h {request_digits(api, **fields)}", wanted, api))
        parts = [it for _, it in partitions_of(wanted)] or [wanted]
        self.seen.update((api, it["error"]) for it in parts)

    def draw(self, offset):
        kind, pick = self.random.randrange(9), self.random.choice
        group, place, producer = pick(GROUPS), pick(PLACES), pick(PRODUCERS)
        who = {"transactional_id": producer, "producer": PRODUCERS.index(producer), "epoch": 0}
        topics = in_partition(place, offset=offset, metadata=f"m{offset}")
        if kind == 0:
            self.events[group].append(Happened(PUT, None, place, offset))
            self.ask("OffsetCommit", {"topics": in_partition(place, error=Code.NONE)}, group=group, topics=topics)
        elif kind < 4:
            if self.random.randrange(5):
                self.add(producer, who, pick([group, group, *GROUPS]))
            error = Code.INVALID_TXN_STATE
            if group in self.added[producer] and not self.owes(producer):
                self.events[group].append(Happened(STAGE, producer, place, offset))
                error = Code.NONE
            wanted = {"throttle": 0, "topics": in_partition(place, error=error)}
            self.ask("TxnOffsetCommit", wanted, **who, group=group, topics=topics)
        elif kind < 6:
            self.end(producer, who, pick([COMMIT, COMMIT, ABORT]))
        else:
            self.mark()

    def owes(self, producer):
        return any(it == producer for it, _, _ in self.owed)

    def add(self, producer, who, group):
        """An AddOffsetsToTxn."""
        error = Code.CONCURRENT_TRANSACTIONS if self.owes(producer) else Code.NONE
        if not error and group not in self.added[producer]:
            self.added[producer].append(group)
        self.ask("AddOffsetsToTxn", {"throttle": 0, "error": error}, **who, group=group)

    def end(self, producer, who, outcome):
        """An EndTxn: a marker is pending for each added group."""
        owes, error = self.owes(producer), Code.NONE
        if self.added[producer] and not owes:
            self.owed += [(producer, group, outcome) for group in self.added[producer]]
            self.ended[producer] = outcome
        elif self.ended[producer] != outcome:
            error = Code.INVALID_TXN_STATE
        elif owes:
            error = Code.CONCURRENT_TRANSACTIONS
        self.ask("EndTxn", {"throttle": 0, "error": error}, **who, committed=outcome == COMMIT)

    def mark(self):
        """The first pending marker is written, and after its last one a transaction is over."""
        self.lines.append(Line("mark", "-"))
        if self.owed:
            producer, group, outcome = self.owed.pop(0)
            self.seen[outcome] += any(waiting(self.events[group], producer, it) is not None for it in PLACES)
            self.events[group].append(Happened(outcome, producer))
            if not self.owes(producer):
                self.added[producer] = []

    def look(self, group, stable):
        """An OffsetFetch of each place, or of all of which something is told."""
        asked, topics = self.random.choice([ALL, ALL, None]), []
        for it in ALL:
            told = [fetched(self.events[group], (it["topic"], index), stable) for index in it["partitions"]]
            told = [part for part in told if asked or part["error"] or part["offset"] >= 0]
            topics += [{**it, "partitions": told}] * bool(told)
        wanted = {"throttle": 0, "topics": topics, "error": Code.NONE}
        self.ask("OffsetFetch", wanted, group=group, topics=asked, require_stable=stable)


class GroupHistories(unittest.TestCase):
    @classmethod
    def setUpClass(cls):
        cls.histories = {it: History(it) for it in SEEDS}

    def test_each_line_is_answered_by_what_happened(self):
        for seed, history in self.histories.items():
            with self.subTest(seed=seed):
                assert_answered(self, SETTINGS, history.lines)

    def test_enough_is_seen(self):
        seen = sum((it.seen for it in self.histories.values()), Counter())
        for it in LOOKED_FOR:
            with self.subTest(it=it):
                self.assertGreaterEqual(seen[it], ENOUGH)

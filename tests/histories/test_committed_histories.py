"""Histories over a server with its clock on: consumers see exactly what was committed, in order and once, whoever is killed.

Eight transactional producers, four idempotent ones, and two consumers of each partition work side by side, and lose their connections
(`clients.py`). Once nothing is open, everything that was told is held to what was seen (`checked.py`). The seed is drawn, and
printed; the environment may name another one, or a longer time:

    KBROKER_HISTORY_SECONDS=600 make test K=histories
    KBROKER_HISTORY_SEED=123 make test K=histories
"""

import os
import random
import sys
import threading
import time
import unittest

from kbroker_testing.broker import ClockedKbroker
from kbroker_testing.codes import Code
from kbroker_testing.protocol import Batch, batches_of, in_partition, logged_in, partition_of
from kbroker_testing.waiting import wait_until
from tests.histories import checked
from tests.histories.clients import ABORTED, COMMITTED, LONG, PARTS, UNKNOWN, Consumer, IdempotentProducer, Transaction, TransactionalProducer
from tests.support import OF_ROOT, topic

SECONDS = float(os.environ.get("KBROKER_HISTORY_SECONDS", "20"))
SEED = os.environ.get("KBROKER_HISTORY_SEED")
TRANSACTIONAL, IDEMPOTENT, CONSUMERS = 8, 4, 2  # consumers of each partition
LEAST = 20  # transactions that have to commit, on the slowest machine
OVER_WITHIN = 120  # seconds in which consumers come to the end
SETTINGS = "trail_limit = 50000000\n" + OF_ROOT + topic("a", 2) + topic("b", 1)


def end_all(broker, names):
    """Ends what is open, as a new producer of each id does."""
    for name in names:

        def is_ended(name=name):
            told = broker.ask("InitProducerId", transactional_id=name, timeout=LONG)["error"]
            return told != Code.CONCURRENT_TRANSACTIONS

        wait_until(is_ended, otherwise=f"a transaction of {name} stays open")


def log_of(broker, part):
    """All batches of a partition's log, those of no committed transaction among them."""
    found, offset = [], 0
    while True:
        fields = in_partition(part, offset=offset, max_bytes=1 << 22)
        batches = batches_of(partition_of(broker.ask("Fetch", max_bytes=1 << 22, isolation=0, topics=fields))["records"])
        if not batches:
            return found
        found, offset = found + batches, batches[-1].end


def offset_of(broker, name):
    """The offset of a producer's group, -1 if there is none."""
    told = broker.ask("OffsetFetch", group=f"g{name}", topics=None, require_stable=True)
    return partition_of(told)["offset"] if told["topics"] else -1


class Histories(unittest.TestCase):
    def joined(self, clients, within=None):
        """Waits for clients, none of which may have failed."""
        for it in clients:
            it.join(within)
            self.assertFalse(it.is_alive(), f"{it.name} isn't done")
            self.assertIsNone(it.fault, it.fault)

    def history(self, seed):
        """What came of a history: its transactions, what consumers saw, the groups' offsets, the logs, and how many were killed."""
        drawn, over = random.Random(seed), threading.Event()
        workers = TRANSACTIONAL + IDEMPOTENT + CONSUMERS * len(PARTS) + TRANSACTIONAL + 2  # and those that are fenced
        with ClockedKbroker(SETTINGS, connections=None, workers=workers, more=("--endless",)) as server:

            def clients(kind, *each):
                return [kind(*own, server.address, random.Random(drawn.random()), time.monotonic() + SECONDS) for own in each]

            producers = clients(TransactionalProducer, *((f"t{it}",) for it in range(TRANSACTIONAL)))
            producers += clients(IdempotentProducer, *((f"i{it}",) for it in range(IDEMPOTENT)))
            consumers = clients(Consumer, *((part, over) for part in PARTS for _ in range(CONSUMERS)))
            for it in producers + consumers:
                it.daemon = True
                it.start()
            self.joined(producers)
            names = [it.name for it in producers[:TRANSACTIONAL]]
            with logged_in(server.address) as broker:
                end_all(broker, names)
                over.set()
                self.joined(consumers, OVER_WITHIN)
                offsets = {it: offset_of(broker, it) for it in names}
                logs = {it: log_of(broker, it) for it in PARTS}
        transactions = [it for producer in producers for it in (producer.history if producer.name in names else [producer.history])]
        seen = {part: [it.seen for it in consumers if it.part == part] for part in PARTS}
        return transactions, seen, offsets, logs, sum(it.kills for it in producers + consumers)

    def test_what_was_committed_is_seen(self):
        seed = int(SEED) if SEED else random.randrange(1 << 32)
        transactions, seen, offsets, logs, kills = self.history(seed)
        ends = {end: sum(it.end == end for it in transactions) for end in (COMMITTED, ABORTED, UNKNOWN)}
        records = sum(len(lists[0]) for lists in seen.values())
        print(f"tests: a history with the seed {seed}: {ends}, {records} records seen, {kills} killed", file=sys.stderr)
        self.assertEqual(checked.faults(transactions, seen, offsets, logs), [], f"the seed is {seed}")
        self.assertGreater(ends[COMMITTED], LEAST)
        self.assertGreater(ends[ABORTED], 0)
        self.assertGreater(kills, 0)


A, B, C = PARTS


def transaction(end=COMMITTED, values=(b"1", b"2"), base=0, number=1, part=A, has_offset=False):
    """One of a producer, whose values stand in a partition."""
    return Transaction("t", number, [(part, [*values], base)], has_offset, end)


class Faults(unittest.TestCase):
    """Each fault of a broker is told, and nothing else is."""

    def told(self, *transactions, seen=((0, b"1"), (1, b"2")), other=None, offset=-1, log=()):
        """What is told of the first partition, of which another consumer may have seen something else."""
        lists = {A: [[*seen], [*(seen if other is None else other)]], B: [[], []], C: [[], []]}
        batches = [Batch(base, 0, 0, 0, (None,) * count) for base, count in log]
        return checked.faults(transactions, lists, {"t": offset}, {A: batches, B: [], C: []})

    def test_nothing_is_wrong(self):
        self.assertEqual(self.told(transaction(), log=((0, 2), (2, 1))), [])
        self.assertEqual(self.told(transaction(ABORTED), seen=()), [])
        self.assertEqual(self.told(transaction(UNKNOWN)), [])
        self.assertEqual(self.told(transaction(UNKNOWN), seen=()), [])
        self.assertEqual(self.told(transaction(has_offset=True), offset=1), [])
        self.assertEqual(self.told(transaction(UNKNOWN, has_offset=True), seen=(), offset=-1), [])

    def test_each_fault(self):
        later = transaction(ABORTED, values=(b"3",), base=2, number=2, has_offset=True)
        rows = {
            "is aborted, and seen whole": self.told(transaction(ABORTED)),
            "is aborted, and seen in part": self.told(transaction(ABORTED), seen=((0, b"1"),)),
            "is unknown, and seen in part": self.told(transaction(UNKNOWN), seen=((0, b"1"),)),
            "is committed, and not seen whole": self.told(transaction(), seen=((0, b"1"),)),
            "stands at other offsets than were told": self.told(transaction(), seen=((1, b"1"), (2, b"2"))),
            "saw different records": self.told(transaction(), other=((0, b"1"),)),
            "came out of order": self.told(transaction(), seen=((1, b"2"), (0, b"1"))),
            "came twice": self.told(transaction(), seen=((0, b"1"), (1, b"2"), (2, b"1"))),
            "was seen, and never committed": self.told(transaction(), seen=((0, b"1"), (1, b"2"), (2, b"fenced"))),
            "has the offset 2, and 1 was committed": self.told(transaction(has_offset=True), later, offset=2),
            "has the offset -1, and 1 was committed": self.told(transaction(has_offset=True)),
            "goes on at 3 after 2": self.told(transaction(), log=((0, 2), (3, 1))),
        }
        for words, told in rows.items():
            with self.subTest(words):
                self.assertTrue(any(words in it for it in told), told)


if __name__ == "__main__":
    unittest.main()

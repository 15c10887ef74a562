"""Many connections at once, each with a topic and a transactional id of its own, most of them cut off at random.

Afterwards every record that was acknowledged is fetched, nothing that was aborted or left open shows, and the books are
settled. More transactions have committed than there are connections. One round is made, with a seed of its own; the
environment may ask for more rounds, or for a seed again:

    KBROKER_SOAK_ROUNDS=25 make test K=soak
    KBROKER_SOAK_SEED=123 make test K=soak
"""

import os
import random
import sys
import threading
import time
import unittest

from kbroker_testing.broker import ClockedKbroker
from kbroker_testing.codes import Code
from kbroker_testing.protocol import batch, batches_of, committed, in_partition, logged_in, partition_of, request_frame
from tests.support import OF_ROOT, topic

ROUNDS = int(os.environ.get("KBROKER_SOAK_ROUNDS", "1"))
SEED = os.environ.get("KBROKER_SOAK_SEED")
CLIENTS = 64  # connections at once
PRODUCES = 500  # of each, and as many fetches
TRANSACTIONS = 20  # of each
RECORDS = 3  # of each transaction
TIMEOUT = 1_000  # milliseconds until an open transaction is aborted
ABORTED_WITHIN = 60  # seconds in which that is seen
SETTINGS = OF_ROOT + "".join(topic(f"t{it}") for it in range(CLIENTS))


class Cut(Exception):
    """The client leaves."""


class Client(threading.Thread):
    """Produces, fetches and commits over one connection, until it is done or cut off."""

    def __init__(self, address, number, drawn):
        super().__init__()
        self.address, self.number, self.drawn = address, number, drawn
        self.topic, self.id = f"t{number}", f"x{number}"
        self.left = drawn.randrange(2 * PRODUCES) if drawn.random() < 0.75 else None  # requests until it is cut
        self.kept, self.unsure, self.committed, self.fault = [], [], 0, None

    def run(self):
        try:
            with logged_in(self.address, timeout=120) as self.broker:
                self.talk()
        except Cut:
            pass
        except Exception as fault:  # told by whoever joins the thread
            self.fault = fault

    def ask(self, api, **fields):
        """Asks, or is cut off: before the request, inside it, or before its answer is read."""
        if self.left is not None:
            self.left -= 1
            if self.left < 0:
                frame = request_frame(api, 1, fields)
                self.broker.socket.sendall(frame[: self.drawn.choice((0, len(frame) // 2, len(frame)))])
                raise Cut
        return self.broker.ask(api, **fields)

    def produce(self, values, **fields):
        """Produces values, and gives the code."""
        records = batch(values, **fields)
        named = {"transactional_id": self.id} if fields else {}
        return partition_of(self.ask("Produce", **named, topics=in_partition((self.topic, 0), records=records)))

    def talk(self):
        """Its produces and fetches, with the transactions among them."""
        every = PRODUCES // TRANSACTIONS
        for number in range(PRODUCES):
            value = f"{self.number}:{number}".encode()
            self.unsure.append(value)
            answer = self.produce([value])
            self.kept.append(self.unsure.pop())
            parts = in_partition((self.topic, 0), offset=answer["base_offset"], max_bytes=1)
            self.ask("Fetch", isolation=1, topics=parts)
            if number % every == 0:
                self.transact(number)

    def transact(self, number):
        """One transaction, which commits or aborts."""
        given = self.ask("InitProducerId", transactional_id=self.id, timeout=TIMEOUT)
        if given["error"] == Code.CONCURRENT_TRANSACTIONS:  # the one before waits for its marker
            return
        pair = {"producer": given["producer"], "epoch": given["epoch"]}
        who = {"transactional_id": self.id, **pair}
        values = [f"{self.number}:{number}:{it}".encode() for it in range(RECORDS)]
        commits = self.drawn.random() < 0.5
        if commits:
            self.unsure.extend(values)
        added = self.ask("AddPartitionsToTxn", **who, topics=[{"topic": self.topic, "partitions": [0]}])
        code = partition_of(added)["error"]
        code = code or self.produce(values, **pair, sequence=0, transactional=True)["error"]
        code = code or self.ask("EndTxn", **who, committed=commits)["error"]
        if commits:
            del self.unsure[-RECORDS:]
            self.kept.extend(() if code else values)
            self.committed += not code


def seen(broker, topic):
    """What a read_committed consumer sees of a topic, once no transaction is open."""
    values, offset, until = [], 0, time.monotonic() + ABORTED_WITHIN
    while True:
        parts = in_partition((topic, 0), offset=offset, max_bytes=1 << 20)
        answer = partition_of(broker.ask("Fetch", isolation=1, topics=parts))
        batches = batches_of(answer["records"])
        if not batches:
            if answer["last_stable_offset"] == answer["high_watermark"]:
                return values
            if time.monotonic() > until:
                raise TimeoutError(f"a transaction of {topic} stays open")
            time.sleep(0.05)  # a transaction is open, or its marker is pending
            continue
        values += [value for _, value in committed(answer, offset)]
        offset = batches[-1].end


def served(server, drawn):
    """All clients at once, after they have left."""
    clients = [Client(server.address, it, random.Random(drawn.random())) for it in range(CLIENTS)]
    for client in clients:
        client.start()
    for client in clients:
        client.join()
    return clients


class Soak(unittest.TestCase):
    def assert_shown(self, broker, client):
        """What a client was told is what its topic shows."""
        shown = seen(broker, client.topic)
        self.assertEqual(len(set(shown)), len(shown), f"{client.topic} shows a record twice")
        missing = set(client.kept) - set(shown)
        self.assertFalse(missing, f"{client.topic} lacks what was acknowledged")
        wrong = set(shown) - set(client.kept) - set(client.unsure)
        self.assertFalse(wrong, f"{client.topic} shows what was never committed")

    def soak(self, seed):
        """All clients at once, and then one that looks at what is left. Gives how many events were settled."""
        with ClockedKbroker(SETTINGS, workers=CLIENTS, connections=CLIENTS + 1) as server:
            clients = served(server, random.Random(seed))
            for client in clients:
                if client.fault:
                    raise client.fault
            self.assertGreater(sum(it.committed for it in clients), CLIENTS, "transactions that have committed")
            with logged_in(server.address, timeout=120) as broker:
                for client in clients:
                    with self.subTest(client=client.number):
                        self.assert_shown(broker, client)
            settled, _ = server.settled(timeout=120)
        self.assertEqual((settled.sessions, settled.refusals), (CLIENTS + 1, 0))
        return settled.events

    def test_rounds(self):
        self.assertGreaterEqual(ROUNDS, 1)
        began, events = time.monotonic(), 0
        for number in range(ROUNDS):
            seed = int(SEED) if SEED else random.randrange(1 << 32)
            with self.subTest(seed=seed):
                events += self.soak(seed)
            if ROUNDS > 1:
                told = f"round {number + 1}, {events} events, {time.monotonic() - began:.0f} seconds"
                print(f"soak: {told}", file=sys.stderr, flush=True)

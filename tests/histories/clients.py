"""The clients of a history. Each draws what it does, notes what it was told, and is killed now and then, half of the time so that
the connection is reset.

A transactional producer commits, aborts, sends an ending whose answer it doesn't read, is fenced by another one of its id, lets its
time pass, or leaves. An idempotent producer loses answers, and sends again. A consumer reads committed records at drawn limits.
"""

import collections
import socket
import struct
import threading
import time
import traceback
from dataclasses import dataclass, field

from kbroker_testing.codes import Code
from kbroker_testing.protocol import batch, batches_of, committed, in_partition, logged_in, partition_of

PARTS = ("a", 0), ("a", 1), ("b", 0)
COMMITTED, ABORTED, UNKNOWN = "committed", "aborted", "unknown"
ENDINGS = COMMITTED, ABORTED, "unread", "fenced", "left"
WEIGHTS = 55, 20, 8, 9, 8  # of how a transaction ends
LONG, SHORT = 60_000, 400  # milliseconds that a transaction may take
PAUSE = 0.005  # seconds before what has to wait is asked again
PATIENCE = 60  # seconds in which each answer comes


class TimedOut(Exception):
    """The transaction's time was over, and its producer is fenced."""


class Unexpected(Exception):
    """An answer that this client couldn't come to."""


@dataclass
class Transaction:
    """What a producer sent in a transaction: batches by their partitions, each with its values and where the first is said to
    stand; whether an offset too, which is its number; and how it ended."""

    id: str
    number: int
    batches: list = field(default_factory=list)
    has_offset: bool = False
    end: str = ABORTED  # as long as nothing else was told

    @property
    def records(self):
        """Each of its records: partition, value, offset."""
        return [(part, value, base + at) for part, values, base in self.batches for at, value in enumerate(values)]


class Client(threading.Thread):
    """A client that works until a moment, or until it fails: then `fault` says why."""

    def __init__(self, address, drawn, until):
        super().__init__()
        self.address, self.drawn, self.until = address, drawn, until
        self.broker = self.fault = None
        self.kills = 0

    @property
    def has_time(self):
        return time.monotonic() < self.until

    def run(self):
        try:
            self.connect()
            self.work()
            self.broker.close()
        except Exception:  # told by whoever joins the thread
            self.fault = traceback.format_exc()

    def connect(self):
        self.broker = logged_in(self.address, timeout=PATIENCE)

    def is_drawn(self, share):
        """Whether something happens that does so in this share of all cases."""
        return self.drawn.random() < share

    def rest(self):
        """Waits a moment in which what was sent may have been done, or not."""
        time.sleep(self.drawn.random() * PAUSE)

    def kill(self, broker=None):
        """The connection is gone, at once or by its end."""
        broker = broker or self.broker
        if self.is_drawn(0.5):
            broker.socket.setsockopt(socket.SOL_SOCKET, socket.SO_LINGER, struct.pack("ii", 1, 0))
        broker.close()
        self.kills += 1

    def lose(self, api, **fields):
        """Asks, and is killed before the answer is read. Another one goes on in its place."""
        self.broker.send(api, **fields)
        self.rest()
        self.kill()
        self.connect()

    def produce(self, part, values, sequence, pair, id=None, lost=0):
        """Produces a batch, whose answer it loses so often before, and gives the answer."""
        records = batch(values, pair["producer"], pair["epoch"], sequence, id is not None)
        fields = {"transactional_id": id, "topics": in_partition(part, records=records)}
        for _ in range(lost):
            self.lose("Produce", **fields)
        return partition_of(self.broker.ask("Produce", **fields))


class TransactionalProducer(Client):
    def __init__(self, name, *more):
        super().__init__(*more)
        self.name, self.history, self.timeout, self.pair, self.sequences = name, [], LONG, None, None

    @property
    def who(self):
        return {"transactional_id": self.name, **self.pair}

    def told(self, what, code, *others):
        """Goes on where a request was answered without an error, or by one of these others."""
        if code == Code.INVALID_PRODUCER_EPOCH and self.timeout == SHORT:
            raise TimedOut
        if code not in (Code.NONE, *others):
            raise Unexpected(f"{what} of {self.name} is answered {code}, within {self.timeout} ms")
        return code

    def work(self):
        while self.has_time:
            if self.begin(self.broker):
                for _ in range(self.drawn.randint(1, 8)):
                    if not (self.has_time and self.transact()):
                        break

    def begin(self, broker):
        """Asks for a producer id and an epoch, which ends what is open. Whether it is given them."""
        self.timeout = self.drawn.choice((SHORT, LONG, LONG, LONG))
        told = broker.ask("InitProducerId", transactional_id=self.name, timeout=self.timeout)
        if told["error"] == Code.CONCURRENT_TRANSACTIONS:
            time.sleep(PAUSE)
            return False
        if told["error"]:
            raise Unexpected(f"InitProducerId of {self.name} is answered {told['error']}")
        self.pair, self.sequences = {"producer": told["producer"], "epoch": told["epoch"]}, collections.Counter()
        return True

    def transact(self):
        """Makes a transaction. Whether the next one may begin with the same producer id and epoch."""
        parts = self.drawn.sample(PARTS, self.drawn.randint(1, len(PARTS)))
        try:
            if not self.add(parts):
                return True
            self.history.append(Transaction(self.name, len(self.history) + 1))
            for at in range(self.drawn.randint(1, 4)):
                self.send(self.drawn.choice(parts), at)
            if self.is_drawn(0.4):
                self.send_offset()
            return self.end(parts[0])
        except TimedOut:
            return False

    def add(self, parts):
        """Adds partitions. Whether they are: until the marker of the transaction before is written they aren't."""
        topics = [{"topic": name, "partitions": [it for topic, it in parts if topic == name]} for name in dict(parts)]
        told = self.broker.ask("AddPartitionsToTxn", topics=topics, **self.who)
        codes = {it["error"] for topic in told["topics"] for it in topic["partitions"]}
        if len(codes) != 1:
            raise Unexpected(f"partitions of {self.name} are added in part: {codes}")
        if self.told("AddPartitionsToTxn", *codes, Code.CONCURRENT_TRANSACTIONS):
            time.sleep(PAUSE)
            return False
        return True

    def send(self, part, at):
        """Produces a batch of the transaction."""
        it, count = self.history[-1], self.drawn.randint(1, 5)
        values = [f"{self.name}/{it.number}/{at}/{number}".encode() for number in range(count)]
        answer = self.produce(part, values, self.sequences[part], self.pair, self.name, lost=self.is_drawn(0.06))
        self.told("Produce", answer["error"])
        it.batches.append((part, values, answer["base_offset"]))
        self.sequences[part] += count

    def send_offset(self):
        """Commits an offset in the transaction, which is its number."""
        it, group = self.history[-1], f"g{self.name}"
        self.told("AddOffsetsToTxn", self.broker.ask("AddOffsetsToTxn", group=group, **self.who)["error"])
        topics = in_partition(PARTS[0], offset=it.number, metadata=None)
        told = self.broker.ask("TxnOffsetCommit", group=group, topics=topics, instance=None, **self.who)
        self.told("TxnOffsetCommit", partition_of(told)["error"])
        it.has_offset = True

    def end(self, part):
        """Ends the transaction in one of these ways."""
        [how] = self.drawn.choices(ENDINGS, WEIGHTS)
        if how in (COMMITTED, ABORTED):
            return self.end_as(how)
        if how == "unread":
            self.end_unread()
        elif how == "fenced":
            self.be_fenced(part)
        else:
            self.leave(part)
        return False

    def end_as(self, how):
        """Commits or aborts, now and then twice: the same is no error until the next one begins, and the other never works."""
        commits = how == COMMITTED
        self.told("EndTxn", self.broker.ask("EndTxn", committed=commits, **self.who)["error"])
        self.history[-1].end = how
        if self.is_drawn(0.1):
            again = self.broker.ask("EndTxn", committed=commits, **self.who)["error"]
            self.told("the same EndTxn", again, Code.CONCURRENT_TRANSACTIONS)
            if not self.broker.ask("EndTxn", committed=not commits, **self.who)["error"]:
                raise Unexpected(f"{self.name} both commits and aborts")
        return True

    def end_unread(self):
        """Ends it, and doesn't read the answer: a commit then may have come, or not."""
        commits = self.is_drawn(0.7)
        self.history[-1].end = UNKNOWN if commits else ABORTED
        self.lose("EndTxn", committed=commits, **self.who)

    def be_fenced(self, part):
        """Another one of the same id comes, and this one writes and commits nothing more."""
        other = logged_in(self.address, timeout=PATIENCE)
        told = other.ask("InitProducerId", transactional_id=self.name, timeout=LONG)["error"]
        if told != Code.CONCURRENT_TRANSACTIONS and not (self.timeout == SHORT and told == Code.NONE):
            raise Unexpected(f"InitProducerId beside an open transaction of {self.name} is answered {told}")
        if not self.produce(part, [b"fenced"], self.sequences[part], self.pair, self.name)["error"]:
            raise Unexpected(f"{self.name} writes after it was fenced")
        if not self.broker.ask("EndTxn", committed=True, **self.who)["error"]:
            raise Unexpected(f"{self.name} commits after it was fenced")
        self.kill()
        self.broker = other

    def leave(self, part):
        """Lets the time pass, if that is short, and leaves the transaction open."""
        if self.timeout == SHORT and self.is_drawn(0.7):
            self.wait_for_its_time(part)
            if not self.broker.ask("EndTxn", committed=True, **self.who)["error"]:
                raise Unexpected(f"{self.name} commits after its time")
        self.kill()
        self.connect()

    def wait_for_its_time(self, part):
        """Waits until the broker has ended the transaction, which the load of the machine may delay: then none is added to it."""
        [name, index], until = part, time.monotonic() + PATIENCE
        topics = [{"topic": name, "partitions": [index]}]
        while partition_of(self.broker.ask("AddPartitionsToTxn", topics=topics, **self.who))["error"] == Code.NONE:
            if time.monotonic() > until:
                raise Unexpected(f"a transaction of {self.name} outlives its time by {PATIENCE} seconds")
            time.sleep(SHORT / 1000)


class IdempotentProducer(Client):
    def __init__(self, name, *more):
        super().__init__(*more)
        self.name, self.history = name, Transaction(name, 0, end=COMMITTED)

    def work(self):
        told = self.broker.ask("InitProducerId", transactional_id=None, timeout=1000)
        pair, sequences = {"producer": told["producer"], "epoch": told["epoch"]}, collections.Counter()
        while self.has_time:
            part, count = self.drawn.choice(PARTS), self.drawn.randint(1, 4)
            values = [f"{self.name}/{len(self.history.batches)}/{it}".encode() for it in range(count)]
            answer = self.produce(part, values, sequences[part], pair, lost=self.drawn.choice((0, 0, 0, 0, 1, 2)))
            if answer["error"]:
                raise Unexpected(f"Produce of {self.name} is answered {answer['error']}")
            self.history.batches.append((part, values, answer["base_offset"]))
            sequences[part] += count
            self.rest()


class Consumer(Client):
    """Reads committed records of a partition, until no more come once `is_over` is set."""

    def __init__(self, part, is_over, *more):
        super().__init__(*more)
        self.part, self.is_over, self.seen = part, is_over, []

    def work(self):
        offset = 0
        while True:
            most = self.drawn.choice((1, 500, 5000, 1 << 20))
            fields = {"isolation": 1, "topics": in_partition(self.part, offset=offset, max_bytes=most)}
            if self.is_drawn(0.01):
                self.lose("Fetch", **fields)
            answer = partition_of(self.broker.ask("Fetch", **fields))
            batches, stable = batches_of(answer["records"]), answer["last_stable_offset"]
            if answer["error"] or stable > answer["high_watermark"] or any(it.end > stable for it in batches):
                raise Unexpected(f"a Fetch of {self.part} at {offset} is answered {answer}")
            if batches:
                self.seen += committed(answer, offset)
                offset = batches[-1].end
            elif self.is_over.is_set() and stable == answer["high_watermark"] == offset:
                return
            else:
                time.sleep(2 * PAUSE)

"""Draws a thousand lines from a seed, and holds each read_committed fetch among them against a plain scan of the log.

The program answers the lines so far again after each few, so that what is drawn next can go by the answers: producers
go on with their epochs and sequence numbers. What a fetch shows, filtered as consumers filter, has to be the committed
records from its offset on, of the batches that it was served; these follow one another in the log, below the last
stable offset, up to it or as far as there is room. One that is answered an error has to be one that its user may not
make, or from after the log's end, as far as answers before it told that.

Bindings of one principal are drawn among them, and whether it may have a producer id without a transactional id is held
against a plain scan of these.
"""

import random
import unittest
from collections import Counter

from kbroker_testing.acl_model import ANY, CLUSTER, Book, Entry, Kind, Operation, Pattern, Permission
from kbroker_testing.broker import replay
from kbroker_testing.codes import Code
from kbroker_testing.protocol import batch, batches_of, committed, in_partition, partition_of, request_digits
from tests.models.drawn import fields_of
from tests.support import OF_SUPER, acl, topic

# Chosen so that enough is seen.
SEED = 208
LINES = 1000
DRAWN_AT_ONCE = 10
ROOMS = 200, 300, 2000
WHOLE = 1 << 30
NEAR = 5  # offsets before the end of a log, and as many after it, from which each second fetch is

SETTINGS = (
    OF_SUPER
    + topic("a", 2)
    + topic("b", 2)
    + acl(operation="ALL")
    + acl("TransactionalId", "t", operation="WRITE", pattern="PREFIXED")
    + "---\n"
)

PLACES = [("a", 0), ("a", 1), ("b", 0), ("b", 1)]
IDS = ["t0", "t1", "t2"]
# What cat is allowed or denied stands on these topics.
NAMES = ["*", "p", "pa", "pay", "q"]
CAT = "User:cat"
FEWEST, FEWEST_OF_A_KIND, FEWEST_BEYOND = 30, 10, 5  # of what is looked at


def fetch(place, offset, isolation, room):
    """A Fetch of one partition."""
    parts = in_partition(place, offset=offset, max_bytes=room)
    return request_digits("Fetch", isolation=isolation, max_bytes=room, topics=parts)


def answered_partition(api, answer):
    """The one partition of a response."""
    return partition_of(fields_of(api, answer))


# ---- what is drawn


class Drawing:
    """Draws lines, by what the answers to the lines before them told."""

    def __init__(self):
        self.random = random.Random(SEED)
        self.pairs = {it: (0, 0) for it in IDS}
        self.plain, self.next, self.ends = [], {}, dict.fromkeys(PLACES, 0)
        self.moment = 0
        self.book, self.initialized, self.fetches = Book(), [], []

    def produce(self, place):
        """A Produce in a transaction, of an idempotent producer or of none, and what its answer teaches."""
        count, kind = self.random.randint(1, 3), self.random.randrange(4)
        name, producer, epoch = None, -1, -1
        if kind < 2:
            name = self.random.choice(IDS)
            producer, epoch = self.pairs[name]
        elif kind == 2 and self.plain:
            producer, epoch = self.random.choice(self.plain)
        key = place, producer, epoch
        sequence = self.next.get(key, 0) if producer >= 0 else -1
        if sequence and not self.random.randrange(6):
            sequence -= 1
        sent = batch([b"x"] * count, producer, epoch, sequence, transactional=bool(name))
        asked = request_digits("Produce", transactional_id=name, acks=1, topics=in_partition(place, records=sent))
        return asked, lambda answer: self.learn_produced(key, sequence, count, answered_partition("Produce", answer))

    def learn_produced(self, key, sequence, count, told):
        place, producer, _ = key
        if told["error"] == Code.NONE:
            self.learn_end(place, told["base_offset"] + count)
            if producer >= 0:
                self.next[key] = max(self.next.get(key, 0), sequence + count)

    def learn_end(self, place, end):
        self.ends[place] = max(self.ends[place], end)

    def learn_fetched(self, asked):
        """Keeps a fetch that is answered, with the end of the log as far as it was told before."""
        asked.end = self.ends[asked.place]
        self.fetches.append(asked)
        self.learn_end(asked.place, asked.answer["high_watermark"])

    def init(self, name):
        """An InitProducerId, for a transactional id or without one."""
        asked = request_digits("InitProducerId", transactional_id=name, timeout=1000)
        return asked, lambda answer: self.learn_pair(name, fields_of("InitProducerId", answer))

    def end(self, name, **fields):
        """An EndTxn of some version: version 5 is told the pair that follows."""
        api = self.random.choice(["EndTxn", "EndTxn1", "EndTxn2", "EndTxn3", "EndTxn4", "EndTxn5"])
        asked = request_digits(api, **fields)
        if api != "EndTxn5":
            return asked, None
        return asked, lambda answer: self.learn_pair(name, fields_of(api, answer))

    def learn_pair(self, name, told):
        pair = told["producer"], told["epoch"]
        if told["error"] == Code.NONE and name is None:
            self.plain.append(pair)
        elif told["error"] == Code.NONE:
            self.pairs[name] = pair

    def edit(self):
        """A CreateAcls of a binding of cat's, or a DeleteAcls of those of a name."""
        pick, own = self.random.choice, [*self.book.bindings.values()]
        if own and self.random.randrange(3) == 0:
            gone = pick(own)._replace(principal=CAT, host="*", operation=ANY, permission=ANY)
            self.book.remove(gone)
            return request_digits("DeleteAcls", filters=[gone._asdict()])
        if self.random.randrange(8) == 0:
            permission = pick([Permission.DENY, Permission.ALLOW])
            made = Entry(CLUSTER, Pattern.LITERAL, Kind.Cluster, CAT, "*", Operation.IDEMPOTENT_WRITE, permission)
        else:
            pattern = pick([Pattern.LITERAL, Pattern.PREFIXED])
            operation = pick([Operation.READ, Operation.WRITE, Operation.WRITE, Operation.ALL])
            made = Entry(pick(NAMES), pattern, Kind.Topic, CAT, "*", operation, pick([Permission.DENY, Permission.ALLOW]))
        self.book.add(made)
        return request_digits("CreateAcls", creations=[made._asdict()])

    def lets_initialize(self):
        """Whether cat may have a producer id without a transactional id."""
        may_write = self.book.lets_write_to_a_topic(CAT, "h")
        return may_write or self.book.refusal(CAT, "h", Operation.IDEMPOTENT_WRITE, Kind.Cluster, CLUSTER) is None

    def place_in(self, end):
        """An offset in a log that ends here, as far as it is told, or near its end."""
        near = max(0, end + self.random.randrange(-NEAR, NEAR))
        return self.random.choice((self.random.randrange(end + 1), near))

    def line(self):
        """A line, and for a request what takes its answer."""
        draw, place = self.random.randrange(24), self.random.choice(PLACES)
        if draw >= 22:
            return f"req root h {self.edit()}\n", None
        if draw >= 20:
            asked = request_digits("InitProducerId", transactional_id=None, timeout=0)
            return f"req cat h {asked}\n", Initialized(self.lets_initialize(), self.initialized)
        user = self.random.choice(["root", "root", "root", "ann", "zed"])
        name = self.random.choice(IDS)
        producer, epoch = self.pairs[name]
        who = {"transactional_id": name, "producer": producer, "epoch": epoch}
        if draw == 0:
            return "mark\n", None
        if draw == 1:
            self.moment += self.random.randrange(400)
            return f"tick {self.moment}\n", None
        if draw < 4:
            asked, taker = self.init(None if self.random.randrange(4) == 0 else name)
        elif draw < 7:
            added = [{"topic": place[0], "partitions": [place[1]]}]
            asked, taker = request_digits("AddPartitionsToTxn", **who, topics=added), None
        elif draw < 9:
            asked, taker = self.end(name, **who, committed=self.random.randrange(2))
        elif draw < 15:
            asked, taker = self.produce(place)
        else:
            offset, is_committed = self.place_in(self.ends[place]), self.random.randrange(3) > 0
            room = ROOMS[offset % len(ROOMS)]
            asked = fetch(place, offset, is_committed, room)
            taker = Fetched(user, place, offset, room, self.learn_fetched) if is_committed else None
        return f"req {user} h {asked}\n", taker


class Initialized:
    """An InitProducerId of cat's without a transactional id, and its answer."""

    def __init__(self, is_let, seen):
        self.wanted, self.error, self.seen = Code.NONE if is_let else Code.CLUSTER_AUTHORIZATION_FAILED, None, seen

    def __call__(self, answer):
        self.error = fields_of("InitProducerId", answer)["error"]
        self.seen.append(self)


class Fetched:
    """A read_committed fetch, its answer, and where the log ends at least."""

    def __init__(self, user, place, offset, room, learn):
        self.user, self.place, self.offset, self.room, self.learn = user, place, offset, room, learn
        self.answer = self.end = None

    def __call__(self, answer):
        self.answer = answered_partition("Fetch", answer)
        self.learn(self)

    def may_read(self):
        """Whether its user may read the topic: root may read each, and ann `b`."""
        return self.user == "root" or self.user == "ann" and self.place[0] == "b"


# ---- what should be shown


def committed_in(log):
    """The offsets of each batch's records that are committed, and the last stable offset."""
    decided, following = {}, {}
    for it in reversed(log):
        if it.is_control:
            following[it.producer] = it.commits
        elif it.is_transactional:
            decided[it.base] = following.get(it.producer)  # by the next marker after it
    shown, open_at = [], None
    for it in log:
        if it.is_control:
            continue
        commits = decided[it.base] if it.is_transactional else True
        if commits is None and open_at is None:
            open_at = it.base
        if commits:
            shown += range(it.base, it.end)
    end = log[-1].end if log else 0
    return shown, end if open_at is None else open_at


def fault_of_error(asked):
    """What is wrong with the error that a fetch is answered, or None."""
    error, end = asked.answer["error"], asked.answer["high_watermark"]
    if asked.may_read() == (error == Code.TOPIC_AUTHORIZATION_FAILED):
        return f"is answered {error} for {asked.user}"
    if error not in (Code.NONE, Code.OFFSET_OUT_OF_RANGE, Code.TOPIC_AUTHORIZATION_FAILED):
        return f"is answered {error}"
    if error == Code.OFFSET_OUT_OF_RANGE and asked.offset <= asked.end:
        return f"is told that {asked.offset} is out of range where the log ends at {asked.end}"
    if error == Code.NONE and asked.offset > end:
        return f"is served from {asked.offset} on where the log ends at {end}"
    return None


def fault(asked, log):
    """What is wrong with a fetch, or None, with the log as it was; and whether it was served anything."""
    shown, wanted_stable = committed_in(log)
    why = fault_of_error(asked)
    if why or asked.answer["error"] != Code.NONE:
        return why, False
    stable, served = asked.answer["last_stable_offset"], batches_of(asked.answer["records"])
    if stable != wanted_stable:
        return f"tells the last stable offset {stable} in place of {wanted_stable}", False
    first = next((at for at, it in enumerate(log) if it.end > asked.offset), len(log))
    run = log[first : first + len(served)]
    if served != run:
        return "is served what doesn't follow in the log", False
    following = [it for it in log[first + len(served) :] if it.end <= stable]
    size = sum(it.size for it in run)
    if following and served and size + following[0].size <= asked.room or following and not served:
        return "is served less than there is room for", False
    if len(served) > 1 and size > asked.room or served and served[-1].end > stable:
        return "is served too much", False
    end = served[-1].end if served else asked.offset
    wanted = [it for it in shown if asked.offset <= it < end]
    seen = [offset for offset, _ in committed(asked.answer, asked.offset)]
    if seen != wanted:
        return f"shows {seen} in place of {wanted}", True
    return None, bool(served)


class Histories(unittest.TestCase):
    @classmethod
    def setUpClass(cls):
        """Draws the lines, and has them answered; after them the whole logs are fetched."""
        cls.drawing, script = Drawing(), SETTINGS
        for drawn in range(0, LINES, DRAWN_AT_ONCE):
            lines = [cls.drawing.line() for _ in range(DRAWN_AT_ONCE)]
            script += "".join(line for line, _ in lines)
            cls.answers = replay(script)
            for (_, taker), (answer, _) in zip(lines, cls.answers[drawn:]):
                if taker:
                    taker(answer)
        reads = [f"req root h {fetch(it, 0, 0, WHOLE)}\n" for it in PLACES]
        told = [answered_partition("Fetch", it.answer) for it in replay(script + "".join(reads))[LINES:]]
        cls.logs = {it: batches_of(partition["records"]) for it, partition in zip(PLACES, told)}

    def test_each_line_is_answered(self):
        self.assertEqual(len(self.answers), LINES)

    def test_fetches_show_what_is_committed(self):
        shown = aborts = beyond = 0
        for at, asked in enumerate(self.drawing.fetches):
            log = [it for it in self.logs[asked.place] if it.base < asked.answer["high_watermark"]]
            why, is_served = fault(asked, log)
            with self.subTest(fetch=at, place=asked.place, offset=asked.offset):
                self.assertIsNone(why)
            shown += is_served
            aborts += is_served and bool(asked.answer["aborted"])
            beyond += asked.answer["last_stable_offset"] < asked.offset <= asked.answer["high_watermark"]
        self.assertGreaterEqual(shown, FEWEST, "fetches that are served")
        self.assertGreaterEqual(aborts, FEWEST_OF_A_KIND, "of them with aborted transactions")
        self.assertGreaterEqual(beyond, FEWEST_BEYOND, "fetches from beyond the last stable offset")
        errors = Counter(it.answer["error"] for it in self.drawing.fetches)
        for error in (Code.OFFSET_OUT_OF_RANGE, Code.TOPIC_AUTHORIZATION_FAILED):
            self.assertGreaterEqual(errors[error], FEWEST_OF_A_KIND, f"fetches that are answered {error.name}")

    def test_producer_ids_are_given_as_the_bindings_let(self):
        for at, asked in enumerate(self.drawing.initialized):
            with self.subTest(initialized=at):
                self.assertEqual(asked.error, asked.wanted)
        let = sum(it.error == Code.NONE for it in self.drawing.initialized)
        self.assertGreaterEqual(let, FEWEST_OF_A_KIND, "that are let")
        self.assertGreaterEqual(len(self.drawing.initialized) - let, FEWEST_OF_A_KIND, "that are refused")

    def test_markers_and_refusals_are_seen(self):
        self.assertGreaterEqual(sum(it.is_control for log in self.logs.values() for it in log), FEWEST)
        self.assertGreaterEqual(sum(len(it.refused) for it in self.answers), FEWEST)

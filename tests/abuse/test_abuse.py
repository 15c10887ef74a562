"""What a user without any right asks hardly holds up another user, however dear it is made; and what is read and sent takes no
more memory than it has to.

Beside each request, which names what is as long as a name can be, and as often as it can, another user asks small things as
fast as it can. Every part has to be refused by its code, and the longest wait of the other is told and held to a limit: far
above what it takes, and far below what it takes where a verdict grows by the square of a name's length.
"""

import struct
import sys
import unittest

from kbroker_testing.broker import ClockedKbroker
from kbroker_testing.codes import Code
from kbroker_testing.protocol import batch, logged_in, partition_of, request_frame, response_of
from tests.abuse.beside import LONGEST, ask_whole, beside_another
from tests.support import OF_ROOT, TOP, acl, needs_proved_program, topic, user

PARTITIONS = range(1_000)
ROUNDS = 3  # of each request
LIMIT = 1.0  # seconds that the other user may wait
KINDS = "Topic", "Group", "TransactionalId"
NAMES = [LONGEST[2:] + f"{it:02}" for it in range(20)]
SETTINGS = (
    TOP
    + user("shop", "s")
    + user("nobody", "n")
    + topic("shop-orders")
    + "".join(acl(it, "shop-orders", "User:shop", operation="ALL", pattern="PREFIXED") for it in KINDS)
)


def of_topics(code):
    """Whether each topic that was named is told, in order and with this error."""
    return lambda answer: [(it["topic"], it["error"]) for it in answer["topics"]] == [(name, code) for name in NAMES]


def of_partitions(code):
    """Whether each partition that was named is told, in order and with this error."""
    told = [{"index": it, "error": code} for it in PARTITIONS]
    return lambda answer: answer["topics"] == [{"topic": "t", "partitions": told}]


def committed(**more):
    """The partitions of a request that commits an offset in each."""
    return [{"topic": "t", "partitions": [{"index": it, "offset": 0, "metadata": None, **more} for it in PARTITIONS]}]


# What is asked, and whether the answer refuses each part.
REQUESTS = {
    "Metadata of 20 topics": (
        "Metadata",
        {"topics": NAMES},
        of_topics(Code.TOPIC_AUTHORIZATION_FAILED),
    ),
    "OffsetCommit to a group, 1,000 partitions": (
        "OffsetCommit",
        {"group": LONGEST, "topics": committed()},
        of_partitions(Code.GROUP_AUTHORIZATION_FAILED),
    ),
    "AddPartitionsToTxn of an id, 1,000 partitions": (
        "AddPartitionsToTxn",
        {"transactional_id": LONGEST, "producer": 0, "epoch": 0, "topics": [{"topic": "t", "partitions": [*PARTITIONS]}]},
        of_partitions(Code.TRANSACTIONAL_ID_AUTHORIZATION_FAILED),
    ),
    "TxnOffsetCommit of an id, to a group, 1,000 partitions": (
        "TxnOffsetCommit",
        {
            **{"transactional_id": LONGEST, "group": LONGEST, "producer": 0, "epoch": 0, "instance": None},
            "topics": committed(leader_epoch=-1),
        },
        of_partitions(Code.TRANSACTIONAL_ID_AUTHORIZATION_FAILED),
    ),
}


class Abuse(unittest.TestCase):
    def held_up(self, address, api, fields, is_refused):
        """The bytes of such a request, and, of the round in which another user waited least, how long the request took and how long
        the other one waited at most, in seconds: a machine that stands still for a moment does so in one round."""
        frame, rounds = request_frame(api, 1, fields), []
        with logged_in(address, "nobody", "n") as broker:
            for _ in range(ROUNDS):
                [answer], took, waited = beside_another(address, broker, [frame])
                self.assertTrue(is_refused(response_of(api, answer)[1]), f"{api} isn't refused part by part")
                rounds.append((waited, took))
        waited, took = min(rounds)
        return len(frame), took, waited

    def test_refused_requests_hold_nobody_up(self):
        connections = (1 + ROUNDS) * len(REQUESTS)
        with ClockedKbroker(SETTINGS, connections=connections) as broker:
            for name, request in REQUESTS.items():
                with self.subTest(name=name):
                    size, took, waited = self.held_up(broker.address, *request)
                    told = f"{name}: {size} bytes, {took * 1000:.0f} ms, another user waited {waited * 1000:.0f} ms"
                    print(f"abuse: {told}", file=sys.stderr)
                    self.assertLessEqual(waited, LIMIT, told)
            settled, _ = broker.settled()
        self.assertEqual(settled.sessions, connections)


class Memory(unittest.TestCase):
    """What the broker takes at once, at most, for one request."""

    def setUp(self):
        self.running = self.enterContext(ClockedKbroker(OF_ROOT + topic("t", 1_000), connections=2))
        self.broker = self.enterContext(logged_in(self.running.address))

    def taken_by(self, frame):
        """The answer to a frame, and how much more memory was resident at once than ever before, in bytes."""
        before = self.running.peak_memory()
        answer = ask_whole(self.broker, frame)
        return answer, self.running.peak_memory() - before

    @needs_proved_program("with checks 100 MB of an answer take too long")
    def test_a_long_metadata_is_sent_part_after_part(self):
        times = 5_000
        one = ask_whole(self.broker, request_frame("Metadata", 1, {"topics": ["t"]}))
        # What stands before the topics is the correlation id, one broker (`h`, with no rack), the controller and the count.
        front, each = one[:29], one[29:]
        self.assertEqual(front[-4:], struct.pack(">i", 1))
        answer, taken = self.taken_by(request_frame("Metadata", 1, {"topics": ["t"] * times}))
        self.assertEqual(answer[:25], front[:25])
        self.assertEqual(answer[25:29], struct.pack(">i", times))
        self.assertTrue(answer[29:] == each * times, "the topics that are told aren't the same each time")
        self.assertGreater(len(answer), 100_000_000)
        self.assertLess(taken, 8_000_000)

    @needs_proved_program("memory is measured, of which checks take more")
    def test_fetched_records_are_sent_from_where_they_stand(self):
        # Batches of each kind: smaller and larger than what is gathered, and than what isn't copied.
        sizes = 1, 16_000, 32_707, 40_000, 70_000, 1_000_000
        sent = {index: [batch([bytes([65 + index]) * size]) for _ in range(3)] for index, size in enumerate(sizes)}
        for index, batches in sent.items():
            for it in batches:
                fields = {"topics": [{"topic": "t", "partitions": [{"index": index, "records": it}]}], "transactional_id": None}
                self.assertEqual(partition_of(self.broker.ask("Produce", **fields))["error"], Code.NONE)
        wanted = [{"index": it, "offset": 0, "max_bytes": 4_000_000} for it in sent]
        answer, taken = self.taken_by(request_frame("Fetch", 1, {"max_bytes": 1 << 30, "topics": [{"topic": "t", "partitions": wanted}]}))
        [told] = response_of("Fetch", answer)[1]["topics"]
        self.assertEqual([it["index"] for it in told["partitions"]], [*sent])
        for partition in told["partitions"]:
            # The broker gives each batch its offset, and the epoch of its leader, 0.
            batches = [struct.pack(">q", at) + it[8:12] + bytes(4) + it[16:] for at, it in enumerate(sent[partition["index"]])]
            self.assertEqual(partition["high_watermark"], 3)
            self.assertTrue(partition["records"] == b"".join(batches), f"the batches of partition {partition['index']} are others")
        self.assertLess(taken, 1_000_000)

    def test_a_list_takes_the_room_of_what_the_bytes_hold(self):
        names = 1_000_000
        frame = request_frame("Metadata", 1, {"topics": [""] * names})
        # The last name has a length and no bytes: all before it is read.
        before = self.running.peak_memory()
        self.broker.socket.sendall(frame[:-1] + b"\1")
        self.assertEqual(self.broker.input.read(), b"")
        self.assertLess(self.running.peak_memory() - before, len(frame) + 80 * names)

"""Runs `kbroker replay` over a transactional id that uses up the epochs of its producer id.

Each InitProducerId gives the next epoch, 0 to 32,766, and the one after them epoch 0 of the next producer id. Where the
time of a transaction of epoch 32,766 is over, the marker that aborts it carries 32,767, which no producer has: who adds a
group or stages an offset with it is told so, and the next InitProducerId gives a new producer id too. An EndTxn of version
5 that ends a transaction of epoch 32,766 is told the new producer id at once; its marker carries 32,767 of the old one,
which then belongs to nobody.
"""

import struct
import unittest

from kbroker_testing.broker import replay
from kbroker_testing.codes import Code
from kbroker_testing.protocol import batch, request_digits, response_frame
from tests.models.drawn import fields_of
from tests.support import OF_SUPER, of_b, topic

SETTINGS = OF_SUPER + topic("b") + "---\n"
EPOCHS = 32_767
TIMEOUT = 1_000
ID = {"transactional_id": "t"}
LAST = {**ID, "producer": 0, "epoch": EPOCHS - 1}
AFTER_LAST = {**ID, "producer": 0, "epoch": EPOCHS}
OUTCOMES = {"commit": 1, "abort": 0}
LIMIT = 600  # seconds; with the checks of `rt try` a run takes half a minute and more


def line(api, **fields):
    """A line for a request of root."""
    return f"req root h {request_digits(api, **fields)}\n"


def response(api, **fields):
    """The answer to such a line, which isn't delayed."""
    return response_frame(api, 7, {"throttle": 0, **fields}).hex()


def given(producer, epoch):
    """What an InitProducerId is answered."""
    return response("InitProducerId", error=Code.NONE, producer=producer, epoch=epoch)


INIT = line("InitProducerId", **ID, timeout=TIMEOUT)
ADD = line("AddPartitionsToTxn", **LAST, topics=[{"topic": "b", "partitions": [0]}])
FETCH = line("Fetch", topics=of_b(offset=0, max_bytes=1000))
ADDED = response("AddPartitionsToTxn", topics=of_b(error=Code.NONE))


class WornEpochs(unittest.TestCase):
    maxDiff = None

    def answers(self, script):
        return [it.answer for it in replay(SETTINGS + script, timeout=LIMIT)]

    def assert_marker(self, fetched, outcome):
        """A control batch of 78 bytes stands at the end: its attributes, its producer's pair, and the kind of its record."""
        marker = fields_of("Fetch", fetched)["topics"][0]["partitions"][0]["records"][-78:]
        self.assertEqual(struct.unpack(">h20xqh", marker[21:53]), (48, 0, EPOCHS), marker.hex())
        self.assertEqual(marker[66:70], struct.pack(">hh", 0, OUTCOMES[outcome]), marker.hex())

    def test_every_epoch_is_given_and_then_the_next_producer(self):
        expected = [given(0, epoch) for epoch in range(EPOCHS)] + [given(1, 0)]
        told = self.answers(INIT * (EPOCHS + 1))
        self.assertEqual(len(told), len(expected))
        for at, (one, other) in enumerate(zip(told, expected)):
            self.assertEqual(one, other, f"InitProducerId {at}")

    def test_the_last_epoch_expires(self):
        """A transaction of the last epoch that is given is aborted when its time is over."""
        group = line("AddOffsetsToTxn", **AFTER_LAST, group="g")
        stage = line("TxnOffsetCommit", **AFTER_LAST, group="g", topics=of_b(offset=5))
        script = INIT * EPOCHS + ADD + f"tick {TIMEOUT + 1}\n" + group + stage + "mark\n" + FETCH + INIT
        added, ticked, grouped, staged, marked, fetched, again = self.answers(script)[EPOCHS:]
        self.assertEqual(added, ADDED)
        self.assertEqual((ticked, marked), ("-", "-"))
        self.assertEqual(grouped, response("AddOffsetsToTxn", error=Code.INVALID_PRODUCER_EPOCH))
        self.assertEqual(staged, response("TxnOffsetCommit", topics=of_b(error=Code.INVALID_PRODUCER_EPOCH)))
        self.assert_marker(fetched, "abort")
        self.assertEqual(again, given(1, 0))

    def test_the_last_epoch_is_raised(self):
        """A transaction of the last epoch that is given is ended by an EndTxn of version 5."""
        end = line("EndTxn5", **LAST, committed=True)
        late = batch([b"late"], producer=0, epoch=EPOCHS - 1, sequence=0, transactional=True)
        produce = line("Produce", **ID, topics=of_b(records=late))
        script = INIT * EPOCHS + ADD + end + "mark\n" + FETCH + produce + INIT
        added, ended, marked, fetched, produced, again = self.answers(script)[EPOCHS:]
        self.assertEqual(added, ADDED)
        self.assertEqual(ended, response("EndTxn5", error=Code.NONE, producer=1, epoch=0))
        self.assertEqual(marked, "-")
        self.assert_marker(fetched, "commit")
        refused = {"error": Code.INVALID_PRODUCER_ID_MAPPING, "base_offset": -1, "log_append_time": -1}
        self.assertEqual(produced, response("Produce", topics=of_b(**refused)))
        self.assertEqual(again, given(1, 1))

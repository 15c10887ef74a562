"""What the broker keeps of large batches, by resident memory: of 400 MB that are produced, and of 1 GB that is fetched.

A batch is kept once, as it came: its log and the trail's events share its bytes, and so do the answers that serve it. No contract
speaks of sharing: a body that copied each batch would be proved. One batch is sent again and again, since its bytes are the same
wherever it stands in the log, but for its base offset.
"""

import struct
import unittest

from kbroker_testing.broker import ClockedKbroker
from kbroker_testing.codes import Code
from kbroker_testing.protocol import batch, in_partition, logged_in, partition_of, request_frame, response_of
from tests.support import OF_ROOT, needs_proved_program, topic

PLACE = ("t", 0)
PRODUCED, FETCHED = 400_000_000, 1_000_000_000
FETCHED_LOG = 4_000_000  # bytes of the log that is fetched again and again
AT_ONCE = 4  # frames
# The records of a batch, each of a hundred bytes, and how much is kept of a byte that is produced.
SIZES = {"of 1 MB": (9_300, 1.05), "of 16 kB": (150, 1.15)}
KEPT_OF_A_FETCHED_BYTE = 0.01
MOST = 1 << 20  # bytes of an answer's records
OFFSET = 8  # the bytes of a batch's base offset, which come first


def batch_of(records):
    """A batch of so many records of a hundred bytes."""
    return batch([bytes([it % 251]) * 100 for it in range(records)])


def ask_often(client, frames):
    """Sends these frames, a few at a time, and gives each answer in turn, without its size field."""
    for first in range(0, len(frames), AT_ONCE):
        some = frames[first : first + AT_ONCE]
        client.socket.sendall(b"".join(some))
        for _ in some:
            (size,) = struct.unpack(">i", client.input.read(4))
            yield client.input.read(size)


def produce(client, sent, count):
    """Produces a batch so many times, and gives the base offsets that are answered."""
    fields = {"acks": 1, "topics": in_partition(PLACE, records=sent)}
    frames = [request_frame("Produce", 7, fields)] * count
    for answer in ask_often(client, frames):
        partition = partition_of(response_of("Produce", answer)[1])
        assert partition["error"] == Code.NONE, partition
        yield partition["base_offset"]


def fetch_frame(offset):
    """A Fetch of as many batches from an offset on as fit."""
    fields = {"isolation": 1, "max_bytes": MOST, "topics": in_partition(PLACE, offset=offset, max_bytes=MOST)}
    return request_frame("Fetch", 7, fields)


def are_copies(records, sent, count):
    """Whether these are so many copies of a batch, but for their base offsets."""
    size = len(sent)
    copies = [records[it * size + OFFSET : (it + 1) * size] for it in range(count)]
    return len(records) == count * size and all(it == sent[OFFSET:] for it in copies)


@needs_proved_program("memory is measured, of which checks take more")
class SharedBatches(unittest.TestCase):
    def test_a_produced_byte_is_kept_once(self):
        for name, (records, most) in SIZES.items():
            sent = batch_of(records)
            count = PRODUCED // len(sent)
            with self.subTest(name), ClockedKbroker(OF_ROOT + topic("t"), connections=1) as broker:
                with logged_in(broker.address) as client:
                    before = broker.memory()
                    offsets = [*produce(client, sent, count)]
                    kept = (broker.peak_memory() - before) / (count * len(sent))
                self.assertEqual(offsets, [*range(0, count * records, records)])
                self.assertLess(kept, most)
                self.assertGreater(kept, 0.95)  # else it isn't the batches that are measured

    def test_a_fetched_byte_is_not_kept(self):
        for name, (records, _) in SIZES.items():
            sent = batch_of(records)
            each = MOST // len(sent)  # batches of an answer
            size = each * len(sent)
            answers = FETCHED_LOG // size
            with self.subTest(name), ClockedKbroker(OF_ROOT + topic("t"), connections=1) as broker:
                with logged_in(broker.address) as client:
                    self.assertEqual(len([*produce(client, sent, answers * each)]), answers * each)
                    frames = [fetch_frame(it * each * records) for it in range(answers)] * (FETCHED // (answers * size))
                    before = broker.memory()
                    for answer in ask_often(client, frames):
                        # An answer ends with its records.
                        self.assertTrue(are_copies(answer[-size:], sent, each))
                    kept = (broker.peak_memory() - before) / (len(frames) * size)
                self.assertLess(kept, KEPT_OF_A_FETCHED_BYTE)


if __name__ == "__main__":
    unittest.main()

"""A user's share: above `--rate` requests, or `--rate-bytes` bytes of them and their answers, in a second its sessions wait before
they read on.

A user who asks what it may not, as fast as it can, is answered so many times a second and no more, in all its sessions
together, while another user doesn't wait. The answers are those that it gets without a rate. Each partition of a transaction counts
as a request, since it comes to a marker. A session that would wait for more than ten seconds is closed, and one whose peer is gone
gives its worker back.
"""

import socket
import struct
import threading
import time
import unittest

from kbroker_testing.broker import ClockedKbroker
from kbroker_testing.codes import Code
from kbroker_testing.protocol import logged_in
from tests.server.told import of_user
from tests.support import OF_ROOT, topic, user

SETTINGS = OF_ROOT + user("ann", "pw") + topic("b") + topic("wide", 400)
RATE = 40  # requests a second
ASKED = 60  # requests of each of a user's two sessions
NAMES = ["n" * 1_000] * 30  # of topics, in a request of 30,093 bytes, whose answer has as many
RATE_BYTES = 7_500  # bytes a second
FOR_NINE = 6_200  # bytes a second, by which that request is waited for nine seconds
MUCH_LESS = 2_500  # bytes a second, by which that request costs 24 seconds
QUICK = 4.0  # seconds: so long nobody waits who needn't
SOON = 2.5  # seconds in which a worker is given back, and a client logs in
TOO_FAST = "its user asked so fast that it would have to wait for more than 10 seconds; see --rate and --rate-bytes"
LATE = 20.0  # seconds in which all are served whom a rate holds up for some


class Rates(unittest.TestCase):
    def assert_refused(self, broker):
        """A Heartbeat that ann may not send is answered as ever."""
        told = broker.ask("Heartbeat", group="g", generation=1, member="m")
        self.assertEqual(told["error"], Code.GROUP_AUTHORIZATION_FAILED)

    def ask_often(self, broker, counts):
        """Asks so often, as fast as it can, and adds how many times that was."""
        for _ in range(ASKED):
            self.assert_refused(broker)
        counts.append(ASKED)

    def test_requests(self):
        """Two sessions of a user have one share, of which a second's requests come at once."""
        with ClockedKbroker(SETTINGS, workers=3, connections=3, more=("--rate", str(RATE))) as server:
            with (
                logged_in(server.address, "ann", "pw") as first,
                logged_in(server.address, "ann", "pw") as second,
                logged_in(server.address) as other,
            ):
                counts, begun = [], time.monotonic()
                asking = [threading.Thread(target=self.ask_often, args=(it, counts)) for it in (first, second)]
                for it in asking:
                    it.start()
                for _ in range(RATE // 2):
                    other.ask("Metadata", topics=["b"])
                for it in asking:
                    it.join()
                took = time.monotonic() - begun
            server.settled()
        self.assertEqual(len(counts), 2)
        # (of each session the request that was answered last may be one above)
        self.assertLessEqual(sum(counts), RATE * (took + 1) + 2)
        self.assertLess(took, LATE)

    def test_bytes(self):
        """After a request and an answer of eight seconds' bytes a user waits for seven, and another one doesn't."""
        with ClockedKbroker(SETTINGS, workers=2, connections=2, more=("--rate-bytes", str(RATE_BYTES))) as server:
            with logged_in(server.address, "ann", "pw") as broker, logged_in(server.address) as other:
                began = time.monotonic()
                told = broker.ask("Metadata", topics=NAMES)["topics"]
                self.assertEqual({it["error"] for it in told}, {Code.TOPIC_AUTHORIZATION_FAILED})
                for _ in range(2):  # who has to wait is answered once before that
                    other.ask("Metadata", topics=["b"])
                self.assertLess(time.monotonic() - began, QUICK, "another user waits")
                self.assert_refused(broker)
                took = time.monotonic() - began
                began = time.monotonic()
                self.assert_refused(broker)
                self.assertLess(time.monotonic() - began, QUICK, "the request is paid twice")
            server.settled()
        self.assertGreater(took, 6.5)
        self.assertLess(took, LATE)

    def test_answers(self):
        """A request of 46 bytes, whose answer has 10,445, is waited for as well."""
        with ClockedKbroker(SETTINGS, connections=1, more=("--rate-bytes", "4000")) as server:
            with logged_in(server.address) as broker:
                began = time.monotonic()
                [told] = broker.ask("Metadata", topics=["wide"])["topics"]
                self.assertEqual(len(told["partitions"]), 400)
                broker.ask("Metadata", topics=["b"])
                took = time.monotonic() - began
            server.settled()
        self.assertGreater(took, 1.3)
        self.assertLess(took, LATE)

    def test_markers(self):
        """A request that takes 400 partitions into a transaction costs as much as 401 requests: at 100 a second, four."""
        with ClockedKbroker(SETTINGS, connections=1, more=("--rate", "100")) as server:
            with logged_in(server.address) as broker:
                told = broker.ask("InitProducerId", transactional_id="t", timeout=60_000)
                who = {"transactional_id": "t", "producer": told["producer"], "epoch": told["epoch"]}
                began = time.monotonic()
                [told] = broker.ask("AddPartitionsToTxn", topics=[{"topic": "wide", "partitions": [*range(400)]}], **who)["topics"]
                self.assertEqual({it["error"] for it in told["partitions"]}, {Code.NONE})
                self.assertEqual(broker.ask("EndTxn", committed=True, **who)["error"], Code.NONE)
                took = time.monotonic() - began
            server.settled()
        self.assertGreater(took, 2.5)
        self.assertLess(took, LATE)

    def test_who_is_far_too_fast(self):
        """Who would have to wait for more than ten seconds is answered, and then closed; and so is its next session, but not that of
        another user."""
        with ClockedKbroker(SETTINGS, workers=2, connections=3, more=("--rate-bytes", str(MUCH_LESS))) as server:
            for frames in (1, 0):
                with logged_in(server.address, "ann", "pw") as broker:
                    for _ in range(frames):
                        self.assertEqual(len(broker.ask("Metadata", topics=NAMES)["topics"]), len(NAMES))
                    began = time.monotonic()
                    self.assertEqual(broker.input.read(), b"", "the session goes on")
                    self.assertLess(time.monotonic() - began, QUICK)
            with logged_in(server.address) as other:
                other.ask("Metadata", topics=["b"])
            _, told = server.settled()
        for session in (0, 1):
            self.assertIn(of_user(session, "ann", TOO_FAST), told)

    def test_who_waits_and_leaves(self):
        """A session that has to wait gives its worker back as its peer leaves, whether it says so or is just gone."""
        for resets in (False, True):
            with self.subTest(resets=resets):
                with ClockedKbroker(SETTINGS, workers=1, connections=2, more=("--rate-bytes", str(FOR_NINE))) as server:
                    with logged_in(server.address, "ann", "pw") as broker:
                        self.assertEqual(len(broker.ask("Metadata", topics=NAMES)["topics"]), len(NAMES))
                        if resets:
                            broker.socket.setsockopt(socket.SOL_SOCKET, socket.SO_LINGER, struct.pack("ii", 1, 0))
                    began = time.monotonic()
                    with logged_in(server.address) as other:
                        other.ask("Metadata", topics=["b"])
                        self.assertLess(time.monotonic() - began, SOON, "the worker isn't given back")
                    server.settled()

    def test_no_rate(self):
        """Without a rate nobody waits."""
        asked = 50 * RATE
        with ClockedKbroker(SETTINGS) as server:
            with logged_in(server.address, "ann", "pw") as broker:
                began = time.monotonic()
                for _ in range(asked):
                    self.assert_refused(broker)
                took = time.monotonic() - began
            server.settled()
        self.assertLess(took, asked / RATE / 2)

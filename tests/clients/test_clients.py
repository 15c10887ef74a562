"""Clients that people have, against `kbroker serve --librdkafka`: kcat, and confluent-kafka, which stands on librdkafka too.

They are Debian's packages kcat and python3-confluent-kafka. Where one of them isn't installed its tests are skipped, but in CI
(CI=true in the environment) they fail. Debian's packages are installed for the interpreter of the system: where this one is
another, that one runs the tests of confluent-kafka.
"""

import functools
import json
import shutil
import subprocess
import time
import unittest

import packages
from kbroker_testing.broker import ClockedKbroker, Kbroker
from packages import OF_THE_SYSTEM
from program import ROOT
from tests.support import acl, topic, user, without_package

try:
    import confluent_kafka as kafka
except ImportError:
    kafka = None

SETTINGS = (
    'supers = ["User:root"]\n'
    + user("root", "root-secret")
    + user("audit", "audit-secret")
    + "".join(topic(it, 2) for it in ("orders", "payments"))
    + acl(name="orders", principal="User:audit")
)
WAIT = 30  # seconds, at most, for what a client is to see
QUIET = 2  # seconds after which a client is taken to see nothing more


has_kafka = functools.cache(packages.has_kafka)


def needs_kcat(cls):
    """Marks cases of kcat."""
    plain = cls.setUp

    def set_up(self):
        if shutil.which("kcat") is None:
            without_package(self, "kcat")
        plain(self)

    cls.setUp = set_up
    return cls


def by_who_has_kafka(test):
    """Has the interpreter of the system run a test where only that one has confluent-kafka."""

    @functools.wraps(test)
    def run(self):
        if kafka is not None:
            test(self)
            return
        if not has_kafka(OF_THE_SYSTEM):
            without_package(self, "confluent-kafka")
        name = ".".join(["tests.clients.test_clients", *self.id().split(".")[-2:]])
        ran = subprocess.run([OF_THE_SYSTEM, "-m", "unittest", name], cwd=ROOT, capture_output=True, encoding="utf-8")
        self.assertEqual(ran.returncode, 0, ran.stderr)
        self.assertRegex(ran.stderr, r"(?s)Ran 1 test .*\nOK\n\Z")

    return run


def login(address, username="root", password=None):
    """What a client is told of the broker."""
    return {
        "bootstrap.servers": address,
        "security.protocol": "SASL_PLAINTEXT",
        "sasl.mechanism": "PLAIN",
        "sasl.username": username,
        "sasl.password": password or f"{username}-secret",
    }


class Clocked(unittest.TestCase):
    """Tests with a broker that keeps its time itself."""

    def setUp(self):
        options = {"workers": 16, "connections": 1000, "more": ("--librdkafka",)}
        self.address = self.enterContext(ClockedKbroker(SETTINGS, **options)).address


@needs_kcat
class Kcat(Clocked):
    CONSUME = ("-C", "-t", "orders", "-p", "0", "-o", "beginning", "-e", "-q")
    PRODUCE = ("-P", "-t", "orders", "-p", "0")

    def kcat(self, *words, given="", username="root", password=None):
        """The status of a run of kcat, and what it printed."""
        options = [it for key, value in login(self.address, username, password).items() for it in ("-X", f"{key}={value}")]
        ran = subprocess.run(["kcat", *options, *words], input=given, capture_output=True, encoding="utf-8", timeout=WAIT)
        return ran.returncode, ran.stdout, ran.stderr

    def test_topics_are_listed(self):
        """Metadata: the broker, and each topic with its partitions."""
        status, said, why = self.kcat("-L", "-J")
        self.assertEqual(status, 0, why)
        told = json.loads(said)
        self.assertEqual([it["name"] for it in told["brokers"]], [self.address])
        topics = {it["topic"]: [p["partition"] for p in it["partitions"]] for it in told["topics"]}
        self.assertEqual(topics, {"orders": [0, 1], "payments": [0, 1]})

    def test_what_is_produced_is_consumed(self):
        """At the offsets from 0 on."""
        status, _, why = self.kcat(*self.PRODUCE, given="one\ntwo\nthree\n")
        self.assertEqual(status, 0, why)
        status, said, why = self.kcat(*self.CONSUME, "-f", "%o %s\n")
        self.assertEqual((status, said), (0, "0 one\n1 two\n2 three\n"), why)

    def test_refusals(self):
        """Who may read a topic alone reads it, and is refused to write it; a wrong password gets in nowhere."""
        self.kcat(*self.PRODUCE, given="one\n")
        status, said, why = self.kcat(*self.CONSUME, "-f", "%s\n", username="audit")
        self.assertEqual((status, said), (0, "one\n"), why)
        status, _, why = self.kcat(*self.PRODUCE, given="two\n", username="audit")
        self.assertNotEqual(status, 0)
        self.assertIn("Topic authorization failed", why)
        status, _, why = self.kcat("-L", username="audit", password="root-secret")
        self.assertNotEqual(status, 0)
        self.assertIn("SASL authentication error", why)


def sent(producer, topic_name, values):
    """Produces values to partition 0, waits for their answers, and gives the errors."""
    errors = []
    for value in values:
        producer.produce(topic_name, value, partition=0, on_delivery=lambda error, _: errors.append(error))
    left = producer.flush(WAIT)
    return [it for it in errors if it] + ["no answer came"] * left


def read(address, topic_name, count, isolation="read_committed"):
    """The values of partition 0 from its start on: so many, however late they come, and what comes in QUIET seconds after them."""
    consumer = kafka.Consumer(
        {**login(address), "group.id": "readers", "isolation.level": isolation, "enable.auto.commit": False}
    )
    found, until = [], time.monotonic() + (WAIT if count else QUIET)
    try:
        consumer.assign([kafka.TopicPartition(topic_name, 0, 0)])
        while time.monotonic() < until:
            message = consumer.poll(0.2)
            if message is not None and not message.error():
                found.append(message.value())
                if len(found) >= count:
                    until = time.monotonic() + QUIET
    finally:
        consumer.close()
    return found


def transactional(address, name):
    """A transactional producer that has begun its first transaction."""
    producer = kafka.Producer({**login(address), "transactional.id": name})
    producer.init_transactions(WAIT)
    producer.begin_transaction()
    return producer


def member(address, group):
    """A consumer that is to be the group's member, and reads orders."""
    consumer = kafka.Consumer(
        {
            **login(address),
            "group.id": group,
            "auto.offset.reset": "earliest",
            "enable.auto.commit": False,
            "isolation.level": "read_committed",
        }
    )
    consumer.subscribe(["orders"])
    return consumer


def polled(consumer, count):
    """So many messages."""
    found, until = [], time.monotonic() + WAIT
    while len(found) < count:
        if time.monotonic() > until:
            raise TimeoutError(f"{len(found)} of {count} messages came")
        message = consumer.poll(0.2)
        if message is not None:
            if message.error():
                raise kafka.KafkaException(message.error())
            found.append(message)
    return found


class ConfluentKafka(Clocked):
    def send(self, producer, topic_name, *values):
        self.assertEqual(sent(producer, topic_name, values), [])

    @by_who_has_kafka
    def test_producers_are_idempotent(self):
        """An idempotent producer's values come once and in order."""
        values = [str(it).encode() for it in range(300)]
        self.send(kafka.Producer({**login(self.address), "enable.idempotence": True}), "orders", *values)
        self.assertEqual(read(self.address, "orders", len(values)), values)

    @by_who_has_kafka
    def test_transactions_are_atomic(self):
        """A committed transaction is read, an aborted one by read_uncommitted alone."""
        producer = transactional(self.address, "transfer")
        self.send(producer, "orders", b"kept")
        producer.commit_transaction(WAIT)
        producer.begin_transaction()
        self.send(producer, "orders", b"dropped")
        producer.abort_transaction(WAIT)
        self.assertEqual(read(self.address, "orders", 1), [b"kept"])
        self.assertEqual(read(self.address, "orders", 2, isolation="read_uncommitted"), [b"kept", b"dropped"])

    @by_who_has_kafka
    def test_fencing_of_zombies(self):
        """A second producer with the same transactional id fences the first, whose open transaction is aborted."""
        first = transactional(self.address, "transfer")
        self.send(first, "orders", b"of the zombie")
        second = transactional(self.address, "transfer")
        self.send(second, "orders", b"of the second")
        second.commit_transaction(WAIT)
        with self.assertRaises(kafka.KafkaException) as raised:
            first.commit_transaction(WAIT)
        error = raised.exception.args[0]
        self.assertTrue(error.fatal(), error)
        self.assertIn(error.code(), (kafka.KafkaError._FENCED, kafka.KafkaError.PRODUCER_FENCED))
        self.assertEqual(read(self.address, "orders", 1), [b"of the second"])

    @by_who_has_kafka
    def test_groups_go_on(self):
        """A member's committed offset is where the next one begins."""
        self.send(kafka.Producer(login(self.address)), "orders", b"one", b"two", b"three")
        consumer = member(self.address, "billing")
        first = polled(consumer, 2)
        consumer.commit(message=first[-1], asynchronous=False)
        consumer.close()
        self.assertEqual([it.value() for it in first], [b"one", b"two"])
        consumer = member(self.address, "billing")
        self.assertEqual([it.value() for it in polled(consumer, 1)], [b"three"])
        consumer.close()

    @by_who_has_kafka
    def test_transfers_are_exact(self):
        """Consume, transform, produce: offsets and payments are committed together, and an aborted try leaves neither."""
        orders = [b"1", b"2", b"3"]
        self.send(kafka.Producer(login(self.address)), "orders", *orders)
        consumer = member(self.address, "billing")
        producer = kafka.Producer({**login(self.address), "transactional.id": "billing-0"})
        producer.init_transactions(WAIT)
        taken = polled(consumer, len(orders))
        for is_kept in (False, True):
            producer.begin_transaction()
            self.send(producer, "payments", *(b"paid " + it.value() for it in taken))
            offsets = consumer.position(consumer.assignment())
            producer.send_offsets_to_transaction(offsets, consumer.consumer_group_metadata(), WAIT)
            if is_kept:
                producer.commit_transaction(WAIT)
            else:
                producer.abort_transaction(WAIT)
                [before] = consumer.committed([kafka.TopicPartition("orders", 0)], WAIT)
                self.assertLess(before.offset, 0)
        [after] = consumer.committed([kafka.TopicPartition("orders", 0)], WAIT)
        consumer.close()
        self.assertEqual(after.offset, len(orders))
        self.assertEqual(read(self.address, "payments", 3), [b"paid 1", b"paid 2", b"paid 3"])


class SteeredConfluentKafka(unittest.TestCase):
    @by_who_has_kafka
    def test_commits_wait_for_their_markers(self):
        """Where lines steer the broker, what was committed is read once its markers are written, and not before."""
        with Kbroker(SETTINGS) as broker:
            self.commit(broker)  # its clients are gone before the broker ends, which waits for them

    def commit(self, broker):
        """A commit, and what is read of it before and after its marker."""
        producer = transactional(broker.address, "transfer")
        self.assertEqual(sent(producer, "orders", [b"kept"]), [])
        producer.commit_transaction(WAIT)
        self.assertEqual(broker.state().transactions["transfer"].state, "PrepareCommit")
        self.assertEqual(read(broker.address, "orders", 0), [])
        self.assertEqual([(it.outcome, it.name, it.partition) for it in broker.marks()], [("commit", "orders", 0)])
        self.assertEqual(read(broker.address, "orders", 1), [b"kept"])

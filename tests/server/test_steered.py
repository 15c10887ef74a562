"""A broker that is steered, by the fixture for tests: a transaction with none, one and all of its markers written, its end at
the exact millisecond, a fenced producer's late batch, a refused tenant's audit line, and lines that can't be read."""

import subprocess
import tempfile
import unittest

from kbroker_testing.broker import Group, Kbroker, Marker, Moment, NotTaken, Partition, Settled, Transaction
from kbroker_testing.codes import Code
from kbroker_testing.protocol import batch, committed, in_partition, logged_in, partition_of, partitions_of
from kbroker_testing.waiting import wait_until
from tests.support import LISTEN, TOP, run_server, topic, user

TIMEOUT = 60_000
PARTITIONS = (("debits", 0), ("credits", 0))
USERS = user("bank", "bank-secret") + user("audit", "audit-secret")
UNREADABLE = (
    "kbroker: a line of standard input can't be read: there are `tick N`, `mark`, `marks`, `audit`, `state` and `end`"
)
OPEN = "kbroker: connections that are still open: {}; the last line waits for their end, or for --grace"
SETTINGS = 'supers = ["User:bank"]\n' + USERS + "".join(topic(name) for name, _ in PARTITIONS)


class Bank:
    """A producer of transfers, and a consumer that reads committed records alone."""

    def __init__(self, address, user="bank"):
        self.connection = logged_in(address, user, f"{user}-secret")
        self.pair, self.sequences = {}, {}

    def close(self):
        self.connection.close()

    def ask(self, api, **fields):
        return self.connection.ask(api, **fields)

    def begin(self):
        """A pair of producer id and epoch, or the code of the refusal."""
        given = self.ask("InitProducerId", transactional_id="transfer", timeout=TIMEOUT)
        if given["error"] == Code.NONE:
            self.pair = {"producer": given["producer"], "epoch": given["epoch"]}
            self.sequences = dict.fromkeys(PARTITIONS, 0)
        return given["error"]

    def add(self):
        """Adds both partitions to the transaction, and gives the codes."""
        topics = [{"topic": name, "partitions": [index]} for name, index in PARTITIONS]
        answer = self.ask("AddPartitionsToTxn", transactional_id="transfer", **self.pair, topics=topics)
        return [it["error"] for _, it in partitions_of(answer)]

    def send(self, place, value):
        """A batch of one record. Gives its code."""
        sequence = self.sequences.get(place, 0)
        records = batch([value], **self.pair, sequence=sequence, transactional=True)
        topics = in_partition(place, records=records)
        error = partition_of(self.ask("Produce", transactional_id="transfer", topics=topics))["error"]
        self.sequences[place] = sequence + (error == Code.NONE)
        return error

    def transfer(self, amount):
        """Both halves of a transfer, which is not ended."""
        return *self.add(), *(self.send(place, b"%s %d" % (place[0].encode(), amount)) for place in PARTITIONS)

    def end(self, committed, api="EndTxn"):
        return self.ask(api, transactional_id="transfer", **self.pair, committed=committed)["error"]

    def committed(self, place):
        """The values that a read_committed consumer sees of a partition."""
        topics = in_partition(place, offset=0, max_bytes=10_000)
        return [value for _, value in committed(partition_of(self.ask("Fetch", isolation=1, topics=topics)))]


class Steered(unittest.TestCase):
    def setUp(self):
        self.broker = self.enterContext(Kbroker(SETTINGS))
        self.bank = Bank(self.broker.address)
        self.addCleanup(self.bank.close)

    def prepared(self, committed=True):
        """A transfer whose outcome is decided, and of which no marker is written."""
        self.assertEqual(self.bank.begin(), Code.NONE)
        self.assertEqual(self.bank.transfer(7), (Code.NONE,) * 4)
        self.assertEqual(self.bank.end(committed), Code.NONE)

    def seen(self):
        return [self.bank.committed(place) for place in PARTITIONS]

    def test_no_marker_one_and_all(self):
        self.prepared()
        state = self.broker.state()
        self.assertEqual((state.moment, state.owed, state.events), (0, 2, 5))
        had = Transaction("PrepareCommit", 0, 0, 0, TIMEOUT, PARTITIONS, ())
        self.assertEqual(state.transactions, {"transfer": had})
        self.assertEqual(state.partitions, dict.fromkeys(PARTITIONS, Partition(1, 0)))
        self.assertEqual(self.seen(), [[], []])
        self.assertEqual(self.bank.begin(), Code.CONCURRENT_TRANSACTIONS)
        self.assertEqual(self.broker.mark(), Marker("commit", 0, 0, "topic", "debits", 0, 1))
        self.assertEqual(self.seen(), [[b"debits 7"], []])
        self.assertEqual(self.broker.state().partitions, dict(zip(PARTITIONS, (Partition(2, 2), Partition(1, 0)))))
        self.assertEqual(self.broker.mark(), Marker("commit", 0, 0, "topic", "credits", 0, 0))
        self.assertEqual(self.seen(), [[b"debits 7"], [b"credits 7"]])
        self.assertEqual(self.broker.state().transactions, {})
        self.assertIsNone(self.broker.mark())
        self.assertEqual(self.broker.marks(), [])

    def test_all_markers_of_an_abort(self):
        self.prepared(committed=False)
        written = [Marker("abort", 0, 0, "topic", name, index, 1 - at) for at, (name, index) in enumerate(PARTITIONS)]
        self.assertEqual(self.broker.marks(), written)
        self.assertEqual(self.seen(), [[], []])
        self.assertEqual(self.bank.begin(), Code.NONE)

    def test_time_is_over_at_the_millisecond(self):
        self.broker.tick(1000)
        self.assertEqual(self.bank.begin(), Code.NONE)
        self.assertEqual(self.bank.transfer(7), (Code.NONE,) * 4)
        self.assertEqual(self.broker.tick(1000 + TIMEOUT), Moment(1000 + TIMEOUT, (), 0))
        self.assertEqual(self.bank.send(PARTITIONS[0], b"in time"), Code.NONE)
        self.assertEqual(self.broker.tick(1001 + TIMEOUT), Moment(1001 + TIMEOUT, ("transfer",), 2))
        self.assertEqual(self.broker.tick(5), Moment(1001 + TIMEOUT, (), 2))
        self.assertEqual(self.bank.send(PARTITIONS[0], b"late"), Code.INVALID_PRODUCER_EPOCH)
        self.assertEqual([it.epoch for it in self.broker.marks()], [1, 1])
        self.assertEqual(self.seen(), [[], []])

    def test_a_late_batch_of_a_fenced_producer(self):
        self.assertEqual(self.bank.begin(), Code.NONE)
        self.assertEqual(self.bank.transfer(7), (Code.NONE,) * 4)
        other = Bank(self.broker.address)
        self.addCleanup(other.close)
        self.assertEqual(other.begin(), Code.CONCURRENT_TRANSACTIONS)
        self.assertEqual(self.bank.send(PARTITIONS[0], b"late"), Code.INVALID_PRODUCER_EPOCH)
        self.assertEqual(self.bank.end(True, "EndTxn2"), Code.PRODUCER_FENCED)
        self.assertEqual([it.outcome for it in self.broker.marks()], ["abort", "abort"])
        self.assertEqual(other.begin(), Code.NONE)
        self.assertEqual(self.bank.send(PARTITIONS[0], b"later"), Code.INVALID_PRODUCER_EPOCH)
        self.assertEqual(other.transfer(8), (Code.NONE,) * 4)
        self.assertEqual(other.end(True), Code.NONE)
        self.assertEqual(len(self.broker.marks()), 2)
        self.assertEqual(self.seen(), [[b"debits 8"], [b"credits 8"]])

    def test_the_audit_line_of_a_refusal(self):
        audit = Bank(self.broker.address, "audit")
        self.addCleanup(audit.close)
        self.assertEqual(self.broker.audit(), [])
        asked = in_partition(("debits", 0), records=batch([b"mine"]))
        self.assertEqual(partition_of(audit.ask("Produce", topics=asked))["error"], Code.TOPIC_AUTHORIZATION_FAILED)
        self.assertEqual(self.broker.audit(), ["unmatched WRITE Topic debits User:audit 127.0.0.1"])
        self.assertEqual(self.broker.audit(), [])

    def test_groups_and_what_is_added(self):
        self.assertEqual(self.bank.begin(), Code.NONE)
        who = {"transactional_id": "transfer", **self.bank.pair}
        self.assertEqual(self.bank.ask("AddOffsetsToTxn", **who, group="the readers")["error"], Code.NONE)
        of_debits = in_partition(("debits", 0), offset=3)
        staged = self.bank.ask("TxnOffsetCommit", **who, group="the readers", topics=of_debits)
        self.assertEqual(partition_of(staged)["error"], Code.NONE)
        self.assertEqual(self.broker.state().transactions["transfer"].groups, ("the readers",))
        protocols = [{"name": "range", "metadata": b""}]
        joined = self.bank.ask("JoinGroup", group="others", protocols=protocols)
        self.assertEqual(joined["error"], Code.NONE)
        self.assertEqual(self.bank.end(True), Code.NONE)
        self.assertEqual(self.broker.mark(), Marker("commit", 0, 0, "group", "the readers", None, 0))
        groups = {"the readers": Group(0, None, {("debits", 0): 3}), "others": Group(1, joined["member"], {})}
        self.assertEqual(self.broker.state().groups, groups)
        self.assertEqual(self.broker.tick(30_001).moment, 30_001)
        self.assertIsNone(self.broker.state().groups["others"].member)

    def test_other_lines_change_nothing(self):
        """The last one is a byte that is no text."""
        lines = ("", "tick", "tick -1", "tick 1.5", f"tick {1 << 64}", "mark 2", "MARK", "state\r", "\xff", "\udcff")
        for line in lines:
            self.assertEqual(self.broker.say(line), "unreadable", line)
        self.assertEqual(self.broker.state().events, 0)
        told = [UNREADABLE] * len(lines)
        wait_until(lambda: self.broker.told() == told, otherwise="it isn't told which lines there are")

    def test_open_connections_are_told(self):
        self.broker.hand_in("end")
        wait_until(lambda: self.broker.told() == [OPEN.format(1)], otherwise="it isn't told that a connection is open")
        self.bank.close()
        self.assertEqual(self.broker.settled(), (Settled(1, 0, 0), [OPEN.format(1)]))


class Unhurried(Kbroker):
    """A steered broker that serves its open connections to their end: nothing is said of a grace."""

    def words(self, settings):
        return ["--control", "--settings", settings.name], subprocess.PIPE


class Ends(unittest.TestCase):
    def test_open_connections_are_served_to_their_end(self):
        """They ask after the end was told, and are answered."""
        with Unhurried(SETTINGS) as broker:
            bank = Bank(broker.address)
            self.addCleanup(bank.close)
            broker.hand_in("end")
            wait_until(lambda: broker.told() == [OPEN.format(1)], otherwise="it isn't told that a connection is open")
            self.assertEqual(bank.begin(), Code.NONE)
            bank.close()
            self.assertEqual(broker.settled(), (Settled(1, 1, 0), [OPEN.format(1)]))

    def test_the_end_of_the_lines_is_an_end(self):
        with Kbroker(SETTINGS) as broker:
            broker.tick(1)
            self.assertEqual(broker.settled()[0], Settled(0, 1, 0))

    def test_a_full_trail(self):
        with Kbroker("trail_limit = 2\n" + SETTINGS) as broker:
            broker.tick(1)
            broker.tick(2)
            for refused in (broker.mark, lambda: broker.tick(3)):
                with self.assertRaisesRegex(NotTaken, "stop 2"):
                    refused()
            self.assertEqual((broker.state().moment, broker.state().events), (2, 2))
            self.assertEqual(broker.marks(), [])
            self.assertEqual(broker.end(), Settled(0, 2, 0))

    def test_words_that_are_not_understood(self):
        with tempfile.NamedTemporaryFile("w") as it:
            it.write(TOP)
            it.flush()
            for words in (("--control",), ("--control", "--settings", it.name, "--audit", "-"), ("--control=1",)):
                status, said, why = run_server((*LISTEN, *words))
                self.assertEqual((status, said), (2, ""), words)
                self.assertIn("--control", why)
            status, said, why = run_server((*LISTEN, "--settings", it.name + ".none"))
            self.assertEqual((status, said), (1, "open failed\n"))
            self.assertIn(it.name, why)
            status, said, _ = run_server((*LISTEN, "--settings", it.name, "--for", "1"))
            self.assertEqual(status, 0)
            self.assertRegex(said, r"^listening on \S+\nsessions 0 events \d+ refusals 0\n$")

"""The bank at its worst moments: money is neither lost nor doubled, whatever is killed.

Each test has a broker of its own, whose time goes on by itself. Within `with broker.steered():` it stands still: no marker is
written and nothing times out, but where the test says so.

    PYTHONPATH=python KBROKER=./kbroker python3 -m unittest discover examples/bank
"""

import json
import random
import signal
import subprocess
import sys
import tempfile
import time
import unittest
from pathlib import Path

from bank import CREDITS, DEBITS, GROUP, ORDERS, OVER, SESSION_TIME, TRANSACTION_TIME, TRANSACTIONS, WAIT, Auditor, Bank, transfer
from confluent_kafka import KafkaException, Producer

from kbroker_testing.acl_model import Kind, Operation, Pattern, Permission
from kbroker_testing.broker import Kbroker
from kbroker_testing.protocol import logged_in
from kbroker_testing.settings import allow, super_users, topic, user
from kbroker_testing.waiting import background, wait_until

SETTINGS = [
    super_users("root"),
    *(user(name, f"{name}-secret") for name in ("root", "bank", "customer", "auditor", "teller")),
    *(topic(name) for name in (ORDERS, DEBITS, CREDITS)),
    *(allow("bank", "ALL", topic=name) for name in (ORDERS, DEBITS, CREDITS)),
    allow("bank", "ALL", group=GROUP),
    allow("bank", "ALL", transactional_id=TRANSACTIONS),
    allow("customer", "WRITE", topic=ORDERS),
    *(allow("auditor", "READ", topic=name) for name in (DEBITS, CREDITS)),
    allow("auditor", "READ", group="audit"),
    allow("teller", "READ", topic=DEBITS),
]
# That the bank may write no credits, as CreateAcls and DeleteAcls have it.
NO_CREDITS = {
    "kind": Kind.Topic,
    "name": CREDITS,
    "pattern": Pattern.LITERAL,
    "principal": "User:bank",
    "host": "*",
    "operation": Operation.WRITE,
    "permission": Permission.DENY,
}
TRANSFERS = [("alice", "bob", 10), ("bob", "carol", 4), ("carol", "alice", 1)]
MANY = 30  # transfers, of which banks that are killed book a few
MOST = 0.05  # seconds within which a bank is killed that works


def properties(broker, name):
    """By which a user's client connects. librdkafka says what is fatal, and no more."""
    return broker.client_config(name, f"{name}-secret", log_level=0)


def order(broker, transfers):
    """A customer orders transfers."""
    customer = Producer(properties(broker, "customer"))
    for it in transfers:
        customer.produce(ORDERS, transfer(*it))
    if left := customer.flush(WAIT):
        raise TimeoutError(f"{left} orders are not taken")


def books(transfers):
    """What an auditor has to read once these transfers are booked, and nothing else is."""
    return {DEBITS: [(payer, amount) for payer, _, amount in transfers], CREDITS: [(payee, amount) for _, payee, amount in transfers]}


class Process:
    """A bank as a process, which halts after each step, and which is killed at the end of the `with`."""

    def __init__(self, broker):
        self.properties = properties(broker, "bank")

    def __enter__(self):
        self.folder = tempfile.TemporaryDirectory()
        path = Path(self.folder.name, "bank.json")
        path.write_text(json.dumps(self.properties))
        words = [sys.executable, Path(__file__).with_name("halting_bank.py"), path]
        self.process = subprocess.Popen(words, stdin=subprocess.PIPE, stdout=subprocess.PIPE, stderr=subprocess.PIPE, text=True)
        return self

    def __exit__(self, *_):
        self.process.kill()
        self.process.communicate()
        self.folder.cleanup()

    def go_on(self, steps=1):
        """Has it do so many steps more."""
        self.process.stdin.write("\n" * steps)
        self.process.stdin.flush()

    def reach(self, step):
        """Has it go on until it has done this step."""
        while (said := self.process.stdout.readline()) != f"{step}\n":
            if not said:
                raise EOFError(self.process.stderr.read())
            self.go_on()

    def end(self):
        """Has it go on to its end, and gives its status, and what it says then."""
        _, said = self.process.communicate("\n", timeout=WAIT)
        return self.process.returncode, said


class Banking(unittest.TestCase):
    """Tests with a broker, a customer who has ordered, and an auditor."""

    def setUp(self):
        self.broker = self.enterContext(Kbroker(SETTINGS, clock=True))
        order(self.broker, TRANSFERS)
        self.auditor = Auditor(properties(self.broker, "auditor"))
        self.addCleanup(self.auditor.close)

    def bank(self):
        """A bank in this process."""
        bank = Bank(properties(self.broker, "bank"))
        self.addCleanup(bank.close)
        return bank

    def transaction(self):
        """The bank's transaction, if one is open or prepared."""
        return self.broker.state().transactions.get(TRANSACTIONS)

    def place(self):
        """The bank's place among the orders."""
        return self.broker.state().groups[GROUP].committed.get((ORDERS, 0), 0)

    def assert_booked(self, transfers):
        """Waits for the markers, which come by themselves, and compares the books."""
        wait_until(lambda: self.transaction() is None, otherwise="a transaction stays open")
        self.assertEqual(self.auditor.books(), books(transfers))

    def assert_taken_over(self, transfers=TRANSFERS):
        """Another bank books what is left, and each transfer is booked once. The old one's place in the group is free at once, and not
        ten seconds after it was heard of last."""
        self.broker.advance(SESSION_TIME + 1)
        bank = self.bank()
        for at in range(self.place(), len(transfers)):
            self.assertEqual(bank.work().offset(), at)
        self.assert_booked(transfers)


class Commits(Banking):
    def test_transfers(self):
        """Nothing is steered, and nobody is killed."""
        bank = self.bank()
        for _ in TRANSFERS:
            bank.work()
        self.assert_booked(TRANSFERS)

    def test_half_of_a_transfer(self):
        """The bank is told that it has committed, and nobody sees it yet. Then the markers come one by one."""
        bank, whole = self.bank(), books(TRANSFERS[:1])
        with self.broker.steered():
            bank.work()
            self.assertEqual((self.transaction().state, self.broker.state().owed), ("PrepareCommit", 3))
            self.assertEqual(self.auditor.books(), books([]))
            name = self.broker.mark().name  # librdkafka chose which topic comes first
            self.assertEqual(self.auditor.books(), {**books([]), name: whole[name]})
            self.broker.mark()
            self.assertEqual((self.auditor.books(), self.place()), (whole, 0))
            self.assertEqual(self.broker.mark().kind, "group")  # the bank's place comes last
            self.assertEqual((self.place(), self.transaction()), (1, None))

    def test_the_next_transfer_waits(self):
        """While a marker is pending the bank gets no further, and loses nothing."""
        bank = self.bank()
        with self.broker.steered():
            bank.work()
            late = background(bank.work)
            with self.assertRaises(TimeoutError):
                late.result(0.5)
            self.broker.marks()
            self.assertEqual(late.result(WAIT).offset(), 1)
            self.assertEqual(self.auditor.books(), books(TRANSFERS[:1]))  # the second one's markers are pending
        self.assert_booked(TRANSFERS[:2])


class Crashes(Banking):
    def kill_at(self, step, markers=0):
        """A bank is killed once it has done a step, and once so many markers are written."""
        with self.broker.steered(), Process(self.broker) as killed:
            killed.reach(step)
            for _ in range(markers):
                self.broker.mark()

    def test_with_an_order(self):
        self.kill_at("taken")
        self.assert_taken_over()

    def test_within_a_transaction(self):
        """Nobody comes to end it. Its time is over a millisecond after a minute, and then it is aborted."""
        self.kill_at("booked")
        with self.broker.steered():
            over = self.transaction().began + TRANSACTION_TIME
            self.assertEqual(self.broker.tick(over).aborted, ())
            self.assertEqual(self.broker.tick(over + 1).aborted, (TRANSACTIONS,))
            self.assertEqual([it.outcome for it in self.broker.marks()], ["abort"] * 3)
            self.assertEqual((self.auditor.books(), self.place()), (books([]), 0))
        self.assert_taken_over()

    def test_within_a_transaction_that_another_bank_ends(self):
        self.kill_at("booked")
        self.assert_taken_over()

    def test_after_the_commit(self):
        """No marker is written yet: what is committed stays so."""
        self.kill_at("committed")
        self.assert_taken_over()

    def test_between_the_markers(self):
        self.kill_at("committed", markers=1)
        self.assert_taken_over()

    def test_at_drawn_moments(self):
        """Three banks, one after the other, wherever each is then."""
        seed = random.randrange(1 << 32)
        draw, more = random.Random(seed), TRANSFERS * (MANY // len(TRANSFERS))
        order(self.broker, more)
        with self.subTest(seed=seed):
            for _ in range(3):
                with Process(self.broker) as killed:
                    killed.reach("taken")
                    killed.go_on(steps=MANY)
                    time.sleep(draw.uniform(0, MOST))
                self.broker.advance(SESSION_TIME + 1)
            self.assert_taken_over([*TRANSFERS, *more])


class Zombies(Banking):
    def test_a_bank_that_wakes_up(self):
        """It sleeps within a transaction, and another bank takes its place. Then it wakes up, and knows nothing of all that."""
        with Process(self.broker) as zombie:
            zombie.reach("booked")
            zombie.process.send_signal(signal.SIGSTOP)
            self.assert_taken_over()
            zombie.process.send_signal(signal.SIGCONT)
            status, said = zombie.end()
        self.assertEqual(status, OVER, said)
        self.assertIn("fenced by a newer instance", said)
        self.assert_booked(TRANSFERS)


class Rights(Banking):
    def test_a_tenant_without_rights(self):
        """A real client is mostly refused DESCRIBE: before it writes, it asks for Metadata or for a coordinator."""
        teller, codes = Producer(properties(self.broker, "teller")), {}
        for name in (DEBITS, CREDITS):
            teller.produce(name, "1000", "teller", on_delivery=lambda error, message: codes.update({message.topic(): error.name()}))
        self.assertEqual(teller.flush(WAIT), 0)
        self.assertEqual(codes, {DEBITS: "TOPIC_AUTHORIZATION_FAILED", CREDITS: "TOPIC_AUTHORIZATION_FAILED"})
        with self.assertRaises(KafkaException) as raised:
            Bank(properties(self.broker, "teller"))
        self.assertEqual(raised.exception.args[0].name(), "TRANSACTIONAL_ID_AUTHORIZATION_FAILED")
        told = {
            f"unmatched DESCRIBE Topic {CREDITS} User:teller 127.0.0.1",
            f"unmatched WRITE Topic {DEBITS} User:teller 127.0.0.1",  # who may READ it may describe it
            f"unmatched DESCRIBE TransactionalId {TRANSACTIONS} User:teller 127.0.0.1",
        }
        self.assertEqual({*self.broker.audit()}, told)
        self.assertEqual(self.auditor.books(), books([]))

    def test_a_right_that_is_taken_away(self):
        """Meanwhile the bank books no half of a transfer. Once it has the right again, it goes on."""
        bank = self.bank()
        self.assertEqual(bank.work().offset(), 0)
        with logged_in(self.broker.address, "root", "root-secret") as root:
            root.ask("CreateAcls", creations=[NO_CREDITS])
            self.assertIsNone(bank.work())
            self.assertIn(f"denied WRITE Topic {CREDITS} User:bank 127.0.0.1 by ", " ".join(self.broker.audit()))
            self.assert_booked(TRANSFERS[:1])
            root.ask("DeleteAcls", filters=[NO_CREDITS])
        self.assertEqual([bank.work().offset() for _ in TRANSFERS[1:]], [1, 2])
        self.assert_booked(TRANSFERS)


if __name__ == "__main__":
    unittest.main()

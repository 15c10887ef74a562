"""What the fixture has for authors of tests: a broker whose time goes on by itself and can be taken over, settings in Python, what a
client connects by, waiting, and pytest's fixtures."""

import importlib
import sys
import threading
import time
import tomllib
import types
import unittest
from unittest import mock

from kbroker_testing.broker import Kbroker, NotTaken
from kbroker_testing.codes import Code
from kbroker_testing.protocol import in_partition, logged_in, partition_of
from kbroker_testing.settings import allow, deny, joined, super_users, topic, user
from kbroker_testing.waiting import background, wait_until

SETTINGS = [topic("b", 2), user("root", "toor"), super_users("root")]
ASKERS, TIMES = 4, 100  # threads that steer at once, and how often


class Clocks(unittest.TestCase):
    def transact(self, client):
        """Begins a transaction, as soon as the one before is complete, and gives the fields that name it."""

        def given():
            told = client.ask("InitProducerId", transactional_id="t", timeout=60_000)
            return told if told["error"] == Code.NONE else None

        told = wait_until(given)
        who = {"transactional_id": "t", "producer": told["producer"], "epoch": told["epoch"]}
        client.ask("AddPartitionsToTxn", topics=[{"topic": "b", "partitions": [0, 1]}], **who)
        return who

    def test_time_and_markers_by_themselves(self):
        """A second transaction needs no call of the test, and a group's member is removed in time."""
        with Kbroker(SETTINGS, clock=True) as broker, logged_in(broker.address) as client:
            for _ in range(2):
                self.assertEqual(client.ask("EndTxn", committed=True, **self.transact(client))["error"], Code.NONE)
            wait_until(lambda: not broker.state().transactions)
            began, moment = time.monotonic(), broker.state().moment
            wait_until(lambda: broker.state().moment > moment + 300)
            self.assertGreater(time.monotonic() - began, 0.15)  # a tick that was late may have told some of it

    def test_steered(self):
        """Meanwhile nothing moves but what the test says, and then all goes on from there."""
        with Kbroker(SETTINGS, clock=True) as broker, logged_in(broker.address) as client:
            who = self.transact(client)
            with broker.steered() as same:
                self.assertIs(same, broker)
                client.ask("EndTxn", committed=True, **who)
                moment = broker.state().moment
                with broker.steered():
                    self.assertEqual(broker.mark().owed, 1)
                time.sleep(0.3)
                self.assertEqual((broker.state().moment, broker.state().owed), (moment, 1))
                self.assertEqual(broker.advance(1000).moment, moment + 1000)
            wait_until(lambda: not broker.state().transactions)
            later = broker.state().moment
            self.assertGreaterEqual(later, moment + 1000)
            self.assertLess(later, moment + 1000 + 10_000)  # the time in which it was steered isn't made up for

    def test_without_a_clock(self):
        with Kbroker(SETTINGS) as broker, broker.steered():
            time.sleep(0.3)
            self.assertEqual(broker.state().moment, 0)

    def test_it_is_ended_early(self):
        with Kbroker(SETTINGS, clock=True) as broker:
            self.assertEqual(broker.end().sessions, 0)
            with self.assertRaises(EOFError):
                broker.state()

    def test_a_trail_that_is_full(self):
        """The clock stands then, and who asks is told."""
        with Kbroker(["trail_limit = 1\n", *SETTINGS], clock=True) as broker:
            wait_until(lambda: broker.state().events == 1)
            time.sleep(0.3)
            with self.assertRaises(NotTaken):
                broker.advance(1)

    def test_many_threads(self):
        """Each call has its own answer."""
        faults = []

        def ask(broker, number):
            for _ in range(TIMES):
                if number % 2:
                    if "b" not in {name for name, _ in broker.state().partitions}:
                        faults.append("a state of another broker")
                elif broker.audit() != []:
                    faults.append("refusals that there are not")

        with Kbroker(SETTINGS, clock=True) as broker:
            threads = [background(ask, broker, it) for it in range(ASKERS)]
            for it in threads:
                it.result(60)
        self.assertEqual(faults, [])


class Connecting(unittest.TestCase):
    def test_what_clients_connect_by(self):
        with Kbroker(SETTINGS) as broker:
            self.assertEqual(broker.bootstrap_servers, broker.address)
            told = broker.client_config("root", "toor", group_id="g", log_level=0, error_cb=print)
            with logged_in(told["bootstrap.servers"], told["sasl.username"], told["sasl.password"]) as client:
                self.assertEqual([it["topic"] for it in client.ask("Metadata", topics=None)["topics"]], ["b"])
            fixed = {"security.protocol": "SASL_PLAINTEXT", "sasl.mechanism": "PLAIN", "group.id": "g", "log_level": 0, "error_cb": print}
            self.assertEqual({it: told[it] for it in fixed}, fixed)


class Settings(unittest.TestCase):
    def test_parts(self):
        """In whatever order: keys outside of tables come first."""
        parts = [topic("t", 3), user('a "b"\\\n', "p"), allow("*", "READ", topic="*"), super_users("x", "y"), "port = 1\n"]
        read = tomllib.loads(joined(parts))
        self.assertEqual((read["supers"], read["port"]), (["User:x", "User:y"], 1))
        self.assertEqual(read["topic"], [{"name": "t", "partitions": 3}])
        self.assertEqual(read["user"], [{"name": 'a "b"\\\n', "password": "p"}])
        self.assertEqual(joined("a text"), "a text")

    def test_bindings(self):
        def binding(text):
            return [tomllib.loads(text)["acl"][0][it] for it in ("permission", "operation", "kind", "name", "pattern", "principal", "host")]

        self.assertEqual(binding(allow("u", "READ", topic="t")), ["ALLOW", "READ", "Topic", "t", "LITERAL", "User:u", "*"])
        told = binding(deny("u", "WRITE", transactional_id="t-", prefixed=True, host="10.0.0.1"))
        self.assertEqual(told, ["DENY", "WRITE", "TransactionalId", "t-", "PREFIXED", "User:u", "10.0.0.1"])
        self.assertEqual(binding(allow("u", "ALL", cluster=True))[2:4], ["Cluster", "kafka-cluster"])
        self.assertEqual(binding(allow("u", "READ", group="g"))[2:4], ["Group", "g"])

    def test_a_refusal_and_a_grant(self):
        """The broker reads them as they are meant."""
        rows = [user("ann", "p"), allow("ann", "READ", topic="b", prefixed=True), deny("ann", "READ", topic="bb")]
        with Kbroker([*SETTINGS, topic("bb"), *rows]) as broker, logged_in(broker.address, "ann", "p") as client:
            for name, code in (("b", Code.NONE), ("bb", Code.TOPIC_AUTHORIZATION_FAILED)):
                answer = client.ask("Fetch", topics=in_partition((name, 0), offset=0, max_bytes=1))
                self.assertEqual(partition_of(answer)["error"], code)


class Waiting(unittest.TestCase):
    def test_until(self):
        looks = iter((None, 0, "found"))
        self.assertEqual(wait_until(lambda: next(looks)), "found")
        with self.assertRaisesRegex(TimeoutError, "no marker, after 0.05 seconds"):
            wait_until(lambda: False, within=0.05, otherwise="no marker")

    def test_background(self):
        going = threading.Event()
        call = background(lambda it, more: going.wait() and it + more, 1, more=2)
        self.assertFalse(call.done())
        going.set()
        self.assertEqual(call.result(10), 3)
        with self.assertRaises(ZeroDivisionError):
            background(lambda: 1 / 0).result(10)


class Pytest(unittest.TestCase):
    def test_its_fixtures(self):
        """With a stand-in for pytest, that hands fixtures on as they are: it need not be installed."""
        stand_in = types.SimpleNamespace(fixture=lambda it: it)
        with mock.patch.dict(sys.modules, {"pytest": stand_in}):
            plugin = importlib.import_module("kbroker_testing.pytest_plugin")
        self.assertEqual(plugin.kbroker_settings(), [])
        factory = plugin.kbroker_factory()
        broker = plugin.kbroker(next(factory), SETTINGS)
        with logged_in(broker.address):
            wait_until(lambda: broker.state().moment > 0)  # its time goes on
        with self.assertRaises(StopIteration):
            next(factory)  # the test is over
        self.assertIsNotNone(broker.process.returncode)


if __name__ == "__main__":
    unittest.main()

"""What the package says of a mistake: a sentence that names what is wrong, where it stands, and what may stand there."""

import os
import tempfile
import unittest
from pathlib import Path
from unittest import mock

from kbroker_testing import timeline
from kbroker_testing.broker import BrokerFailed, ClockedKbroker, Kbroker, replay
from kbroker_testing.codes import Code
from kbroker_testing.protocol import Connection, batch, in_partition, logged_in, request_digits, request_frame, response_of
from kbroker_testing.settings import allow, deny, joined, super_users, topic, user
from tests.support import PROGRAM

OWN = [super_users("root"), user("root", "toor"), topic("b")]
TO_RUN = "name one by `program`, or by KBROKER in the environment; in a checkout ./kbroker is one, which `make build` builds"
TO_START = "the broker isn't started: `with Kbroker(..) as broker:` starts it"
I16, I32 = "a number from -32768 to 32767", "a number from -2147483648 to 2147483647"
I64 = "a number from -9223372036854775808 to 9223372036854775807"
TIME = "a whole number of milliseconds from 0 to 4611686018427387903"
END = {"transactional_id": "t", "producer": 1, "epoch": 0, "committed": True}


def of_b(index=0, **fields):
    """A partition of the topic `b`, with these fields."""
    return in_partition(("b", index), **fields)


# Requests that no api takes: the api, its fields, and what is said after the api's name.
REQUESTS = (
    ("Metadata", {"topic": ["b"]}, "there is no field topic; those that are: topics"),
    ("ApiVersions", {"topics": []}, "there is no field topics; those that are: none"),
    ("Fetch", {"topics": of_b(ofset=0)}, "topics[0].partitions[0]: there is no field ofset; those that are: index, offset, max_bytes"),
    ("FindCoordinator", {}, "the field key is missing"),
    ("Fetch", {"topics": of_b()}, "topics[0].partitions[0]: the field offset is missing"),
    ("EndTxn", {**END, "epoch": None}, "the field epoch is missing"),
    ("Fetch", {"topics": of_b("0", offset=0)}, f"topics[0].partitions[0].index is '0', and not {I32}"),
    ("Fetch", {"topics": of_b(1 << 31, offset=0)}, f"topics[0].partitions[0].index is 2147483648, and not {I32}"),
    ("Fetch", {"topics": of_b(offset=1.5)}, f"topics[0].partitions[0].offset is 1.5, and not {I64}"),
    ("Fetch", {"topics": of_b(offset=-(1 << 63) - 1)}, f"topics[0].partitions[0].offset is -9223372036854775809, and not {I64}"),
    ("Fetch", {"isolation": "read_committed", "topics": []}, "isolation is 'read_committed', and not a number from -128 to 127"),
    ("EndTxn", {**END, "epoch": 1 << 15}, f"epoch is 32768, and not {I16}"),
    ("EndTxn", {**END, "committed": "no"}, "committed is 'no', and not True or False"),
    ("EndTxn5", {**END, "transactional_id": 5}, "transactional_id is 5, and not a text"),
    ("FindCoordinator", {"key": "k" * 40_000}, "key has 40000 bytes, and may have 32767"),
    ("Metadata", {"topics": "b"}, "topics is 'b', and not a list"),
    ("Metadata", {"topics": ["b", 5]}, "topics[1] is 5, and not a text"),
    ("Produce", {"topics": [("b", 0)]}, "topics[0] is ('b', 0), and not a dict of fields"),
    ("Produce", {"topics": of_b(records=["a cup"])}, "topics[0].partitions[0].records is ['a cup'], and not bytes"),
)
BATCHES = (
    (lambda: batch(b"a cup"), "batch: values is b'a cup', and not a list of bytes"),
    (lambda: batch(5), "batch: values is 5, and not a list of bytes"),
    (lambda: batch([b"a cup", "a plate"]), "batch: values[1] is 'a plate', and not bytes"),
    (lambda: batch([b"a"], producer=1 << 63), f"batch: producer is 9223372036854775808, and not {I64}"),
    (lambda: batch([b"a"], epoch="0"), f"batch: epoch is '0', and not {I16}"),
    (lambda: batch([b"a"], sequence=0.5), f"batch: sequence is 0.5, and not {I32}"),
)
ADDRESSES = "here", "here:", ":9092", "here:http", "here:0", "here:99999"
KINDS = "one of topic, group, transactional_id, cluster is wanted, and this is named: "
SETTINGS = (
    (lambda: allow("u", "READ"), TypeError, KINDS + "nothing"),
    (lambda: allow("u", "READ", topic="a", group="b"), TypeError, KINDS + "topic, group"),
    (lambda: allow("User:u", "READ", topic="a"), ValueError, "a user is named without `User:`, and this one isn't: User:u"),
    (lambda: super_users("User:u"), ValueError, "a user is named without `User:`, and this one isn't: User:u"),
    (lambda: super_users(["u"]), TypeError, "a text is wanted, and this is none: ['u']"),
    (lambda: deny("u", "READ", topic=5), TypeError, "a text is wanted, and this is none: 5"),
    (lambda: user("u", 1), TypeError, "a text is wanted, and this is none: 1"),
    (lambda: topic("a", "3"), TypeError, "a number of partitions is wanted, and this is none: '3'"),
    (lambda: joined([1]), TypeError, "settings are a text, or a list of texts"),
    (lambda: joined(5), TypeError, "settings are a text, or a list of texts"),
)
# Settings that the broker refuses, which says why.
REFUSED = (
    (topic("a", 0), "`topic`, entry 2: `partitions` is 0, and not from 1 to 1000"),
    (topic("a b"), "`topic`, entry 2: no topic may have the name `a b`"),
    (topic("b"), "`topic`, entries 1 and 2: the name `b` stands twice"),
    (allow("u", "RED", topic="b"), "`acl`, entry 1: `operation` is `RED`, which is none: the operations are ALL, READ, "),
)


class Misuse(unittest.TestCase):
    def assert_said(self, misuse, kind, sentence):
        """That what is wrong raises this, with exactly this sentence."""
        with self.subTest(sentence=sentence):
            with self.assertRaises(kind) as raised:
                misuse()
            self.assertEqual(str(raised.exception), sentence)

    def test_no_program(self):
        """None is there, it may not be run, or it is another one."""
        folder = Path(self.enterContext(tempfile.TemporaryDirectory()))
        (folder / "text").touch(0o600)
        for program, why in ((folder / "none", "No such file or directory"), (folder / "text", "Permission denied")):
            said = f"the program {program} can't be run ({why}): {TO_RUN}"
            for starts in (Kbroker(OWN, program).__enter__, ClockedKbroker(OWN, program).__enter__, lambda it=program: replay("---\n", it)):
                self.assert_said(starts, BrokerFailed, said)
        other = Kbroker(OWN, program="/bin/false")
        said = "the program /bin/false ends with status 1 before it says where it listens, and tells []"
        self.assert_said(other.__enter__, BrokerFailed, said)

    def test_no_host(self):
        said = "the host 192.0.2.1 can't be listened on (Cannot assign requested address): it is no IPv4 address of this machine"
        self.assert_said(Kbroker(OWN, host="192.0.2.1").__enter__, BrokerFailed, said)

    def test_no_start(self):
        """Each call of a broker that is made, and not started."""
        broker = Kbroker(OWN)
        calls = broker.mark, broker.marks, broker.state, broker.audit, broker.end, lambda: broker.tick(1), lambda: broker.address
        for call in (*calls, lambda: broker.client_config("root", "toor")):
            self.assert_said(call, BrokerFailed, TO_START)

    def test_no_steering(self):
        """A broker that keeps its time itself takes no lines."""
        with ClockedKbroker(OWN) as broker:
            self.assert_said(lambda: broker.say("mark"), BrokerFailed, "a ClockedKbroker takes no lines: a `Kbroker` is steered")

    def test_moments(self):
        with Kbroker(OWN) as broker:
            for moment in (-1, "5", 1.5, True, None, 1 << 62):
                self.assert_said(lambda it=moment: broker.tick(it), ValueError, f"the moment is {moment!r}, and not {TIME}")
            self.assert_said(lambda: broker.advance(-1), ValueError, f"what has passed is -1, and not {TIME}")
            self.assertEqual(broker.state().events, 0)  # the broker was told of none of them
            self.assertEqual((broker.tick((1 << 62) - 1).moment, broker.advance(5).moment), ((1 << 62) - 1, (1 << 62) - 1))  # it stays

    def test_requests(self):
        """None is sent: the connection goes on."""
        with Kbroker(OWN) as broker:
            with logged_in(broker.address) as client:
                events = broker.state().events
                for api, fields, said in REQUESTS:
                    self.assert_said(lambda api=api, fields=fields: client.ask(api, **fields), ValueError, f"{api}: {said}")
                self.assertEqual(broker.state().events, events)
                self.assertEqual(client.ask("ApiVersions")["error"], Code.NONE)

    def test_numbers_at_their_ends(self):
        """They are taken."""
        for epoch in (-(1 << 15), (1 << 15) - 1):
            with self.subTest(epoch=epoch):
                self.assertIn(epoch.to_bytes(2, "big", signed=True), request_frame("EndTxn", 1, {**END, "epoch": epoch}))

    def test_unknown_apis(self):
        for asks in (lambda: request_digits("Fech"), lambda: request_frame("Fech", 1, {}), lambda: response_of("Fech", b"\0\0\0\0")):
            with self.assertRaisesRegex(ValueError, "^no api Fech is served; those that are: Produce, Fetch, .*, SaslAuthenticate$"):
                asks()

    def test_batches(self):
        for misuse, said in BATCHES:
            self.assert_said(misuse, ValueError, said)

    def test_addresses(self):
        for address in ADDRESSES:
            self.assert_said(lambda it=address: Connection(it), ValueError, f"{address} is no HOST:PORT")

    def test_pictures(self):
        """Of a script that isn't there, is no text, or has settings with a fault, and by no program."""
        folder = Path(self.enterContext(tempfile.TemporaryDirectory()))
        texts = {"bytes": b"\xff", "fault": b"x = 1\n---\n", "none": b"---\n"}
        for name, data in texts.items():
            (folder / name).write_bytes(data)
        rows = (
            ("nowhere", PROGRAM, f"^kbroker_testing: {folder}/nowhere can't be read: No such file or directory$"),
            ("bytes", PROGRAM, f"^kbroker_testing: {folder}/bytes can't be read: .*invalid start byte$"),
            ("fault", PROGRAM, "^kbroker_testing: the replay ends with status 1: kbroker: settings: .*x"),
            ("none", "/none", r"^kbroker_testing: the program /none can't be run \(No such file or directory\): name one"),
        )
        for name, program, said in rows:
            words, environment = mock.patch("sys.argv", ["", str(folder / name)]), mock.patch.dict(os.environ, KBROKER=str(program))
            with self.subTest(name=name), words, environment, self.assertRaisesRegex(SystemExit, said):
                timeline.main()

    def test_settings(self):
        for misuse, kind, said in SETTINGS:
            self.assert_said(misuse, kind, said)
        with self.assertRaisesRegex(TypeError, "subject"):
            allow("u", "READ", subject="a")

    def test_settings_that_the_broker_refuses(self):
        for part, said in REFUSED:
            with self.subTest(said=said), self.assertRaises(BrokerFailed) as raised:
                with Kbroker([*OWN, part]):
                    self.fail("it listens")
            self.assertIn(f"kbroker: settings: {said}", str(raised.exception))


if __name__ == "__main__":
    unittest.main()

"""The package's client: bytes as the protocol's guide lays them out, sums that others computed, and its command line."""

import contextlib
import json
import socket
import subprocess
import sys
import unittest
from unittest import mock

from kbroker_testing import protocol
from kbroker_testing.apis import APIS, SCHEMAS
from kbroker_testing.broker import ClockedKbroker
from kbroker_testing.codes import Code, named
from kbroker_testing.protocol import (
    Connection,
    LoginRefused,
    Reader,
    batch,
    batches_of,
    committed,
    crc32c,
    in_partition,
    logged_in,
    partition_of,
    request_frame,
    response_frame,
    response_of,
    uvarint,
    write,
    zigzag,
)
from program import ROOT
from tests.models.plain_log import ABORT, COMMIT, marker
from tests.support import OF_ROOT, free_address, of_b, topic

NUMBERS = {"i8": -2, "i16": 0x0102, "i32": -1, "i64": 1 << 40, "bool": True}


def sample(kind, is_null=False, with_nulls=False):
    """A value of a kind, the same each time, in which all that may be null is null, or nothing."""
    if is_null:
        return None
    if isinstance(kind, list):
        return {name: sample(of, null and with_nulls, with_nulls) for name, of, null in kind}
    if isinstance(kind, tuple):
        return [sample(kind[1], False, with_nulls)] * 2
    return NUMBERS.get(kind, "é" if kind == "s" else b"\0\xff")


@contextlib.contextmanager
def silent_server():
    """A socket to which clients can connect, and its address."""
    with socket.create_server(("127.0.0.1", 0)) as server:
        yield server, f"127.0.0.1:{server.getsockname()[1]}"


class Bytes(unittest.TestCase):
    def test_numbers_of_seven_bits_a_byte(self):
        """As the guide to Protocol Buffers has them, from which Kafka takes them."""
        for number, written in ((0, "00"), (1, "01"), (127, "7f"), (128, "8001"), (300, "ac02"), (1 << 31, "8080808008")):
            with self.subTest(number=number):
                self.assertEqual(uvarint(number).hex(), written)
                self.assertEqual(Reader(bytes.fromhex(written)).uvarint(), number)
        for number, written in ((0, "00"), (-1, "01"), (1, "02"), (-2, "03"), (2147483647, "feffffff0f")):
            with self.subTest(signed=number):
                self.assertEqual(zigzag(number).hex(), written)
                self.assertEqual(Reader(bytes.fromhex(written)).zigzag(), number)

    def test_sums_of_rfc_3720(self):
        rows = (
            (bytes(32), 0x8A9136AA),
            (b"\xff" * 32, 0x62A8AB43),
            (bytes(range(32)), 0x46DD794E),
            (bytes(range(31, -1, -1)), 0x113FDB5C),
        )
        for data, wanted in rows:
            with self.subTest(data=data):
                self.assertEqual(crc32c(data), wanted)

    def test_requests_byte_for_byte(self):
        """A short one and a flexible one, laid out by hand from the guide."""
        metadata = request_frame("Metadata", 1, {"topics": ["ab"]}, client="c")
        self.assertEqual(metadata.hex(), "00000013" "0003" "0001" "00000001" "000163" "00000001" "00026162")
        end = {"transactional_id": "t", "producer": 1, "epoch": 2, "committed": True}
        self.assertEqual(
            request_frame("EndTxn3", 5, end, client=None).hex(),
            "00000019" "001a" "0003" "00000005" "ffff" "00" "0274" "0000000000000001" "0002" "01" "00",
        )

    def test_unknown_fields_are_refused(self):
        """Also inside a list."""
        rows = (
            ("Metadata", {"topic": "a"}, "there is no field topic; those that are: topics"),
            ("OffsetCommit", {"group": "g", "topics": of_b(offset=5, metdata="here")}, "there is no field metdata"),
            ("Fetch", {"topics": of_b(offset=0, max_byts=10)}, "there is no field max_byts"),
            ("ApiVersions", {"topics": None}, "there is no field topics; those that are: none"),
        )
        for api, fields, wanted in rows:
            with self.subTest(api=api), self.assertRaisesRegex(ValueError, wanted):
                request_frame(api, 1, fields)

    def test_missing_fields_are_refused(self):
        """A truth, a text, a list, and a number inside a list, none of which may be null."""
        end = {"transactional_id": "t", "producer": 1, "epoch": 2}
        rows = (
            ("EndTxn", end, "committed"),
            ("FindCoordinator", {}, "key"),
            ("Fetch", {}, "topics"),
            ("Fetch", {"topics": of_b()}, "offset"),
        )
        for api, fields, missing in rows:
            with self.subTest(api=api), self.assertRaisesRegex(ValueError, f"the field {missing} is missing"):
                request_frame(api, 1, fields)

    def test_fields_that_are_left_out(self):
        """They are the usual ones, or null."""
        asked = request_frame("OffsetCommit", 1, {"group": "g", "topics": of_b(offset=5)})
        whole = {"group": "g", "generation": -1, "member": "", "retention": -1, "topics": of_b(offset=5, metadata=None)}
        self.assertEqual(asked, request_frame("OffsetCommit", 1, whole))

    def test_what_is_written_is_read(self):
        """Of each api, with all that may be null, and with nothing that is."""
        for api, schemas in SCHEMAS.items():
            compact = APIS[api][2]
            for part, kind in zip(("request", "answer"), schemas):
                for with_nulls in (False, True):
                    with self.subTest(api=api, part=part, with_nulls=with_nulls):
                        value = sample(kind, False, with_nulls)
                        reader = Reader(write(kind, value, compact))
                        self.assertEqual(reader.read(kind, compact), value)
                        self.assertEqual(reader.at, len(reader.data))

    def test_answers(self):
        fields = {"throttle": 0, "error": Code.UNKNOWN_MEMBER_ID}
        frame = response_frame("Heartbeat", 7, fields)
        self.assertEqual(frame.hex(), "0000000a" "00000007" "00000000" "0019")
        self.assertEqual(response_of("Heartbeat", frame[4:]), (7, fields))
        for spoilt in (frame[4:-1], frame[4:] + b"\0"):
            with self.subTest(spoilt=spoilt), self.assertRaises(ValueError):
                response_of("Heartbeat", spoilt)


class Batches(unittest.TestCase):
    # A batch of one record with the value `a`, which another encoder made (bench/produce.py has its layout).
    OF_A = (
        "000000000000000000000039" "00000000" "02" "dbe9c876" "0000" "00000000" "0000000000000000" "0000000000000000"
        "ffffffffffffffff" "ffff" "ffffffff" "00000001" "0e00000001026100"
    )

    def test_a_batch_byte_for_byte(self):
        self.assertEqual(batch([b"a"]).hex(), self.OF_A)

    def test_a_spoilt_sum_is_refused(self):
        data = bytearray(batch([b"a"]))
        data[-2] ^= 1
        with self.assertRaisesRegex(ValueError, "another sum"):
            batches_of(bytes(data))

    def test_what_consumers_see(self):
        """Of a transaction that is listed as aborted nothing, up to its marker; of others all, and no marker."""
        of_five = [batch([b"x", b"y"], 5, 0, 0, True), marker(ABORT, 5, 0, 0).data, batch([b"again"], 5, 0, 2, True)]
        of_six = [batch([b"z"], 6, 0, 0, True), marker(COMMIT, 6, 0, 0).data]
        data = [batch([b"plain"]), of_five[0], of_six[0], *of_five[1:], of_six[1]]
        moved = [base.to_bytes(8, "big") + it[8:] for base, it in zip((0, 1, 3, 4, 5, 6), data)]
        part = {"records": b"".join(moved), "aborted": [{"producer": 5, "first_offset": 1}]}
        self.assertEqual(committed(part), [(0, b"plain"), (3, b"z"), (5, b"again")])
        self.assertEqual(committed(part, 1), [(3, b"z"), (5, b"again")])
        shown = [(0, b"plain"), (1, b"x"), (2, b"y"), (3, b"z"), (5, b"again")]
        self.assertEqual(committed({**part, "aborted": None}), shown)
        batches = batches_of(part["records"])
        self.assertEqual([it.end for it in batches], [1, 3, 4, 5, 6, 7])
        self.assertEqual([(it.base, it.commits) for it in batches if it.is_control], [(4, False), (6, True)])


class Codes(unittest.TestCase):
    def test_codes_by_name(self):
        """Some of the guide's table."""
        told = {"NONE": 0, "UNKNOWN_TOPIC_OR_PARTITION": 3, "TOPIC_AUTHORIZATION_FAILED": 29, "PRODUCER_FENCED": 90}
        self.assertEqual({it: int(Code[it]) for it in told}, told)
        self.assertEqual(named(29), "29 TOPIC_AUTHORIZATION_FAILED")
        self.assertEqual(named(999), "999 of no name here")


class Connections(unittest.TestCase):
    def test_a_refused_login(self):
        with ClockedKbroker(OF_ROOT) as server:
            with self.assertRaisesRegex(LoginRefused, "58 SASL_AUTHENTICATION_FAILED"):
                logged_in(server.address, "root", "other")
            server.settled()

    def test_a_connection_that_is_closed(self):
        with ClockedKbroker(OF_ROOT) as server:
            with Connection(server.address) as broker:
                broker.socket.sendall(b"\xff\xff\xff\xff")
                with self.assertRaises(EOFError):
                    broker.receive("Metadata")
            server.settled()

    def test_an_answer_that_is_cut(self):
        """In its size, or after it."""
        frame = response_frame("Heartbeat", 1, {"throttle": 0, "error": 0})
        for sent in (frame[:3], frame[:-1]):
            with self.subTest(sent=sent), silent_server() as (server, address), Connection(address) as broker:
                with server.accept()[0] as peer:
                    peer.sendall(sent)
                with self.assertRaisesRegex(EOFError, "the broker has closed the connection"):
                    broker.receive("Heartbeat")

    def test_one_partition(self):
        topics = in_partition(("a", 3), offset=1)
        self.assertEqual(topics, [{"topic": "a", "partitions": [{"index": 3, "offset": 1}]}])
        self.assertEqual(partition_of({"topics": topics}), {"index": 3, "offset": 1})


class CommandLine(unittest.TestCase):
    """`python3 -m kbroker_testing.protocol`."""

    def said(self, *words):
        """The status, the text and the errors of a call."""
        command = [sys.executable, "-m", "kbroker_testing.protocol", *words]
        ran = subprocess.run(command, cwd=ROOT / "python", capture_output=True, text=True, timeout=30)
        return ran.returncode, ran.stdout, ran.stderr

    def test_help_names_each_api(self):
        """And what the numbers of ACLs mean, as the protocol's guide has them."""
        status, said, errors = self.said("--help")
        self.assertEqual((status, errors), (0, ""))
        for api in APIS:
            with self.subTest(api=api):
                self.assertIn(f"    {api} ", said)
        for meant in ("2 Topic, 3 Group, 4 Cluster, 5 TransactionalId\n", "4 PREFIXED\n", " 8 DESCRIBE, ", "2 DENY, 3 ALLOW\n"):
            with self.subTest(meant=meant):
                self.assertIn(meant, said)

    def test_what_is_asked_is_answered(self):
        produced = '{"topics": [{"topic": "b", "partitions": [{"index": 0, "records": {"values": ["a cup"]}}]}]}'
        fetched = '{"topics": [{"topic": "b", "partitions": [{"index": 0, "offset": 0, "max_bytes": 1000}]}]}'
        with ClockedKbroker(OF_ROOT + topic("b"), connections=3) as server:
            who = server.address, "root", "toor"
            status, said, errors = self.said(*who, "Produce", produced)
            self.assertEqual((status, errors), (0, ""))
            wanted = {"error": 0, "base_offset": 0, "log_append_time": -1}
            self.assertEqual(json.loads(said), {"topics": of_b(**wanted), "throttle": 0})
            status, said, errors = self.said(*who, "Fetch", fetched)
            self.assertEqual((status, errors), (0, ""))
            self.assertEqual(partition_of(json.loads(said))["records"], [[0, "a cup"]])
            status, said, errors = self.said(*who, "Metadata", '{"topics": ["none"]}')
            self.assertEqual((status, errors), (0, "kbroker_testing: error 3 UNKNOWN_TOPIC_OR_PARTITION\n"))
            server.settled()

    def test_an_answer_that_does_not_come(self):
        """That is told, and why it may be."""
        self.enterContext(mock.patch.object(protocol, "TIMEOUT", 0.2))
        with silent_server() as (_, address), mock.patch.object(sys, "argv", ["", address, "u", "p", "Metadata"]):
            with self.assertRaisesRegex(SystemExit, "no answer comes within 0.2 seconds; all workers of the broker may be taken$"):
                protocol.main()

    def test_what_cannot_be_asked(self):
        nobody = free_address()
        rows = (
            (("host",), "the words are HOST:PORT USER PASSWORD API"),
            ((nobody, "u", "p", "Nothing"), "no api Nothing is served"),
            ((nobody, "u", "p", "Metadata", "{"), "the fields are no JSON"),
            ((nobody, "u", "p", "Metadata", "[]"), 'the fields stand in an object, as in {"topics": ["orders"]}'),
            ((nobody, "u", "p", "Metadata", '{"topic": 1}'), "Metadata: there is no field topic; those that are: topics"),
            ((nobody, "u", "p", "FindCoordinator"), "FindCoordinator: the field key is missing"),
            ((nobody, "u", "p", "Produce", '{"topics": ["b"]}'), "Produce: topics[0] is 'b', and not a dict of fields; --help "),
            ((nobody, "u", "p", "Metadata"), f"nobody answers at {nobody}"),
            (("here", "u", "p", "Metadata"), "here is no HOST:PORT"),
        )
        for words, wanted in rows:
            with self.subTest(words=words):
                status, said, errors = self.said(*words)
                self.assertEqual((status, said), (1, ""))
                self.assertIn(wanted, errors)

"""`kbroker serve` over TCP: what it prints and how it ends, each api asked over a connection, and peers that vanish."""

import fcntl
import re
import select
import socket
import struct
import subprocess
import termios
import time
import unittest
from concurrent.futures import ThreadPoolExecutor

from kbroker_testing.acl_model import ANY, OPEN, Entry, Kind, Operation, Pattern, Permission
from kbroker_testing.apis import APIS
from kbroker_testing.broker import REQUESTS, ClockedKbroker, without_stamps
from kbroker_testing.codes import Code
from kbroker_testing.protocol import Connection, batch, committed, logged_in, partition_of, request_frame
from kbroker_testing.waiting import wait_until
from tests.server.session_bytes import framed
from tests.server.told import CLOCK_STOPS, CUT, FULL, LOGS_IN, NEARLY_FULL, NO_LOGIN, READ_FAILED, WAITED, WAITING
from tests.server.told import asked, counted, of_nobody, of_user, text_of
from tests.support import COLLIDING, LISTEN, LONGEST_FRAME, OF_SUPER, TOP
from tests.support import acl, connect, needs_proved_program, of_b, run_server, topic, user

USERS = user("root", "toor") + user("ann", "pw")
TOPIC = topic("b", 2)
SETTINGS = OF_SUPER + USERS + TOPIC + acl(host="127.0.0.1")
ROOM = 16 << 20  # bytes that peers may cost the broker
AT_ONCE = 0.05  # seconds in which the quickest of some answers comes that isn't held back
IDLE = 5  # seconds after which a silent peer is closed
EARLY, LATE = 0.05, 3.5  # seconds before and after its time in which something may come

# What is told of lines for which there was no room.
IN_SHORT = "asks before its login, or out of its order"
LEFT_OUT = re.compile(r"kbroker: lines left out, since nobody read them in time or memory was short: (\d+)")

# The words after `serve` that are not understood.
MISUSED = (
    (),
    LISTEN + ("--workers", "0"),
    LISTEN + ("--workers", "65"),
    LISTEN + ("--workers", "many"),
    LISTEN + ("--connections", "0"),
    LISTEN + ("--connections", "1000001"),
    LISTEN + ("more",),
    LISTEN + ("--for", "0"),
    LISTEN + ("--for", "1000001"),
    LISTEN + ("--idle", "0"),
    LISTEN + ("--idle", "a while"),
    LISTEN + ("--login-within", "0"),
    LISTEN + ("--login-within", "1000001"),
    LISTEN + ("--frame-within", "0"),
    LISTEN + ("--frame-within", "1000001"),
    LISTEN + ("--per-host", "0"),
    LISTEN + ("--per-host", "1000001"),
    LISTEN + ("--rate", "0"),
    LISTEN + ("--rate", "1000000001"),
    LISTEN + ("--rate-bytes", "0"),
    LISTEN + ("--rate-bytes", "1000000000001"),
    LISTEN + ("--endless", "--connections", "1"),
    LISTEN + ("--grace", "1000001"),
    LISTEN + ("--grace", "-1"),
    LISTEN + ("--stop-with-input",),
    LISTEN + ("--audit", "refusals.txt"),
    LISTEN + ("--audit",),
    LISTEN + ("--replay",),
)


def last_offset(broker, isolation):
    """The end of `b`, or its last stable offset."""
    return partition_of(broker.ask("ListOffsets", isolation=isolation, topics=of_b(timestamp=-1)))["offset"]


def is_stable(broker):
    """Whether no offset of the group `g` waits for a marker. That of a transaction is written after those of its partitions."""
    told = broker.ask("OffsetFetch", group="g", topics=[{"topic": "b", "partitions": [0]}], require_stable=True)
    return partition_of(told)["error"] != Code.UNSTABLE_OFFSET_COMMIT


def wait_for_markers(broker):
    """Waits until no transaction of `b` or of `g` is open. The keeper writes a marker ten times a second at least."""
    for _ in range(10_000):
        if last_offset(broker, 1) == last_offset(broker, 0) and is_stable(broker):
            return
    raise TimeoutError("the markers are not written")


def is_closed_unasked(address):
    """Sends the longest Produce before a login, and gives whether the connection is closed without an answer."""
    piece = bytes(1 << 20)
    with connect(address, timeout=120) as peer:
        peer.sendall(struct.pack(">ihhi", LONGEST_FRAME, 0, 3, 1))
        for left in range(LONGEST_FRAME - 8, 0, -len(piece)):
            peer.sendall(piece[:left])
        return peer.recv(1) == b""


class ServedCase(unittest.TestCase):
    """Asks a broker, and looks at the codes that it answers."""

    def assert_code(self, answer, code=Code.NONE):
        self.assertEqual(answer["error"], code, answer)

    def assert_partition_code(self, answer, code=Code.NONE):
        self.assert_code(partition_of(answer), code)

    def assert_closed(self, broker):
        self.assertEqual(broker.input.read(1), b"", "the connection is still open")

    def produce(self, broker, *values, code=Code.NONE, **fields):
        """Produces values to the first partition of `b`, and gives what is told of it."""
        answer = broker.ask("Produce", topics=of_b(records=batch([*values], **fields)))
        self.assert_partition_code(answer, code)
        return partition_of(answer)

    def committed(self, broker, offset=0):
        """What a read_committed consumer sees of the first partition of `b`."""
        answer = broker.ask("Fetch", isolation=1, topics=of_b(offset=offset, max_bytes=10_000))
        self.assert_partition_code(answer)
        return committed(partition_of(answer), offset)

    def transact(self, broker, values, is_committed):
        """A transaction of one batch and an offset of a group, which is ended so."""
        given = broker.ask("InitProducerId", transactional_id="t", timeout=60_000)
        self.assert_code(given)
        pair = {"producer": given["producer"], "epoch": given["epoch"]}
        who = {"transactional_id": "t", **pair}
        added = broker.ask("AddPartitionsToTxn", **who, topics=[{"topic": "b", "partitions": [0]}])
        self.assert_partition_code(added)
        self.assert_code(broker.ask("AddOffsetsToTxn", **who, group="g"))
        records = batch(values, **pair, sequence=0, transactional=True)
        self.assert_partition_code(broker.ask("Produce", transactional_id="t", topics=of_b(records=records)))
        self.assert_partition_code(broker.ask("TxnOffsetCommit", **who, group="g", topics=of_b(offset=len(values))))
        self.assert_code(broker.ask("EndTxn", **who, committed=is_committed))


class CommandLines(unittest.TestCase):
    def test_misuses(self):
        """Each misuse is status 2, a sentence on standard error, and nothing else."""
        for words in MISUSED:
            with self.subTest(words=words):
                status, said, why = run_server(words, SETTINGS)
                self.assertEqual((status, said, bool(why)), (2, "", True))

    def test_an_address_in_use(self):
        with socket.create_server(("127.0.0.1", 0)) as taken:
            address = f"127.0.0.1:{taken.getsockname()[1]}"
            status, said, why = run_server(("--listen", address), SETTINGS)
        self.assertEqual((status, said), (1, "listen failed\n"), why)
        self.assertIn(address, why)
        self.assertTrue(why.endswith("address in use\n"), why)

    def test_settings_with_a_fault(self):
        for settings, fault in (("node_id = ", "Toml"), (OF_SUPER + USERS + USERS, "User")):
            with self.subTest(fault=fault):
                status, said, why = run_server(LISTEN, settings)
                self.assertEqual((status, said, bool(why)), (1, f"settings refused: {fault}\n", True))


class Apis(ServedCase):
    """Each api is asked over a connection."""

    def test_what_settings_are_unlikely_to_mean_is_told(self):
        lines = [
            TOP,
            """[[acl]]\nkind = "Topic"\nname = "a"\npattern = "LITERAL"\nprincipal = "User:*"\nhost = "*"
operation = "READ"\npermission = "ALLOW"\n""",
            """[[acl]]\nkind = "Group"\nname = "g"\npattern = "LITERAL"\nprincipal = "User:ghost"\nhost = "*"
operation = "WRITE"\npermission = "ALLOW"\n""",
        ]
        status, _, told = run_server(LISTEN + ("--for", "1"), "".join(lines))
        warned = [line for line in told.splitlines() if line.startswith("kbroker: settings: ")]
        self.assertEqual(status, 0)
        self.assertEqual(
            warned,
            [
                "kbroker: settings: warning: there is no `[[user]]`, so nobody can log in",
                "kbroker: settings: warning: `acl`, entry 2: `User:ghost` is no `[[user]]`",
                "kbroker: settings: warning: `acl`, entry 2: nothing asks for WRITE on a Group",
            ],
        )

    def test_two_connections(self):
        """What one connection produces the next one fetches, and the last line tells of both."""
        with ClockedKbroker(SETTINGS, workers=2, connections=2) as server:
            with logged_in(server.address) as broker:
                self.assertEqual(self.produce(broker, b"said")["base_offset"], 0)
            with logged_in(server.address) as broker:
                self.assertEqual(self.committed(broker), [(0, b"said")])
            status, said, told = server.wait()
        self.assertEqual(status, 0)
        self.assertRegex(said, r"\Asessions 2 events \d+ refusals 0\n\Z")
        started = (
            "kbroker: version 0.1.0 as node 1: topics 1, partitions 2, users 2, ACLs 1, workers 2,"
            " a trail of 1048576 events (29 hours at rest), not encrypted"
        )
        port = server.address.rpartition(":")[2]
        warned = f"kbroker: warning: clients are told port 9092, as the settings have it, and the server listens on {port}"
        lines = [it for it in without_stamps(told).splitlines() if not REQUESTS.fullmatch(it)]
        self.assertEqual(lines, [started, warned, server.used_up])

    def test_each_api(self):
        """Each api over one connection; another user is refused what it has no binding for; a wrong password."""
        with ClockedKbroker(SETTINGS, workers=2, connections=3) as server:
            with logged_in(server.address) as broker:
                for part in (self.look_at_data, self.look_at_transactions, self.look_at_groups, self.look_at_bindings):
                    part(broker)
            with logged_in(server.address, "ann", "pw") as broker:
                self.assert_partition_code(broker.ask("Fetch", topics=of_b(offset=0, max_bytes=1000)))
                self.produce(broker, b"x", code=Code.TOPIC_AUTHORIZATION_FAILED)
            with Connection(server.address) as broker:
                self.assertEqual(broker.login("ann", "toor"), Code.SASL_AUTHENTICATION_FAILED)
                self.assert_closed(broker)
            settled, told = server.settled()
        self.assertEqual((settled.sessions, settled.refusals), (3, 1))
        self.assertGreater(settled.events, 40)
        self.assertEqual(told, [asked(2, LOGS_IN.format("ann")), of_nobody(2, NO_LOGIN)])

    def look_at_data(self, broker):
        """Topics and records, as a super user."""
        told = broker.ask("ApiVersions")["apis"]
        served = [(it["key"], version) for it in told for version in range(it["min"], it["max"] + 1)]
        self.assertEqual(served, sorted((key, version) for key, version, *_ in APIS.values()))
        self.assertEqual([it["topic"] for it in broker.ask("Metadata", topics=None)["topics"]], ["b"])
        self.assertEqual(self.produce(broker, b"one", b"two")["base_offset"], 0)
        self.assertEqual(self.committed(broker, 1), [(1, b"two")])
        told = partition_of(broker.ask("ListOffsets", topics=of_b(timestamp=-1)))
        self.assertEqual((told["error"], told["offset"]), (Code.NONE, 2))

    def look_at_transactions(self, broker):
        """One that commits, and one that aborts."""
        self.assert_code(broker.ask("FindCoordinator", key="t", key_type=1))
        self.transact(broker, [b"kept"], True)
        wait_for_markers(broker)
        self.transact(broker, [b"lost"], False)
        wait_for_markers(broker)
        self.assertEqual([value for _, value in self.committed(broker)], [b"one", b"two", b"kept"])
        kept = broker.ask("OffsetFetch", group="g", topics=[{"topic": "b", "partitions": [0]}], require_stable=True)
        self.assertEqual(partition_of(kept)["offset"], 1)

    def look_at_groups(self, broker):
        """A member of a group, from its join to its leave."""
        joined = broker.ask("JoinGroup", group="g", protocols=[{"name": "range", "metadata": b"m"}])
        self.assert_code(joined)
        self.assertEqual(joined["leader"], joined["member"])
        member = {"group": "g", "generation": joined["generation"], "member": joined["member"]}
        assignments = [{"member": joined["member"], "assignment": b"all"}]
        self.assertEqual(broker.ask("SyncGroup", **member, assignments=assignments)["assignment"], b"all")
        self.assert_code(broker.ask("Heartbeat", **member))
        self.assert_partition_code(broker.ask("OffsetCommit", **member, topics=of_b(offset=2, metadata="here")))
        self.assert_code(broker.ask("LeaveGroup", group="g", member=joined["member"]))
        self.assert_code(broker.ask("Heartbeat", **member), Code.UNKNOWN_MEMBER_ID)

    def look_at_bindings(self, broker):
        """A binding that is made, told and taken out."""
        binding = Entry("b", Pattern.LITERAL, Kind.Topic, "User:ann", "*", Operation.WRITE, Permission.ALLOW)._asdict()
        anything = OPEN._replace(operation=Operation.WRITE)._asdict()
        self.assertEqual(anything["kind"], ANY)
        self.assert_code(broker.ask("CreateAcls", creations=[binding])["results"][0])
        [resource] = broker.ask("DescribeAcls", **anything)["resources"]
        acls = [{it: binding[it] for it in ("principal", "host", "operation", "permission")}]
        self.assertEqual((resource["kind"], resource["name"], resource["acls"]), (Kind.Topic, "b", acls))
        taken = broker.ask("DeleteAcls", filters=[anything])["results"][0]["matches"]
        self.assertEqual([it["principal"] for it in taken], ["User:ann"])
        self.assertEqual(broker.ask("DescribeAcls", **anything)["resources"], [])


class Librdkafka(ServedCase):
    """What `--librdkafka` changes, for clients that stand on it."""

    def test_versions_from_zero(self):
        """ApiVersions lists FindCoordinator and SaslHandshake from 0 before a login, and nothing else changes."""
        served = {10: (1, 1), 17: (1, 1)}
        for more, listed in (((), served), (("--librdkafka",), {10: (0, 1), 17: (0, 1)})):
            with self.subTest(more=more), ClockedKbroker(SETTINGS, more=more) as server:
                with Connection(server.address) as broker:
                    tables = [broker.ask("ApiVersions")["apis"]]
                    self.assert_code(broker.ask("SaslHandshake", mechanism="PLAIN"))
                    tables.append(broker.ask("ApiVersions")["apis"])
                    self.assert_code(broker.ask("SaslAuthenticate", auth=b"\0root\0toor"))
                    tables.append(broker.ask("ApiVersions")["apis"])
                server.settled()
                first, second, third = ({it["key"]: (it["min"], it["max"]) for it in table} for table in tables)
                self.assertEqual(first, second)
                self.assertEqual(first, {**third, **listed})
                self.assertEqual({key: third[key] for key in served}, served)

    def assert_held_back(self, broker, seconds, offset, max_wait, answer):
        """Each of ten Fetches is answered this code, and whether there are records; the quickest after so many seconds."""
        took = []
        for _ in range(10):
            begun = time.monotonic()
            part = partition_of(broker.ask("Fetch", max_wait=max_wait, topics=of_b(offset=offset, max_bytes=1000)))
            took.append(time.monotonic() - begun)
            self.assertEqual((part["error"], bool(part["records"])), answer, (offset, part))
        self.assertTrue(seconds <= min(took) < seconds + AT_ONCE, (offset, max_wait, took))

    def test_an_empty_fetch_is_held_back(self):
        """An answer without a record or an error waits as the request says, at most a tenth of a second."""
        empty, full, refused = (Code.NONE, False), (Code.NONE, True), (Code.OFFSET_OUT_OF_RANGE, False)
        for more in ((), ("--librdkafka",)):
            with self.subTest(more=more), ClockedKbroker(SETTINGS, more=more) as server:
                with logged_in(server.address) as broker:
                    self.produce(broker, b"x")
                    for offset, max_wait, answer in ((1, 0, empty), (0, 60_000, full), (9, 60_000, refused)):
                        self.assert_held_back(broker, 0, offset, max_wait, answer)
                    for max_wait, seconds in ((40, 0.04), (60_000, 0.1)):
                        self.assert_held_back(broker, seconds if more else 0, 1, max_wait, empty)
                server.settled()


class Peers(ServedCase):
    """Peers that vanish, say nothing, or more than they may."""

    def test_peers_that_vanish(self):
        """One that says nothing, one that ends inside a frame, and one that resets the connection cost nobody else anything."""
        with ClockedKbroker(SETTINGS, workers=4, connections=4) as server:
            silent = self.enterContext(connect(server.address))
            with connect(server.address) as cut:
                cut.sendall(request_frame("Metadata", 1, {"topics": None})[:9])
            with connect(server.address) as reset:
                reset.sendall(request_frame("SaslHandshake", 1, {"mechanism": "PLAIN"}))
                reset.setsockopt(socket.SOL_SOCKET, socket.SO_LINGER, struct.pack("ii", 1, 0))
            with logged_in(server.address) as broker:
                self.assertTrue(broker.ask("Metadata", topics=None)["topics"])
            silent.close()
            settled, told = server.settled()
        self.assertEqual((settled.sessions, settled.refusals), (4, 0))
        # (what a peer that resets the connection comes to is for the operating system to say)
        self.assertIn(of_nobody(1, CUT), told)
        self.assertLessEqual(len(told), 2, told)

    @needs_proved_program("memory is measured, of which checks take more")
    def test_announced_frames_take_little(self):
        """Clients that announce the longest frame and stop after a byte of it cost the broker no room for the rest."""
        clients = 64
        with ClockedKbroker(SETTINGS, workers=clients, connections=clients + 1) as server:
            peers = [self.enterContext(connect(server.address)) for _ in range(clients)]
            for peer in peers:
                peer.sendall(struct.pack(">i", LONGEST_FRAME) + b"\0")
            for peer in peers:
                peer.shutdown(socket.SHUT_WR)
            for peer in peers:
                self.assertEqual(peer.recv(1), b"", "the session is not cut")
            self.assertLess(server.peak_memory(), ROOM)
            connect(server.address).close()
            settled, told = server.settled()
        self.assertEqual(settled.sessions, clients + 1)
        self.assertEqual(counted(told), {text_of(of_nobody(0, CUT)): clients})

    @needs_proved_program("memory is measured, of which checks take more")
    def test_sent_frames_are_not_kept(self):
        """Clients that send the longest frame before a login cost the broker no room for it, and are closed."""
        clients, patient = 64, ("--login-within", "300", "--frame-within", "300")
        with ClockedKbroker(SETTINGS, workers=clients, connections=clients + 1, more=patient) as server:
            before = server.peak_memory()
            with ThreadPoolExecutor(clients) as pool:
                closed = list(pool.map(lambda _: is_closed_unasked(server.address), range(clients)))
            self.assertEqual(closed, [True] * clients)
            self.assertLess(server.peak_memory(), before + ROOM)
            connect(server.address).close()
            settled, told = server.settled()
        self.assertEqual((settled.sessions, settled.refusals), (clients + 1, 0))
        texts = ("asks Produce before its login", text_of(of_nobody(0, NO_LOGIN)))
        self.assertEqual(counted(told), dict.fromkeys(texts, clients))

    def test_idle_peers_are_closed(self):
        """A peer that says nothing for five seconds is closed, and one that says something each second isn't."""
        with ClockedKbroker(SETTINGS, workers=2, connections=2, more=("--idle", str(IDLE))) as server:
            began = time.monotonic()
            with connect(server.address) as silent, logged_in(server.address) as broker:
                while time.monotonic() - began < IDLE + LATE and not select.select([silent], [], [], 1)[0]:
                    self.assertTrue(broker.ask("Metadata", topics=None)["topics"])
                took = time.monotonic() - began
                self.assertTrue(IDLE - EARLY < took < IDLE + LATE, took)
                self.assertEqual(silent.recv(1), b"", "the peer is answered")
                self.assertTrue(broker.ask("Metadata", topics=None)["topics"])
            settled, told = server.settled()
        self.assertEqual((settled.sessions, told), (2, [of_nobody(0, READ_FAILED)]))


class Operators(ServedCase):
    """What an operator is told on standard error, and what that costs."""

    def test_refusals_are_told(self):
        """Each refusal is a line, in the order in which they came, and told while the broker runs."""
        refused = [
            "unmatched WRITE Topic b User:ann 127.0.0.1",
            "unmatched DESCRIBE Group g User:ann 127.0.0.1",
        ]
        with ClockedKbroker(SETTINGS, connections=2, more=("--audit", "-")) as server:
            with logged_in(server.address, "ann", "pw") as broker:
                self.produce(broker, b"x", code=Code.TOPIC_AUTHORIZATION_FAILED)
                told = broker.ask("FindCoordinator", key="g", key_type=0)
                self.assert_code(told, Code.GROUP_AUTHORIZATION_FAILED)
                wait_until(lambda: server.told() == refused, otherwise="the refusals are not told")
            logged_in(server.address).close()
            settled, told = server.settled()
        self.assertEqual((settled.sessions, settled.refusals, told), (2, 2, refused))

    def ask_without_a_login(self, server, strangers):
        """So many strangers ask before a login, each for an api of its own: what is told of it is told of nobody else."""
        for number in range(strangers):
            with connect(server.address, 20) as stranger:
                stranger.sendall(bytes.fromhex(framed(1_000 + number, 0, 1, None, b"")))
                self.assertEqual(stranger.recv(1), b"", number)

    def wait_until_full(self, pipe):
        """Waits until half a second brings nothing more into a pipe from which nobody reads, and for which more is left."""

        def held():
            return struct.unpack("i", fcntl.ioctl(pipe, termios.FIONREAD, bytes(4)))

        def is_full():
            before = held()
            time.sleep(0.5)
            return held() == before

        wait_until(is_full, otherwise="the pipe isn't full")

    def test_unread_lines_hold_up_nobody(self):
        """Lines that nobody reads hold up no session and no marker. Those without room are left out, and their number is told."""
        strangers, refused = 3_000, 2_000  # whose lines fill the pipe, so that the others' wait behind them
        words = {"workers": 3, "connections": strangers + 2, "more": ("--audit", "-"), "errors": subprocess.PIPE}
        with ClockedKbroker(SETTINGS, **words) as server:
            with logged_in(server.address) as broker, logged_in(server.address, "ann", "pw") as reader:
                for _ in range(refused):
                    self.produce(reader, b"x", code=Code.TOPIC_AUTHORIZATION_FAILED)
                self.wait_until_full(server.process.stderr)
                self.ask_without_a_login(server, strangers)
                self.transact(broker, [b"kept"], True)
                wait_for_markers(broker)
            settled, told = server.settled()
        self.assertEqual((settled.sessions, settled.refusals), (strangers + 2, refused))
        left_out = [int(found[1]) for found in map(LEFT_OUT.fullmatch, told) if found]
        lines = [line for line in told if not LEFT_OUT.fullmatch(line)]
        self.assertEqual(sum(it.startswith("unmatched ") for it in lines), refused)
        asks = [asked(2 + number, f"asks api {1_000 + number} before its login") for number in range(strangers)]
        named = [line for line in lines if "asks api" in line]
        self.assertEqual(named, asks[: len(named)])
        counts = {text: count for text, count in counted(lines).items() if "asks api" not in text}
        of_ends = {text_of(of_nobody(2, NO_LOGIN)), "ends before its login"}
        self.assertLessEqual({*counts}, of_ends | {IN_SHORT})
        heard, ends = len(named) + counts[IN_SHORT], sum(counts.get(it, 0) for it in of_ends)
        self.assertIn(heard - ends, (0, 1))
        self.assertTrue(left_out)
        # (the lines that no more connections are taken, and how much was asked, may be left out too)
        missing = 2 * strangers - heard - ends
        self.assertIn(sum(left_out) - missing, (0, 1, 2), (heard, ends, left_out))

    def test_a_full_trail_is_told(self):
        """Where the trail is full the operator is told once that the clock stops, and each session ends at its next request."""
        with ClockedKbroker(OF_SUPER + "trail_limit = 5\n" + USERS + TOPIC) as server:
            nearly = NEARLY_FULL.format(5, 5)
            wait_until(lambda: server.told() == [nearly, CLOCK_STOPS.format(FULL)], otherwise="it is not told that the trail is full")
            with logged_in(server.address) as broker:
                broker.send("Metadata", topics=None)
                self.assert_closed(broker)
            settled, told = server.settled()
        self.assertEqual((settled.sessions, settled.events), (1, 5))
        self.assertEqual(told, [nearly, CLOCK_STOPS.format(FULL), of_user(0, "root", FULL)])

    def test_a_trail_that_fills_up(self):
        """The operator is told once that nine tenths of the trail's room are taken, and not before."""
        with ClockedKbroker(OF_SUPER + "trail_limit = 30\n" + USERS + TOPIC) as server:
            wait_until(server.told, otherwise="it is not told that the trail is nearly full")
            self.assertEqual(server.told()[0], NEARLY_FULL.format(27, 30))
            wait_until(lambda: len(server.told()) > 1, otherwise="it is not told that the trail is full")
            logged_in(server.address).close()
            _, told = server.settled()
        self.assertEqual(told, [NEARLY_FULL.format(27, 30), CLOCK_STOPS.format(FULL)])

    def test_connections_that_wait(self):
        """Where all workers are taken for a second the operator is told, once, and again when the one that waited is served."""
        with ClockedKbroker(SETTINGS, workers=2, connections=3) as server:
            with logged_in(server.address), logged_in(server.address) as last:
                began = time.monotonic()
                with connect(server.address) as waits:
                    wait_until(server.told, otherwise="it is not told that a connection waits")
                    took = time.monotonic() - began
                    self.assertTrue(0.8 < took < 1 + LATE, took)  # ten ticks, between which a rest may end early
                    time.sleep(1)
                    self.assertEqual(server.told(), [WAITING.format(2)])
                    last.close()
                    wait_until(lambda: len(server.told()) > 1, otherwise="it is not told that it is served")
                    most = int(time.monotonic() - began)
                    waits.shutdown(socket.SHUT_WR)
                    self.assertEqual(waits.recv(1), b"")
            settled, told = server.settled()
        self.assertEqual(settled.sessions, 3)
        self.assertIn(told, [[WAITING.format(2), WAITED.format(seconds)] for seconds in range(1, most + 1)])

    def test_no_connection_waits(self):
        """Many that come and go are served at once, and nothing is told."""
        with ClockedKbroker(SETTINGS, workers=2, connections=200) as server:
            for _ in range(200):
                logged_in(server.address).close()
            settled, told = server.settled()
        self.assertEqual((settled.sessions, told), (200, []))


class Names(ServedCase):
    """Names that clients choose."""

    def begin_groups(self, server, broker, front, count):
        """The processor seconds that the broker takes to begin so many groups, whose names have this front."""
        before = server.processor_seconds()
        for number in range(count):
            answer = broker.ask("OffsetCommit", group=f"{front}{number:08}", topics=of_b(offset=number, metadata=""))
            self.assert_partition_code(answer)
        return server.processor_seconds() - before

    def test_chosen_names_do_not_collide(self):
        """Groups whose names all hash alike by keys that everybody knows are begun as fast as others."""
        with ClockedKbroker(SETTINGS) as server:
            with logged_in(server.address) as broker:
                ordinary = self.begin_groups(server, broker, "an ordinary name: groups", 8_000)
                chosen = self.begin_groups(server, broker, COLLIDING, 8_000)
            server.settled()
        self.assertLess(chosen, 3 * ordinary)

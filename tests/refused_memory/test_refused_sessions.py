"""Refuses each allocation in turn of a session that logs in and asks for all topics, and then of `kbroker serve`, while a client
logs in, produces, fetches and ends a transaction.

The session alone is served over bytes, by the program `refused_runs`. Wherever memory is refused to it, it ends for that
reason, or since the core stopped for it, and what was written is a front of what is written where nothing is refused, byte
for byte.

Of the server, whatever is refused, the program ends by itself, with status 0 and the line of settled books or with status 1;
what it prints is a front of a line that says where it listens and of a last line that is told; the bytes that the client is
answered are a front of those where nothing is refused; and a session that was begun and ended early says that there was not
enough memory. Over another connection the client then asks once more what got no answer: what only reads is answered as if
nothing had been refused, and anything else may have put the broker down. Both have to be seen.
"""

import contextlib
import re
import subprocess

from kbroker_testing import protocol
from kbroker_testing.broker import without_stamps
from tests.refused_memory import refusing
from tests.server import session_bytes
from tests.server.told import ALLOCATION_FAILED, DOWN
from tests.support import LISTEN, OF_ROOT, PROGRAM, of_b, topic

SETTINGS = OF_ROOT + topic("b")

# A session over bytes: its settings and frames, what is written to it, and what may come of it.
FRAMES = (session_bytes.HANDSHAKE, session_bytes.LOGIN, session_bytes.METADATA)
SESSION = "\n".join((session_bytes.settings(1_000) + "---", *FRAMES, ""))
WRITTEN = session_bytes.HANDSHAKE_TOLD + session_bytes.LOGIN_TOLD + session_bytes.METADATA_TOLD
CAME = re.compile(r"receipts (\d+)\nwritten ([0-9a-f]*)\nend (\S+)\n")
FOR_MEMORY = ("NoMemory", "Stopped(NoMemory)")

WORDS = ("serve", *LISTEN, "--workers", "1", "--connections", "2")
FIRST = re.compile(rb"listening on (\S+)\n")
LAST = re.compile(rb"sessions \d+ events \d+ refusals 0\n")
ENDS_EARLY = (
    b"",
    b"listen failed\n",
    b"settings refused: NoMemory\n",
    b"settle failed: NoMemory\n",
    b"settle failed: NoThread\n",
)
# A session is cut short by an allocation failure of its own or its event, and after one of the keeper's by its next event.
CUT_SHORT = (ALLOCATION_FAILED, DOWN)
READING = ("Metadata", "Fetch")
CLOSED = contextlib.suppress(EOFError, OSError)
FEWEST = 100
ANSWERS = 9  # of a whole run


class OverBytes(refusing.Run):
    """The session over bytes, in which an allocation is refused, or none."""

    def __init__(self, environment):
        super().__init__(environment, "session", SESSION)
        found = CAME.fullmatch(self.text)
        self.receipts, self.written, self.end = (int(found[1]), *found.groups()[1:]) if found else (None, None, None)


def came_of(run, whole):
    """What came of a refused allocation of a session over bytes, or None where that must not be."""
    if outside := run.outside(whole):
        return outside
    is_front = run.status == 0 and run.end in FOR_MEMORY and whole.written.startswith(run.written)
    return run.end if is_front and run.receipts <= whole.receipts else None


class Recorded(protocol.Connection):
    """A connection that keeps all bytes that it is answered."""

    def __init__(self, address):
        super().__init__(address)
        self.heard = b""

    def read(self, count):
        data = super().read(count)
        self.heard += data
        return data


class Run:
    """The program with a client, over settings, in which an allocation is refused, or none."""

    def __init__(self, environment, settings):
        self.answers, self.left, self.again, self.heard = [], None, None, b""
        with open(settings, "rb") as given:
            pipes = {"stdin": given, "stdout": subprocess.PIPE, "stderr": subprocess.PIPE}
            process = subprocess.Popen([PROGRAM, *WORDS], env=environment, **pipes)
        try:
            self.said = process.stdout.readline()
            found = FIRST.fullmatch(self.said)
            if found:
                self.talk(found[1].decode())
            rest, told = process.communicate(timeout=60)
        finally:
            process.kill()
        self.first, self.last = (self.said, rest) if found else (b"", self.said + rest)
        self.told, self.status = without_stamps(told.decode()), process.returncode

    def talk(self, address):
        """Asks one thing after the other as long as the connection is there, and over another one what is left."""
        with CLOSED, Recorded(address) as broker:
            try:
                for self.left in self.asked():
                    api, fields = self.left
                    self.answers.append(broker.ask(api, **fields))
                self.left = None
            finally:
                self.heard = broker.heard
        with CLOSED, protocol.Connection(address) as broker:
            if self.left:
                api, fields = self.left
                broker.login("root", "toor")
                self.again = broker.ask(api, **fields)

    def asked(self):
        """What the client asks, by what it was answered."""
        yield "SaslHandshake", {"mechanism": "PLAIN"}
        yield "SaslAuthenticate", {"auth": b"\0root\0toor"}
        yield "Metadata", {"topics": None}
        yield "Produce", {"topics": of_b(records=protocol.batch([b"one"]))}
        yield "InitProducerId", {"transactional_id": "t", "timeout": 60_000}
        pair = {"producer": self.answers[-1]["producer"], "epoch": self.answers[-1]["epoch"]}
        who = {"transactional_id": "t", **pair}
        yield "AddPartitionsToTxn", {**who, "topics": [{"topic": "b", "partitions": [0]}]}
        records = protocol.batch([b"two"], **pair, sequence=0, transactional=True)
        yield "Produce", {"transactional_id": "t", "topics": of_b(records=records)}
        yield "Fetch", {"topics": of_b(offset=0, max_bytes=1000)}
        yield "EndTxn", {**who, "committed": True}

    def why(self, session):
        """Why a session ended, as an operator is told it, or None."""
        found = re.search(rf"^kbroker: session {session} of .*: (.*)$", self.told, re.M)
        return found and found[1]

    def is_asked_again(self):
        """Whether what only reads was left unanswered for allocation failure, and the program served another session."""
        reads = self.left is not None and self.left[0] in READING
        return reads and self.status == 0 and self.why(0) == ALLOCATION_FAILED


def fault_of(run, whole):
    """What is wrong with a run, or None."""
    if not whole.heard.startswith(run.heard) or run.answers != whole.answers[: len(run.answers)]:
        return "is answered something else"
    was_begun = run.heard or run.why(0)
    if run.status == 0 and run.left and was_begun and run.why(0) not in CUT_SHORT:
        return f"ends a session otherwise: {run.why(0)}"
    if run.is_asked_again() and run.again != whole.answers[len(run.answers)]:
        return "is not answered what only reads when it is asked again"
    if run.status == 0 and (not run.first or not LAST.fullmatch(run.last)):
        return "says another last line"
    if run.status and (run.status not in (1, 2) or run.last not in ENDS_EARLY):
        return "doesn't end as it should"
    return None


class RefusedSessions(refusing.RefusingCase):
    @refusing.needs_refused_runs
    def test_a_session_over_bytes(self):
        whole = OverBytes(self.environment(0))
        self.assertEqual((whole.status, whole.receipts, whole.written, whole.end), (0, 1, WRITTEN, "Closed"), whole.told)
        count, seen, faults = self.counted(whole.told, 1), [], []
        for at, run in self.each_refused(count, lambda it: OverBytes(self.environment(it))):
            seen.append(came_of(run, whole))
            faults += [f"allocation {at} of {count}: {vars(run)}"] * (seen[-1] is None)
        self.assert_no_faults(faults)
        for it in FOR_MEMORY:
            with self.subTest(end=it):
                self.assertIn(it, seen)

    def test_a_server_with_a_client(self):
        settings = self.folder / "settings"
        settings.write_text(SETTINGS)
        whole = Run(self.environment(0), settings)
        self.assertIsNone(fault_of(whole, whole), vars(whole))
        self.assertEqual(len(whole.answers), ANSWERS, vars(whole))
        count, faults, of_reading, of_others = self.counted(whole.told, FEWEST), [], 0, 0
        for at, run in self.each_refused(count, lambda it: Run(self.environment(it), settings)):
            fault = fault_of(run, whole)
            faults += [f"where allocation {at} of {count} is refused, a run {fault}: {vars(run)}"] * bool(fault)
            of_reading += run.is_asked_again()
            of_others += run.why(0) == ALLOCATION_FAILED and run.why(1) == DOWN
        self.assert_no_faults(faults)
        self.assertTrue(of_reading, "nothing that only reads was asked again")
        self.assertTrue(of_others, "the broker was never down")

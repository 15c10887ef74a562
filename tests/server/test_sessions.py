"""Sessions over TCP, byte for byte: which messages log in, what is answered before a login and after it, why a session
ends, and how many events it was. Lines steer the brokers, so nothing happens but what is asked; and where it is looked at what
is told of a session, it has a broker of its own, since what is told of several alike is counted."""

import socket
import struct
import unittest
from typing import NamedTuple

from kbroker_testing.broker import Kbroker
from tests.server.session_bytes import (
    BARE_VERSIONS_IN_THREE,
    HANDSHAKE,
    HANDSHAKE_AGAIN_TOLD,
    HANDSHAKE_AT_LENGTH,
    HANDSHAKE_TOLD,
    LOGIN,
    LOGIN_AGAIN_TOLD,
    LOGIN_AT_LENGTH,
    LOGIN_IN_ONE_TOO_LONG,
    LOGIN_TOLD,
    LONGEST,
    METADATA,
    METADATA_TOLD,
    PRODUCE,
    PRODUCE_TOLD,
    PRODUCE_TOO_LONG,
    SCRAM,
    SCRAM_TOLD,
    SILENT_PRODUCE,
    SPOILT,
    UNKNOWN_AT_LENGTH,
    UNKNOWN_TOO_LONG,
    VERSIONS,
    VERSIONS_IN_THREE,
    VERSIONS_IN_THREE_TOLD,
    VERSIONS_IN_THREE_TOO_LONG,
    VERSIONS_TOLD,
    VERSIONS_TOO_LONG,
    WRONG,
    WRONG_TOLD,
    login_of,
    settings,
)
from tests.server.told import ASKED, BAD_FRAME, CUT, FULL, LOGS_IN, MALFORMED, NO_LOGIN, counted, of_nobody, text_of
from tests.support import connect

# SaslHandshake in version 0, EndTxn in version 6, and an api that there isn't, each with a header alone.
HANDSHAKE_IN_ZERO = "0000000a" + "00110000" + "00000001" + "ffff"
END_IN_SIX = "0000000b" + "001a0006" + "00000003" + "ffff00"
NO_API = "0000000a" + "03e70000" + "00000003" + "ffff"

class Row(NamedTuple):
    """What is sent, what is answered, how many events it was, and why the session ended, where its input didn't end."""

    asks: tuple
    answers: tuple = ()
    events: int = 0
    why: str | None = None


ROWS = (
    # inputs that end
    Row(()),
    Row(("000000",), why=CUT),
    Row(("00000011",), why=CUT),
    Row((HANDSHAKE, "00"), (HANDSHAKE_TOLD,), why=CUT),
    Row(("06400000", "00"), why=CUT),
    # sizes that no frame has
    Row(("ffffffff",), why=BAD_FRAME),
    Row(("00000007", "00120000000000"), why=BAD_FRAME),
    Row(("06400001", "00"), why=BAD_FRAME),
    # a body that is too short, and one that is too long
    Row(("000000080012000000000001",), why=MALFORMED),
    Row(("0000000b0012000000000001ffff00",), why=MALFORMED),
    # what can't be read: before a login the api alone counts
    *(Row((it,), why=NO_LOGIN) for it in SPOILT),
    *(Row((HANDSHAKE, it), (HANDSHAKE_TOLD,), why=NO_LOGIN) for it in SPOILT),
    *(Row((HANDSHAKE, LOGIN, it), (HANDSHAKE_TOLD, LOGIN_TOLD), why=MALFORMED) for it in SPOILT),
    # what is as long as it may be before a login, and longer
    Row((HANDSHAKE_AT_LENGTH, LOGIN_AT_LENGTH, METADATA), (HANDSHAKE_TOLD, LOGIN_TOLD, METADATA_TOLD), 1),
    Row((UNKNOWN_AT_LENGTH, LOGIN), (SCRAM_TOLD,), why=NO_LOGIN),
    Row((UNKNOWN_TOO_LONG,), why=MALFORMED),
    Row((VERSIONS_TOO_LONG,), why=MALFORMED),
    Row((HANDSHAKE, VERSIONS_TOO_LONG), (HANDSHAKE_TOLD,), why=MALFORMED),
    Row((HANDSHAKE, login_of(LONGEST)), (HANDSHAKE_TOLD, WRONG_TOLD), why=NO_LOGIN),
    Row((HANDSHAKE, login_of(LONGEST + 1)), (HANDSHAKE_TOLD, WRONG_TOLD), why=NO_LOGIN),
    Row((HANDSHAKE, login_of(LONGEST, 1)), (HANDSHAKE_TOLD,), why=MALFORMED),
    Row((HANDSHAKE, login_of(LONGEST + 1, 1)), (HANDSHAKE_TOLD, WRONG_TOLD), why=NO_LOGIN),
    Row((HANDSHAKE, LOGIN_IN_ONE_TOO_LONG), (HANDSHAKE_TOLD,), why=MALFORMED),
    Row((login_of(LONGEST + 1),), why=NO_LOGIN),
    Row((PRODUCE_TOO_LONG,), why=NO_LOGIN),
    Row((HANDSHAKE, PRODUCE_TOO_LONG), (HANDSHAKE_TOLD,), why=NO_LOGIN),
    Row((HANDSHAKE, PRODUCE_TOO_LONG[:-2]), (HANDSHAKE_TOLD,), why=CUT),
    Row(
        (VERSIONS_IN_THREE_TOO_LONG, HANDSHAKE, VERSIONS_IN_THREE_TOO_LONG, LOGIN, VERSIONS_IN_THREE_TOO_LONG),
        (VERSIONS_IN_THREE_TOLD, HANDSHAKE_TOLD, VERSIONS_IN_THREE_TOLD, LOGIN_TOLD, VERSIONS_IN_THREE_TOLD),
    ),
    # logins
    Row((HANDSHAKE, LOGIN, METADATA), (HANDSHAKE_TOLD, LOGIN_TOLD, METADATA_TOLD), 1),
    Row((HANDSHAKE, WRONG, METADATA), (HANDSHAKE_TOLD, WRONG_TOLD), why=NO_LOGIN),
    Row((SCRAM, LOGIN), (SCRAM_TOLD,), why=NO_LOGIN),
    # what comes too soon, and too late
    Row((LOGIN,), why=NO_LOGIN),
    Row((METADATA,), why=NO_LOGIN),
    Row((PRODUCE,), why=NO_LOGIN),
    Row((HANDSHAKE, PRODUCE, LOGIN), (HANDSHAKE_TOLD,), why=NO_LOGIN),
    Row((HANDSHAKE, HANDSHAKE), (HANDSHAKE_TOLD,), why=NO_LOGIN),
    Row(
        (HANDSHAKE, LOGIN, HANDSHAKE, LOGIN),
        (HANDSHAKE_TOLD, LOGIN_TOLD, HANDSHAKE_AGAIN_TOLD, LOGIN_AGAIN_TOLD),
        2,
    ),
    # a Produce that wants no answer
    Row((HANDSHAKE, LOGIN, SILENT_PRODUCE, PRODUCE), (HANDSHAKE_TOLD, LOGIN_TOLD, PRODUCE_TOLD), 2),
    # ApiVersions before the handshake, after it, and after the login
    Row(
        (VERSIONS, HANDSHAKE, VERSIONS, LOGIN, VERSIONS),
        (VERSIONS_TOLD, HANDSHAKE_TOLD, VERSIONS_TOLD, LOGIN_TOLD, VERSIONS_TOLD),
        1,
    ),
    Row(
        (VERSIONS_IN_THREE, HANDSHAKE, VERSIONS_IN_THREE, LOGIN, VERSIONS_IN_THREE),
        (VERSIONS_IN_THREE_TOLD, HANDSHAKE_TOLD, VERSIONS_IN_THREE_TOLD, LOGIN_TOLD, VERSIONS_IN_THREE_TOLD),
    ),
    Row(
        (BARE_VERSIONS_IN_THREE, HANDSHAKE, BARE_VERSIONS_IN_THREE, LOGIN, BARE_VERSIONS_IN_THREE),
        (VERSIONS_IN_THREE_TOLD, HANDSHAKE_TOLD, VERSIONS_IN_THREE_TOLD, LOGIN_TOLD, VERSIONS_IN_THREE_TOLD),
    ),
)

LOG_ANN_IN = (b"\0ann\0pw", b"ann\0ann\0pw")
LOG_NOBODY_IN = (
    b"bob\0ann\0pw",
    b"ann\0bob\0pw",
    b"\0ann\0other",
    b"\0ann\0p",
    b"\0ann\0pww",
    b"\0ann\0",
    b"\0zed\0pw",
    b"\0\0pw",
    b"\0ann\0pw\0",
    b"\0ann",
    b"annpw",
    b"",
)


class SessionBroker(Kbroker):
    """A broker that lines steer, from its first connection on."""

    def __init__(self, trail_limit):
        super().__init__(settings(trail_limit), more=())

    def answers(self, asks):
        """What is answered over a connection of its own to all that is asked at once, up to its end."""
        with connect(self.address, 30) as it:
            it.sendall(asks)
            it.shutdown(socket.SHUT_WR)
            pieces = iter(lambda: it.recv(1 << 16), b"")
            return b"".join(pieces)

    def ended(self):
        """What it did, why its session ended, if not between two requests, and what is told of a frame that ended it."""
        settled, lines = self.settled("end\n")
        asks = [found[2] for found in map(ASKED.fullmatch, lines) if found]
        whys = [line.split(": ", 2)[2] for line in lines if not ASKED.fullmatch(line)]
        return settled, whys, asks


class Sessions(unittest.TestCase):
    def test_rows(self):
        for number, row in enumerate(ROWS):
            with self.subTest(row=number), SessionBroker(1_000) as broker:
                found = broker.answers(bytes.fromhex("".join(row.asks))).hex()
                self.assertEqual(found, "".join(row.answers))
                settled, whys, asks = broker.ended()
                self.assertEqual(settled, (1, row.events, 0))
                self.assertEqual(whys, [row.why] if row.why else [])
                self.assertEqual(len(asks), row.why in (MALFORMED, NO_LOGIN), asks)

    def test_an_operator_is_told_what_is_not_served(self):
        unserved = (
            (HANDSHAKE_IN_ZERO, "asks SaslHandshake in version 0, which isn't served: 1 is"),
            (HANDSHAKE + LOGIN + END_IN_SIX, "asks EndTxn in version 6, which isn't served: 0 to 5 are"),
            (HANDSHAKE + LOGIN + NO_API, "asks api 999, which isn't served"),
            ("0000000b0012000000000001ffff00", "asks ApiVersions in version 0, and the rest of its frame is no such request"),
        )
        refused = (
            (METADATA, "asks Metadata before its login"),
            (HANDSHAKE + PRODUCE, "asks Produce before its login"),
            (NO_API, "asks api 999 before its login"),
            (LOGIN, "asks SaslAuthenticate out of its order"),
            (HANDSHAKE + HANDSHAKE, "asks SaslHandshake out of its order"),
            (SCRAM, "asks for the mechanism SCRAM, which isn't offered: PLAIN is"),
            (HANDSHAKE + WRONG, LOGS_IN.format("ann")),
            (HANDSHAKE + login_of(LONGEST + 1), "sends a login that is longer than each user's"),
        )
        for rows, why in ((unserved, MALFORMED), (refused, NO_LOGIN)):
            for asks, told in rows:
                with self.subTest(told=told), SessionBroker(1_000) as broker:
                    broker.answers(bytes.fromhex(asks))
                    self.assertEqual(broker.ended()[1:], ([why], [told]))

    def test_a_full_trail(self):
        """The trail takes three events; the session ends at the fourth."""
        with SessionBroker(3) as broker:
            found = broker.answers(bytes.fromhex(HANDSHAKE + LOGIN + 4 * METADATA)).hex()
            self.assertEqual(found, HANDSHAKE_TOLD + LOGIN_TOLD + 3 * METADATA_TOLD)
            self.assertEqual(broker.ended(), ((1, 3, 0), [FULL], []))

    def whom_it_logs_in(self, broker, message):
        """Whom a message logs in, as an audit line tells it of somebody who asks for the topic `a`, or None."""
        login = struct.pack(">hhihi", 36, 0, 2, -1, len(message)) + message
        metadata = struct.pack(">hhihih", 3, 1, 3, -1, 1, 1) + b"a"
        frames = (struct.pack(">i", len(it)) + it for it in (login, metadata))
        found = broker.answers(bytes.fromhex(HANDSHAKE) + b"".join(frames)).hex()
        self.assertTrue(found.startswith(HANDSHAKE_TOLD), found)
        refused, told = broker.audit(), found[len(HANDSHAKE_TOLD) :]
        if told == WRONG_TOLD and not refused:
            return None
        self.assertTrue(told.startswith(LOGIN_TOLD), told)
        [line] = refused
        front, after = "unmatched DESCRIBE Topic a ", " 127.0.0.1"
        self.assertTrue(line.startswith(front) and line.endswith(after), line)
        return line[len(front) : -len(after)]

    def test_messages_that_log_in(self):
        """Ann is logged in by her name and her password alone, and for herself."""
        with SessionBroker(1_000) as broker:
            for messages, whom in ((LOG_ANN_IN, "User:ann"), (LOG_NOBODY_IN, None)):
                for message in messages:
                    with self.subTest(message=message):
                        self.assertEqual(self.whom_it_logs_in(broker, message), whom)
            settled, lines = broker.settled("end\n")
        self.assertEqual(settled, (len(LOG_ANN_IN + LOG_NOBODY_IN), len(LOG_ANN_IN), len(LOG_ANN_IN)))
        ends = {text: count for text, count in counted(lines).items() if text.startswith("of ")}
        self.assertEqual(ends, {text_of(of_nobody(0, NO_LOGIN)): len(LOG_NOBODY_IN)})

"""Draws frames of every api from a seed, spoils most of them, and asks them all: by `replay`, and over connections.

A frame is cut, gets bytes that it should not have, or counts and lengths that lie. What it is then is told by the reading of
`tests/models/frames.py`: a frame that is a request gets the response of its api under its correlation id, and any other is not
answered and ends its session. The environment may name another number of frames and another seed:

    KBROKER_SPOILT="1000000 3" make test K=spoilt
"""

import os
import random
import socket
import struct
import subprocess
import tempfile
import unittest

from kbroker_testing.apis import APIS, SCHEMAS
from kbroker_testing.broker import ClockedKbroker, answers_in
from kbroker_testing.codes import Code
from kbroker_testing.protocol import batch, logged_in, request_frame, response_of
from tests.models.frames import NUMBERS, NoRequest, asked_by, is_silent
from tests.support import OF_ROOT, PROGRAM, topic

FRAMES, SEED = map(int, os.environ.get("KBROKER_SPOILT", "20000 1").split())
AT_ONCE = 10_000  # frames of a replay
SESSIONS = 0.02  # of the frames' number
IN_A_SESSION = 12  # frames at most
MOST_MEMORY = 500 << 10  # kilobytes, of a replay
FEWEST = 1_000  # frames, of which some have to be requests

SETTINGS = OF_ROOT + topic("a", 2)


# ---- drawing


class Drawing:
    """Draws frames, by their schemas, and spoils them."""

    def __init__(self, seed):
        self.random = random.Random(seed)

    def text(self):
        return self.random.choice(["", "a", "t", "root", "ab", "\u00e9", "x" * 200])

    def value(self, kind, may_be_null=False):
        """A value of a kind, as `protocol.write` takes it."""
        if may_be_null and self.random.random() < 0.3:
            return None
        if isinstance(kind, list):
            fields = {name: self.value(of, null) for name, of, null in kind}
            if "isolation" in fields and self.random.random() < 0.9:
                fields["isolation"] = self.random.randrange(2)
            return fields
        if isinstance(kind, tuple):
            return [self.value(kind[1]) for _ in range(self.random.choice((0, 1, 1, 2, 3)))]
        if kind in NUMBERS:
            most = 1 << 8 * NUMBERS[kind][0] - 1
            return self.random.choice((0, 0, 1, 2, -1, most - 1, -most, self.random.randrange(-most, most)))
        if kind == "bool":
            return self.random.random() < 0.5
        if kind == "b":
            return self.random.choice((b"", b"\0" * 9, batch([b"v"]), self.random.randbytes(70)))
        return self.text()

    def request(self):
        """A request's frame, without its size field."""
        api = self.random.choice([*APIS])
        fields = self.value(SCHEMAS[api][0])
        client = None if self.random.random() < 0.5 else self.text()
        return request_frame(api, self.random.randrange(1 << 31), fields, client)[4:]

    def cut(self, frame):
        return frame[: self.random.randrange(len(frame) + 1)]

    def turn_byte(self, frame):
        at = self.random.randrange(len(frame) + 1)
        return frame[:at] + self.random.randbytes(1) + frame[at + 1 :]

    def put_in(self, frame):
        at = self.random.randrange(len(frame) + 1)
        return frame[:at] + self.random.randbytes(self.random.randint(1, 3)) + frame[at:]

    def take_out(self, frame):
        at = self.random.randrange(len(frame) + 1)
        return frame[:at] + frame[at + self.random.randint(1, 3) :]

    def lie(self, frame):
        """Puts a length or a count somewhere that lies, or a number of more bytes than one may have."""
        at = self.random.randrange(len(frame) + 1)
        lies = (
            struct.pack(">h", self.random.choice((-1, -2, 32767, -32768))),
            struct.pack(">i", self.random.choice((-1, -2, 2**31 - 1, -(2**31), 1 << 20))),
            self.random.choice((b"\0", b"\xff" * 4 + b"\x0f", b"\xff" * 4 + b"\x10", b"\xff" * 5, b"\x80\x80\x00")),
        )
        put = self.random.choice(lies)
        return frame[:at] + put + frame[at + len(put) :]

    def frame(self):
        """A frame without its size field, which is spoilt or not."""
        frame = self.request()
        for _ in range(self.random.choice((0, 1, 1, 1, 2, 3))):
            spoil = self.random.choice((self.cut, self.turn_byte, self.put_in, self.take_out, self.lie))
            frame = spoil(frame)
        return frame


def with_size(frame):
    return struct.pack(">i", len(frame)) + frame


# ---- asking


def expect(frame):
    """What a frame is to be answered with: an api and a correlation id, "silence", or None where it is no request."""
    try:
        api, correlation = asked_by(frame)
    except NoRequest:
        return None
    return "silence" if is_silent(frame, api) else (api, correlation)


def replayed(script):
    """The status of a replay, the answers, and how many kilobytes it took at most."""
    with tempfile.TemporaryFile() as given, tempfile.TemporaryFile() as printed:
        given.write(script.encode())
        given.seek(0)
        process = subprocess.Popen([PROGRAM, "replay"], stdin=given, stdout=printed)
        _, status, used = os.wait4(process.pid, 0)
        process.returncode = os.waitstatus_to_exitcode(status)
        printed.seek(0)
        return process.returncode, [it.answer for it in answers_in(printed.read().decode())], used.ru_maxrss


class Spoilt(unittest.TestCase):
    def setUp(self):
        self.drawing = Drawing(SEED)  # of its own for each case, so that each can be run alone

    def assert_response(self, expected, frame, response):
        """Whether a response is that of an api under the frame's correlation id."""
        api, wanted = expected
        correlation, fields = response_of(api or "ApiVersions", response)
        self.assertEqual(correlation, wanted, (frame.hex(), response.hex()))
        if api is None:
            self.assertEqual(fields["error"], Code.UNSUPPORTED_VERSION, (frame.hex(), response.hex()))

    def assert_replayed(self, frames):
        """Asks by one replay, and gives how many frames were requests."""
        lines = "".join(f"req root h {with_size(it).hex()}\n" for it in frames)
        status, answers, memory = replayed(f"{SETTINGS}---\n{lines}")
        self.assertEqual((status, len(answers)), (0, len(frames)))
        self.assertLess(memory, MOST_MEMORY, "kilobytes of a replay")
        requests = 0
        for frame, answer in zip(frames, answers):
            expected = expect(frame)
            requests += expected is not None
            if expected is None or expected == "silence":
                self.assertEqual(answer, "-" if expected else "closed", frame.hex())
            else:
                self.assertNotIn(answer, ("closed", "-"), frame.hex())
                self.assert_response(expected, frame, bytes.fromhex(answer)[4:])
        return requests

    def talk(self, broker, frames):
        """Asks frames over a connection that has logged in, up to the first that is no request, and looks at the answers."""
        for frame in frames:
            expected = expect(frame)
            broker.socket.sendall(with_size(frame))
            if expected is None:
                break
            if expected != "silence":
                size = struct.unpack(">i", broker.input.read(4))[0]
                self.assert_response(expected, frame, broker.input.read(size))
        else:
            broker.socket.shutdown(socket.SHUT_WR)
        self.assertEqual(broker.input.read(), b"", "something is answered after the last request")

    def test_frames_of_replays(self):
        requests = 0
        for first in range(0, FRAMES, AT_ONCE):
            requests += self.assert_replayed([self.drawing.frame() for _ in range(min(AT_ONCE, FRAMES - first))])
        if FRAMES >= FEWEST:
            self.assertTrue(FRAMES // 10 < requests < FRAMES // 10 * 9, f"{requests} requests say too little")

    def test_frames_of_sessions(self):
        """One connection after the other, and then the books are settled."""
        count = max(1, int(FRAMES * SESSIONS))
        with ClockedKbroker(SETTINGS, workers=2, connections=count) as server:
            for _ in range(count):
                with logged_in(server.address) as broker:
                    self.talk(broker, [self.drawing.frame() for _ in range(self.drawing.random.randint(1, IN_A_SESSION))])
            settled, _ = server.settled()
        self.assertEqual(settled.sessions, count)

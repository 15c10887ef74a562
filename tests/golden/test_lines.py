"""Scripts of a line or two: what is read as a request, a mark or a tick, and how a run ends that ends early.

What a run prints is compared byte for byte, with its status; and standard error says something where it ends early, or
the broker would close the connection, and nothing else.
"""

import subprocess
import unittest

from tests.support import PROGRAM, TOP

# Settings without topics, and a trail of two events.
SETTINGS = TOP.encode() + b"trail_limit = 2\n"

# A request for all topics, and its answer.
ASK = b"req ann h 0000000e0003000100000001ffffffffffff\n"
ANSWER = b"0000001d00000001000000010000000100016800002384ffff0000000100000000\n"
CLOSED = b"closed\n"
UNSENT = b"-\n"
UNREADABLE = b"line 1: unreadable\n"

# What is no frame of a request that is served, without its size field.
UNSERVED = (
    "0063",
    "006300",
    "00630001",  # no such api
    "00030002",  # an api in a version that isn't served
    "0003000100000001",  # without a client
    "000300010000000100 01ff ffffffff",  # a client that is no UTF-8
    "0003000100000001ffff 7fffffff 0000",  # a count above the bytes left
    "0003000100000001ffff fffffffe",  # a count below that of no list
    "0003000100000001ffff ffffffff 00",  # a byte after the request
)

# The lines after the settings, and what is printed for them.
ANSWERED = (
    (b"---", b""),
    (b"---\n", b""),
    (b"---\nreq ann h 00000000\n", CLOSED),
    (b"---\nreq ann h 00000001ff\n", CLOSED),
    (b"---\nmark\n", UNSENT),
    # moments are read up to the greatest number of 64 bits
    (b"---\ntick 0\n", UNSENT),
    (b"---\ntick 007\n", UNSENT),
    (b"---\ntick 18446744073709551615\n", UNSENT),
    # a last line without its feed, and digits in upper case
    (b"---\n" + ASK.rstrip(), ANSWER),
    (b"---\nreq ann h 0000000E0003000100000001FFFFffffffff\n", ANSWER),
)

# The same of runs that end early.
ENDED = (
    (b"---\n\n", UNREADABLE),
    (b"---\nreq ann h 00\n", UNREADABLE),
    (b"---\nreq ann h 0000000\n", UNREADABLE),
    (b"---\nreq ann h 00000001\n", UNREADABLE),
    (b"---\nreq ann h 0000000000\n", UNREADABLE),
    (b"---\nreq ann  h 00000000\n", UNREADABLE),
    (b"---\nreq ann h 00000000 \n", UNREADABLE),
    (b"---\nmark 1\n", UNREADABLE),
    (b"---\nmark \n", UNREADABLE),
    (b"---\nMark\n", UNREADABLE),
    (b"---\ntick\n", UNREADABLE),
    (b"---\ntick \n", UNREADABLE),
    (b"---\ntick 18446744073709551616\n", UNREADABLE),
    (b"---\ntick -1\n", UNREADABLE),
    (b"---\ntick +1\n", UNREADABLE),
    (b"---\ntick 1x\n", UNREADABLE),
    (b"---\ntick 1 2\n", UNREADABLE),
    (b"---\ntick  1\n", UNREADABLE),
    (b"---\ntick 1 \n", UNREADABLE),
    (b"---\n" + ASK + b"req ann h 00", ANSWER + b"line 2: unreadable\n"),
    # the trail is full
    (b"---\n" + ASK + ASK + ASK, ANSWER + ANSWER + b"stop 2\n"),
)

# Settings with a fault, and the first one that is told.
REFUSED = (
    (b"", b"Key"),
    (b"=", b"Toml"),
    (b'host = "\xff"\n', b"Toml"),
    (b'node_id = 1\nhost = "h"\nport = 0\n---\nreq', b"Range"),
)


# What a reader is told of lines, each by its number in the whole input: `---` is the fifth.
BLANKS = "a line is `req USER HOST HEX`, `mark` or `tick N`, with one blank between each two words"
RETURNED = "the line `---` ends with a carriage return, so no script is parted from the settings"
TOLD = (
    (b"---\nreqq a h 00\n", [f"kbroker: line 6 of the input: {BLANKS}"]),
    (b"---\nmark\nmark 1\n", [f"kbroker: line 7 of the input: {BLANKS}"]),
    (b"---\nmark\r\n", [f"kbroker: line 6 of the input: {BLANKS}", "kbroker: line 6 of the input: it ends with a carriage return"]),
    (b"---\r\nmark\r\n", ["kbroker: settings: " + RETURNED]),
    (b"", ["kbroker: there is no line `---` after the settings, so there is no script to answer"]),
)


def cases():
    """Each input with what it prints and its status."""
    for words in UNSERVED:
        frame = bytes.fromhex(words)
        size = len(frame).to_bytes(4, "big")
        yield SETTINGS + b"---\nreq ann h " + (size + frame).hex().encode(), CLOSED, 0
    for lines, printed in ANSWERED:
        yield SETTINGS + lines, printed, 0
    for lines, printed in ENDED:
        yield SETTINGS + lines, printed, 1
    for settings, fault in REFUSED:
        yield settings, b"settings refused: " + fault + b"\n", 1


class Lines(unittest.TestCase):
    def test_lines(self):
        for given, printed, status in cases():
            with self.subTest(given=given):
                ran = subprocess.run([PROGRAM, "replay"], input=given, capture_output=True, timeout=60)
                self.assertEqual((ran.stdout, ran.returncode), (printed, status), ran.stderr)
                self.assertEqual(bool(ran.stderr), status != 0 or printed == CLOSED, ran.stderr)

    def test_a_reader_is_told_where_and_why(self):
        for lines, told in TOLD:
            with self.subTest(lines=lines):
                ran = subprocess.run([PROGRAM, "replay"], input=SETTINGS + lines, capture_output=True, timeout=60)
                self.assertEqual(ran.stderr.decode().splitlines()[-len(told) :], told)
                self.assertEqual(ran.returncode, 1 if lines else 0)

    def test_a_reader_is_told_what_closed_means(self):
        lines = SETTINGS + b"---\nmark\nreq ann h 00000000\n"
        ran = subprocess.run([PROGRAM, "replay"], input=lines, capture_output=True, timeout=60)
        self.assertEqual((ran.stdout, ran.returncode), (UNSENT + CLOSED, 0))
        told = "kbroker: line 7 of the input: here the broker would close the connection; `kbroker show` tells why\n"
        self.assertEqual(ran.stderr.decode(), told)

    def test_settings_alone_have_no_script(self):
        ran = subprocess.run([PROGRAM, "check"], input=SETTINGS + b"---\n", capture_output=True, timeout=60)
        self.assertEqual((ran.stdout, ran.returncode), (b"settings refused: Toml\n", 1))
        told = "kbroker: settings: a line `---` ends the settings of a script, and belongs to no others"
        self.assertEqual(ran.stderr.decode().splitlines()[-1], told)

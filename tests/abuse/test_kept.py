"""What the broker keeps of a small event, above the bytes of its frame, of one of ten partitions, of a poll that is asked and
answered as the one before, of a commit among polls, and of a short session.

Of an event it is the growth of the peak of memory from FEW events to MANY, less the event's line in the script, which `replay`
holds too, and less the event's frame. FEW are so many that the peak is the program's, and not that of the process that starts
it. Of the others it is the growth of a server's memory. No contract speaks of it: a body that kept a caller, a reply or a list anew
for each event would be proved.
"""

import struct
import unittest

from kbroker_testing.broker import ClockedKbroker
from kbroker_testing.codes import Code
from kbroker_testing.protocol import batch, in_partition, logged_in, request_frame, response_frame
from tests.support import OF_ROOT, OF_SUPER, needs_proved_program, peak_of, script_line, topic

FEW, MANY = 100_000, 200_000
TEN = range(10)
SETTINGS = OF_SUPER + "trail_limit = 1000000\n" + topic("t") + topic("u", len(TEN))
PLACE = ("t", 0)

PRODUCE = script_line("Produce", acks=1, topics=in_partition(PLACE, records=batch([b"a"])))
FETCH = script_line("Fetch", isolation=0, max_bytes=1 << 20, topics=in_partition(PLACE, offset=0, max_bytes=100))
EVENTS = {
    "a tick": "tick 1\n",
    "a marker step": "mark\n",
    "a Metadata of one topic": script_line("Metadata", topics=["t"]),
    "a Fetch of one record": FETCH,
    "a Produce of one record": PRODUCE,
}
# In bytes, above the frame's own.
LIMITS = {
    "a tick": 100,
    "a marker step": 100,
    "a Metadata of one topic": 320,
    "a Fetch of one record": 450,
    "a Produce of one record": 450,
}


def in_ten(**fields):
    """A list of one topic with ten partitions, each of which has these fields."""
    return [{"topic": "u", "partitions": [{"index": it, **fields} for it in TEN]}]


# As these take more, fewer are measured.
FEW_OF_TEN, MANY_OF_TEN = 10_000, 30_000
PRODUCE_TO_TEN = script_line("Produce", acks=1, topics=in_ten(records=batch([b"a"])))
OF_TEN = {
    "a Fetch of ten partitions": script_line("Fetch", isolation=0, max_bytes=1 << 20, topics=in_ten(offset=0, max_bytes=100)),
    "a Produce to ten partitions": PRODUCE_TO_TEN,
}
LIMITS_OF_TEN = {"a Fetch of ten partitions": 2_150, "a Produce to ten partitions": 2_080}

# What a consumer asks again and again, of a log without records and of a group: the fields of a request, and of one like it.
POLLS = {
    "Fetch": [
        {"isolation": 1, "max_bytes": 1 << 20, "topics": in_partition(PLACE, offset=0, max_bytes=most)} for most in (100, 101)
    ],
    "ListOffsets": [{"isolation": 1, "topics": in_partition(PLACE, timestamp=asked)} for asked in (-1, -2)],
    "Heartbeat": [{"group": "g", "generation": asked, "member": "nobody"} for asked in (1, 2)],
}
FIRST_POLLS, MORE_POLLS, AT_ONCE = 30_000, 90_000, 100
LIMIT_OF_A_POLL = 120  # bytes: its entry, its receipt, and what their lists take ahead
# In bytes, its frame among them, where a session asks two such requests in turn.
LIMITS_OTHERWISE = {"Fetch": 340, "ListOffsets": 300, "Heartbeat": 290}

# A consumer that waits, and now and then commits another offset.
COMMITTER = {"group": "g", "generation": -1, "member": "", "retention": -1}
POLLS_OF_A_COMMIT = 49
LIMIT_OF_A_COMMIT = 1_500  # bytes, with the first poll after it, which is kept as well; beside what the other polls keep
FEW_SESSIONS, MORE_SESSIONS = 200, 1_000
LIMIT_OF_A_SESSION = 2_048  # bytes, where it logs in, asks one Metadata and ends


def frame_length(line):
    """The bytes of the frame that a line of a script asks, if it asks one."""
    words = line.split()
    return len(words[-1]) // 2 if words[0] == "req" else 0


def kept_of(line, before=PRODUCE, few=FEW, many=MANY):
    """The bytes of an event's line, of its frame, and what is kept above these. One record stands in each log before."""
    peak_of_few, peak_of_many = (peak_of(SETTINGS + "---\n" + before + line * count) for count in (few, many))
    own = frame_length(line)
    return len(line), own, (peak_of_many - peak_of_few) / (many - few) - len(line) - own


def poll(client, frames, count):
    """Sends so many frames, these in turn and AT_ONCE of them at a time, and gives all that was answered as a set."""
    answers = set()
    for _ in range(count // AT_ONCE):
        client.socket.sendall(b"".join(frames) * (AT_ONCE // len(frames)))
        for _ in range(AT_ONCE):
            (size,) = struct.unpack(">i", client.input.read(4))
            answers.add(client.input.read(size))
    return answers


def kept_of_poll(api, requests):
    """The bytes that a server keeps of a poll where a session asks these requests in turn, and all that was answered, as a set."""
    with ClockedKbroker(OF_ROOT + topic("t"), connections=1) as broker, logged_in(broker.address) as client:
        frames = [request_frame(api, 7, it) for it in requests]
        answers = poll(client, frames, FIRST_POLLS)
        before = broker.memory()
        answers |= poll(client, frames, MORE_POLLS)
        return (broker.memory() - before) / MORE_POLLS, answers


def kept_of_commit():
    """The bytes that a server keeps of an OffsetCommit among many polls without records, less what it keeps of polls alone; and all
    that was answered, as a set."""
    (fetch, _) = POLLS["Fetch"]
    fetches = [request_frame("Fetch", 7, fetch)] * POLLS_OF_A_COMMIT
    commits = [
        request_frame("OffsetCommit", 7, {**COMMITTER, "topics": in_partition(PLACE, offset=offset, metadata="")})
        for offset in (1, 2)
    ]
    asked = [*fetches, commits[0], *fetches, commits[1]]
    of_poll, _ = kept_of_poll("Fetch", [fetch])
    with ClockedKbroker(OF_ROOT + topic("t"), connections=1) as broker, logged_in(broker.address) as client:
        answers = poll(client, asked, FIRST_POLLS)
        before = broker.memory()
        answers |= poll(client, asked, MORE_POLLS)
        kept = broker.memory() - before
    count = MORE_POLLS // (POLLS_OF_A_COMMIT + 1)
    return (kept - of_poll * (MORE_POLLS - count)) / count, answers


def kept_of_session():
    """The bytes that a server keeps of a session that logs in, asks the metadata of one topic, and ends. It waits for one more."""
    with ClockedKbroker(OF_ROOT + topic("t"), connections=FEW_SESSIONS + MORE_SESSIONS + 1) as broker:

        def visit(count):
            for _ in range(count):
                with logged_in(broker.address) as client:
                    client.ask("Metadata", topics=["t"])

        visit(FEW_SESSIONS)
        before = broker.memory()
        visit(MORE_SESSIONS)
        return (broker.memory() - before) / MORE_SESSIONS


def copies_in_memory(process, text):
    """How often these bytes stand in the memory that a process may write to."""
    found = 0
    with open(f"/proc/{process.pid}/maps", encoding="utf-8") as maps, open(f"/proc/{process.pid}/mem", "rb", 0) as memory:
        for line in maps:
            place, rights, *_ = line.split()
            if rights.startswith("rw"):
                start, end = (int(it, 16) for it in place.split("-"))
                memory.seek(start)
                found += memory.read(end - start).count(text)
    return found


@needs_proved_program("its memory is measured, and with checks it takes more, and a quarter of an hour")
class Kept(unittest.TestCase):
    def test_small_events_keep_little(self):
        for name, line in EVENTS.items():
            with self.subTest(name):
                _, _, kept = kept_of(line)
                self.assertLess(kept, LIMITS[name])
                self.assertGreater(kept, 40)  # an entry: else it isn't the event that is measured

    def test_events_of_ten_partitions_keep_little(self):
        for name, line in OF_TEN.items():
            with self.subTest(name):
                _, _, kept = kept_of(line, PRODUCE_TO_TEN, FEW_OF_TEN, MANY_OF_TEN)
                self.assertLess(kept, LIMITS_OF_TEN[name])
                self.assertGreater(kept, 40 * len(TEN))  # an answer for each

    def test_a_poll_that_is_answered_as_before_keeps_an_entry(self):
        for api, (request, _) in POLLS.items():
            with self.subTest(api):
                kept, answers = kept_of_poll(api, [request])
                self.assertLess(kept, LIMIT_OF_A_POLL)
                self.assertEqual(len(answers), 1)

    def test_a_poll_that_is_asked_otherwise_keeps_little(self):
        for api, requests in POLLS.items():
            with self.subTest(api):
                kept, _ = kept_of_poll(api, requests)
                self.assertLess(kept, LIMITS_OTHERWISE[api])
                self.assertGreater(kept, LIMIT_OF_A_POLL)  # both are kept: else it isn't two requests that are measured

    def test_a_request_among_polls_keeps_none_of_them(self):
        kept, answers = kept_of_commit()
        self.assertLess(kept, LIMIT_OF_A_COMMIT)
        self.assertEqual(len(answers), 2)
        self.assertIn(response_frame("OffsetCommit", 7, {"topics": in_partition(PLACE, error=Code.NONE)})[4:], answers)

    def test_a_short_session_keeps_little(self):
        self.assertLess(kept_of_session(), LIMIT_OF_A_SESSION)

    def test_the_trail_keeps_no_password(self):
        """A login's bytes go back before the session asks anything: so what is left of many is what was freed last. The server is
        looked at while it waits for one more."""
        with ClockedKbroker(OF_ROOT + topic("t"), connections=FEW_SESSIONS + 1) as broker:
            for _ in range(FEW_SESSIONS):
                with logged_in(broker.address) as client:
                    client.ask("Metadata", topics=["t"])
            self.assertGreater(copies_in_memory(broker.process, b"User:root"), 0)  # else nothing is found
            self.assertLess(copies_in_memory(broker.process, b"\0root\0toor"), FEW_SESSIONS // 4)


if __name__ == "__main__":
    unittest.main()

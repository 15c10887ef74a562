"""Refuses each allocation in turn of a core that is handed events: at once, by `Core::run`, and one by one.

Whatever is refused, the receipts are a front of those of the whole run, the stop is allocation failure, and the trail has just the
entries of these receipts. The event that was stopped, handed in once more, is answered as in the whole run where it only
reads, and where it was not begun since there was no room for the receipts; after any other the core is down. The
scripts are a transaction with what is read of it, and those of examples/.
"""

import re

from kbroker_testing.acl_model import Entry, Kind, Operation, Pattern, Permission
from kbroker_testing.protocol import batch, request_frame
from program import ROOT
from tests.models.frames import NoRequest, asked_by
from tests.refused_memory import refusing
from tests.support import OF_ROOT, of_b, topic

RECEIPT = re.compile(r"\d+ [0-9a-f]*")
FEWEST = 1  # allocations
READING = ("Metadata", "Fetch", "ListOffsets", "OffsetFetch", "FindCoordinator", "DescribeAcls", "ApiVersions")


class Script:
    """Settings and events: each is a line, and the api that it asks, or None."""

    def __init__(self, name, settings, events):
        self.name, self.apis = name, [api for _, api in events]
        self.text = f"{settings}---\n" + "".join(f"{line}\n" for line, _ in events)

    def reads(self, place):
        return self.apis[place] in READING


def of_transaction():
    """A transaction, what is read of it while it is open and after its marker, and a binding."""
    pair = {"producer": 0, "epoch": 0}
    who = {"transactional_id": "t", **pair}
    sent = of_b(records=batch([b"one"], **pair, sequence=0, transactional=True))
    fetched = {"topics": of_b(offset=0, max_bytes=1000)}
    binding = Entry("b", Pattern.LITERAL, Kind.Topic, "User:ann", "*", Operation.READ, Permission.ALLOW)._asdict()
    asked = [
        ("InitProducerId", {"transactional_id": "t", "timeout": 60_000}),
        ("AddPartitionsToTxn", {**who, "topics": [{"topic": "b", "partitions": [0]}]}),
        ("Produce", {"transactional_id": "t", "topics": sent}),
        ("Fetch", fetched),
        ("EndTxn", {**who, "committed": True}),
        None,
        ("Metadata", {"topics": None}),
        ("CreateAcls", {"creations": [binding]}),
        ("Fetch", fetched),
    ]
    events = [event(*it) if it else ("mark", None) for it in asked]
    return Script("a transaction", OF_ROOT + topic("b"), events)


def event(api, fields):
    """A super user's request."""
    return f"root 10.0.0.5 {request_frame(api, 0, fields)[4:].hex()}", api


def of_example(file):
    """The events of an example, without what is no request."""
    settings, _, lines = file.read_text().partition("---\n")
    events = []
    for line in lines.splitlines():
        word, _, rest = line.partition(" ")
        if word != "req":
            events.append((line, None))
            continue
        user, host, frame = rest.split(" ")
        try:
            api, _ = asked_by(bytes.fromhex(frame)[4:])
        except NoRequest:
            continue
        if api:
            events.append((f"{user} {host} {frame[8:]}", api))
    return Script(file.stem, settings, events)


class Run(refusing.Run):
    """The program over a script, in which an allocation is refused, or none."""

    def __init__(self, environment, script, way):
        super().__init__(environment, way, script.text)
        lines = self.text.splitlines()
        count = next((at for at, it in enumerate(lines) if not RECEIPT.fullmatch(it)), len(lines))
        self.receipts, self.after = lines[:count], lines[count:]


def came_of(script, way, run, whole):
    """What came of a refused allocation, or None where that must not be."""
    if outside := run.outside(whole):
        return outside
    count = len(run.receipts)
    is_front = run.status == 0 and run.receipts == whole.receipts[:count] and count < len(whole.receipts)
    if not is_front or run.after[:2] != ["stop 1", f"trail {count}"] or len(run.after) != 3:
        return None
    if run.after[2] == whole.receipts[count]:
        return "answered" if script.reads(count) else "no room" if way == "run" and count == 0 else None
    return "down" if run.after[2] == "stop 3" and not script.reads(count) else None


@refusing.needs_refused_runs
class RefusedRuns(refusing.RefusingCase):
    def refuse_each(self, script, way):
        """Refuses each allocation in turn, and returns what came of them."""
        whole = Run(self.environment(0), script, way)
        self.assertEqual((whole.status, len(whole.receipts)), (0, len(script.apis)), vars(whole))
        count, seen, faults = self.counted(whole.told, FEWEST), [], []
        for at, run in self.each_refused(count, lambda it: Run(self.environment(it), script, way)):
            seen.append(came_of(script, way, run, whole))
            faults += [f"allocation {at} of {count}: {vars(run)}"] * (seen[-1] is None)
        self.assert_no_faults(faults)
        self.assertLessEqual(seen.count("no room"), 1)
        return seen

    def test_scripts(self):
        scripts = [of_transaction(), *map(of_example, sorted((ROOT / "examples").glob("*.txt")))]
        seen = []
        for script in scripts:
            for way in ("run", "step"):
                with self.subTest(script=script.name, way=way):
                    seen += self.refuse_each(script, way)
        for it in ("answered", "down", "no room"):
            with self.subTest(came=it):
                self.assertIn(it, seen)

"""What the broker keeps: of a small event, by `kbroker replay`, and of polls and the bytes that clients produce and fetch, by `serve`.

An event's bytes are the growth of the peak of memory from some events to twice as many (`tests/abuse/test_kept.py`), less its
line of the script, which `replay` holds as well, and less the frame's own bytes. A poll's are the growth of a server's memory while
a client asks again and again, the same or two in turn. What `serve` keeps of large batches is the peak of its memory after a
client's run, less that before, divided by the bytes that the client produced or fetched.
"""

import subprocess
import sys
from pathlib import Path

sys.path[:0] = [str(Path(__file__).resolve().parent.parent)]

from tests.abuse.test_kept import (  # noqa: E402
    EVENTS,
    FEW_OF_TEN,
    MANY_OF_TEN,
    OF_TEN,
    POLLS,
    PRODUCE_TO_TEN,
    kept_of,
    kept_of_commit,
    kept_of_poll,
    kept_of_session,
)
from tests.support import OF_ROOT, topic  # noqa: E402

from kbroker_testing.broker import ClockedKbroker  # noqa: E402

PRODUCED, FETCHED = 400_000_000, 1_000_000_000
FETCH_STANDS_ON = 4 << 20  # bytes that the client produces before it fetches
SIZES = (1_000_000, 16_384)


def small_events():
    """A table of small events, and of those of ten partitions."""
    print("| an event | its line | its frame | kept above these |\n|---|--:|--:|--:|")
    kept = {name: kept_of(line) for name, line in EVENTS.items()}
    kept |= {name: kept_of(line, PRODUCE_TO_TEN, FEW_OF_TEN, MANY_OF_TEN) for name, line in OF_TEN.items()}
    for name, (line_bytes, own, above) in kept.items():
        print(f"| {name} | {line_bytes} | {own} | {above:.0f} |")


def polls():
    """A table of polls without records: where a session asks as before, and where it asks two in turn. And what a commit among
    polls keeps, and a short session."""
    print("\n| a poll | kept, asked as before | asked otherwise |\n|---|--:|--:|")
    for api, requests in POLLS.items():
        (as_before, _), (otherwise, _) = kept_of_poll(api, requests[:1]), kept_of_poll(api, requests)
        print(f"| {api} | {as_before:.0f} | {otherwise:.0f} |")
    of_commit, _ = kept_of_commit()
    print(f"\nan OffsetCommit among polls: {of_commit:.0f}, a short session: {kept_of_session():.0f}")


def served(client, *words):
    """What a client's run adds to the peak of a broker of its own."""
    with ClockedKbroker(OF_ROOT + topic("b"), connections=2) as broker:
        before = broker.peak_memory()
        subprocess.run([client, broker.address, "root", "toor", *words], check=True, capture_output=True)
        return broker.peak_memory() - before


def large_batches(client):
    """A table of what is kept of a byte that is produced or fetched."""
    print("\n| batches of | kept of a byte produced | of a byte fetched |\n|---|--:|--:|")
    for size in SIZES:
        produced = served(client, "produce", "plain", str(size), str(PRODUCED)) / PRODUCED
        first = served(client, "produce", "plain", str(size), str(FETCH_STANDS_ON))
        fetched = (served(client, "fetch", str(size), str(FETCHED)) - first) / FETCHED
        print(f"| {size:,} bytes | {produced:.2f} | {fetched:.3f} |")


def main():
    small_events()
    polls()
    large_batches(sys.argv[1])


if __name__ == "__main__":
    main()

#!/usr/bin/env python3
"""What peers and users can cause at most, beside the goals for it: one line of a table for each.

The figures stand in bench/README.md. A line that misses its goal says so, and the exit status is then 1. It takes some
minutes; what of it is short stands in the gate as test_abuse.py beside this file and tests/server.
"""

import os
import struct
import sys
import threading
import time
from concurrent.futures import ThreadPoolExecutor
from pathlib import Path

ROOT = Path(__file__).resolve().parent.parent.parent
sys.path += [str(ROOT), str(ROOT / "bench")]

import latency  # noqa: E402
from tests.abuse.beside import LONGEST, ask_whole  # noqa: E402
from tests.support import COLLIDING, LONGEST_FRAME, OF_ROOT, connect, of_b, topic  # noqa: E402

from kbroker_testing.broker import ClockedKbroker  # noqa: E402
from kbroker_testing.protocol import logged_in, request_frame  # noqa: E402

MILLION = 1_000_000
STRANGERS = 64  # connections that send the longest frame before a login
HOSTILE = 300  # connections that are there before the good client comes
PAUSE = 1.0  # seconds between two bytes of a dripping one
# Milliseconds for each thousand things that a request names: what docs/OPERATING.md tells, and half as much again for noise.
TOLD = 1.5
EACH_MEGABYTE = 150  # milliseconds
ROUNDS = 6  # of a request that is measured
# What ./kbroker sets: large blocks go back to the system.
os.environ |= {"MALLOC_MMAP_THRESHOLD_": "8388608", "MALLOC_TRIM_THRESHOLD_": "16777216"}
REFUSED = {
    64_000: ("OffsetCommit", {"group": LONGEST, "topics": latency.commits("t", range(2_230))}),
    MILLION: ("OffsetCommit", {"group": LONGEST, "topics": latency.commits("t", range(69_000))}),
    MILLION - 1: ("Metadata", {"topics": [LONGEST[2:] + f"{it:02}" for it in range(30)]}),
    MILLION - 2: ("Metadata", {"topics": [f"n{it}" for it in range(126_000)]}),
}


def waits_beside_refusals(most):
    """How long another user waits beside refused frames of up to so many bytes, in milliseconds."""
    named = {it: request for it, request in REFUSED.items() if it <= most}
    return max(latency.measure("nobody", latency.nothing, api, fields)[2] for api, fields in named.values()) * 1000


def waits_for_each_megabyte():
    """How long another user waits beside a request for each MB of its frame, of the largest frames, in milliseconds: of those
    requests that take longer for what they name than the documents tell. Nothing, if none does."""
    untold = {}
    for name, (user, before, count, api, fields) in latency.ROWS.items():
        size, _, waited = latency.measure(user, before, api, fields)
        if size > 64_000 and waited * 1000 / (count / 1000) > TOLD:
            untold[name] = waited * 1000 / (size / MILLION)
    if not untold:
        return 0.0, "none"
    name = max(untold, key=untold.get)
    return untold[name], name


def kept_for_each(api, count, fields):
    """How many bytes the broker keeps for each of so many things that a request names, beside the frame's own bytes. The first of
    these requests isn't counted: the room that it takes for a while may stay with the process, and serves the next ones."""
    with ClockedKbroker(latency.SETTINGS) as running, logged_in(running.address, "root", "r", timeout=600) as broker:
        frame = request_frame(api, 1, fields)
        ask_whole(broker, frame)
        before = running.memory()
        for _ in range(ROUNDS):
            ask_whole(broker, frame)
        return ((running.memory() - before) / ROUNDS - len(frame)) / count


def kept_for_each_thing():
    """The most of these, and what it was."""
    rows = {
        "Metadata of 1,000 partitions, 500 times": ("Metadata", 500, {"topics": ["t"] * 500}),
        "Metadata of 100,000 names": ("Metadata", 100_000, {"topics": [f"n{it}" for it in range(100_000)]}),
        "OffsetCommit of 100,000": ("OffsetCommit", 100_000, {"group": "g", "topics": latency.commits("t", range(1_000)) * 100}),
        "CreateAcls of 50,000": ("CreateAcls", 50_000, {"creations": [latency.creation(it) for it in range(50_000)]}),
    }
    kept = {name: kept_for_each(*row) for name, row in rows.items()}
    name = max(kept, key=kept.get)
    return kept[name], name


def send_longest(address):
    """Sends the longest Produce before a login, and waits for the end of the connection."""
    piece = bytes(1 << 20)
    with connect(address, 300) as peer:
        peer.sendall(struct.pack(">ihhi", LONGEST_FRAME, 0, 3, 1))
        for left in range(LONGEST_FRAME - 8, 0, -len(piece)):
            peer.sendall(piece[:left])
        peer.recv(1)


def kept_before_a_login():
    """How many kB a peer that hasn't logged in makes the broker take at once."""
    patient = ("--frame-within", "300", "--login-within", "300")
    with ClockedKbroker(OF_ROOT, workers=STRANGERS, connections=STRANGERS + 1, more=patient) as broker:
        before = broker.peak_memory()
        with ThreadPoolExecutor(STRANGERS) as pool:
            list(pool.map(send_longest, [broker.address] * STRANGERS))
        return (broker.peak_memory() - before) / STRANGERS / 1000


def collisions():
    """How many times as long groups take whose names collide by keys that everybody knows."""
    settings = OF_ROOT + topic("b")

    def seconds(running, broker, front):
        before = running.processor_seconds()
        for number in range(8_000):
            broker.ask("OffsetCommit", group=f"{front}{number:08}", topics=of_b(offset=number, metadata=""))
        return running.processor_seconds() - before

    with ClockedKbroker(settings) as running, logged_in(running.address) as broker:
        ordinary = min(seconds(running, broker, f"an ordinary name: group{it}") for it in range(2))
        return seconds(running, broker, COLLIDING) / ordinary


def drip(peer, ended):
    """Sends a byte of an announced frame now and then."""
    for byte in struct.pack(">ihhi", 1_000, 18, 0, 1) + bytes(1_000):
        if ended.wait(PAUSE):
            return
        try:
            peer.sendall(bytes([byte]))
        except OSError:
            return


def first_answer_beside_hostile_ones():
    """After how many seconds a good client that comes after silent and dripping connections has its first answer."""
    ended = threading.Event()
    with ClockedKbroker(OF_ROOT, workers=64, connections=HOSTILE + 1) as broker:
        peers = [connect(broker.address) for _ in range(HOSTILE)]
        with ThreadPoolExecutor(HOSTILE) as pool:
            for number, peer in enumerate(peers):
                if number % 2:
                    pool.submit(drip, peer, ended)
            began = time.monotonic()
            with logged_in(broker.address, timeout=300) as good:
                good.ask("Metadata", topics=None)
                took = time.monotonic() - began
            ended.set()
        for peer in peers:
            peer.close()
    return took


# What is measured, its unit, its goal, and by what.
GOALS = (
    ("longest wait of another user beside one without rights, frames of up to 64 kB", "ms", 10, lambda: waits_beside_refusals(64_000)),
    ("the same, frames of up to 1 MB", "ms", 100, lambda: waits_beside_refusals(MILLION)),
    ("the same beside any request that takes longer than docs/OPERATING.md tells, for each MB of its frame", "ms", EACH_MEGABYTE, waits_for_each_megabyte),
    ("kept for each thing that a request names, beside its own bytes", "bytes", 256, kept_for_each_thing),
    ("memory of a peer before its login that sends 100 MB", "kB", 128, kept_before_a_login),
    ("colliding names beside others", "times", 1.2, collisions),
    (f"a good client's first answer, {HOSTILE} hostile connections before it, 64 workers", "s", 12, first_answer_beside_hostile_ones),
)


def main():
    missed = 0
    print("| what | goal | measured | |\n|---|--:|--:|---|", flush=True)
    for name, unit, goal, measure in GOALS:
        found = measure()
        value, of = found if isinstance(found, tuple) else (found, "")
        missed += value > goal
        print(f"| {name} | {goal:,} {unit} | {value:,.1f} {unit} | {of}{' MISSED' * (value > goal)} |", flush=True)
    sys.exit(1 if missed else 0)


if __name__ == "__main__":
    main()

"""Scripts of many Produce requests, and the time and the memory that the program takes for them."""

import resource
import subprocess
import sys
import tempfile
import time

SETTINGS = """node_id = 1
host = "h"
port = 9092
supers = ["User:root"]
[[topic]]
name = "t"
partitions = 1
---
"""

# Produce 3 with acks 1: topic `t`, partition 0, and one batch of 69 bytes with one record, its value `a`
REQUEST = (
    "0000007000000003{correlation:08x}ffffffff00010000753000000001000174000000010000000000000045"
    "0000000000000000000000390000000002{crc}00000000000000000000000000000000000000000000"
    "ffffffffffffffffffffffffffff000000010e00000001026100"
)


def crc32c(text):
    """CRC-32C, bit by bit."""
    remainder = 0xFFFFFFFF
    for byte in text:
        remainder ^= byte
        for _ in range(8):
            remainder = (remainder >> 1) ^ (0x82F63B78 if remainder & 1 else 0)
    return remainder ^ 0xFFFFFFFF


def request(correlation):
    """One request, its frame checked to be as long as it tells."""
    head, tail = REQUEST.format(correlation=correlation, crc="{crc}").split("{crc}")
    frame = head + f"{crc32c(bytes.fromhex(tail)):08x}" + tail
    size = f"{len(frame) // 2 - 4:08x}"
    return size + frame[8:]


def main():
    """Runs each script once, the shortest first."""
    before = 0.0
    for count in (10_000, 20_000, 40_000):
        with tempfile.NamedTemporaryFile("w+") as script:
            script.write(SETTINGS)
            script.writelines(f"req root h {request(number)}\n" for number in range(count))
            script.flush()
            script.seek(0)
            start = time.monotonic()
            run = subprocess.run(
                [sys.argv[1], "replay"], stdin=script, capture_output=True, check=True
            )
            seconds = time.monotonic() - start
        offset = int(run.stdout.split()[-1][-40:-24], 16)
        if offset != count - 1:
            sys.exit(f"the last batch stands at {offset}")
        peak = resource.getrusage(resource.RUSAGE_CHILDREN).ru_maxrss * 1024 // 1_000_000
        growth = f", {seconds / before:.2f} times" if before else ""
        print(f"{count} requests: {seconds:.2f} s{growth}, {peak} MB")
        before = seconds


if __name__ == "__main__":
    main()

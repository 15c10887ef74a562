"""What look-ups cost among few and among four times as many: `kbroker replay` over scripts that this program makes.

Each row is measured at n and at 4n in one run, in processor time. What stands before the work is run alone too, and
taken off, so that a row tells the work itself; the best of three runs counts.
"""

import os
import signal
import subprocess
import sys
import tempfile
import threading
from pathlib import Path

sys.path.append(str(Path(__file__).resolve().parent.parent))

from tests import support  # noqa: E402
from tests.support import COLLIDING, OF_SUPER, script_line as ask  # noqa: E402

from kbroker_testing.acl_model import ANY, Entry, Kind, Pattern  # noqa: E402
from kbroker_testing.protocol import batch, in_partition  # noqa: E402

RUNS = 3
WORK = 20_000
LONGEST = 60  # seconds of a run
PLACE = ("t", 0)
TRAIL_LIMIT = 10_000_000


# ---- scripts


def settings(topics=1, partitions=1, acls=()):
    """Settings with so many topics, `t` the last of them."""
    names = [f"topic{it}" for it in range(topics - 1)] + ["t"]
    lines = [f"{OF_SUPER}trail_limit = {TRAIL_LIMIT}\n", *(support.topic(it, partitions) for it in names)]
    return "".join([*lines, *acls])


def acl(name, principal):
    return support.acl(name=name, principal=f"User:{principal}")


def of_producer(name, producer):
    return {"transactional_id": name, "producer": producer, "epoch": 0}


def init(name):
    return ask("InitProducerId", transactional_id=name, timeout=900_000)


def add(name, producer, indices, topic="t"):
    topics = [{"topic": topic, "partitions": [*indices]}]
    return ask("AddPartitionsToTxn", **of_producer(name, producer), topics=topics)


def end(name, producer, is_commit):
    return ask("EndTxn", **of_producer(name, producer), committed=bool(is_commit))


def produce(place=PLACE, name=None, producer=-1, sequence=-1):
    """A Produce of one record."""
    epoch = 0 if producer >= 0 else -1
    sent = batch([b"a"], producer, epoch, sequence, transactional=name is not None)
    return ask("Produce", transactional_id=name, acks=1, topics=in_partition(place, records=sent))


def fetch(place, offset, isolation=0, max_bytes=1 << 20):
    topics = in_partition(place, offset=offset, max_bytes=max_bytes)
    return ask("Fetch", isolation=isolation, max_bytes=max_bytes, topics=topics)


def commits(offsets, group="g"):
    """An OffsetCommit of a group, of partition 0 of `t` again and again."""
    listed = [{"index": 0, "offset": it, "metadata": ""} for it in offsets]
    return ask("OffsetCommit", group=group, topics=[{"topic": "t", "partitions": listed}])


def fetch_offsets(index=0):
    return ask("OffsetFetch", group="g", topics=[{"topic": "t", "partitions": [index]}])


def stage(name, producer, entries):
    """A TxnOffsetCommit of so many offsets of the group `g`, over the thousand partitions of `t`."""
    listed = [{"index": it % 1000, "offset": it, "metadata": ""} for it in range(entries)]
    topics = [{"topic": "t", "partitions": listed}]
    return ask("TxnOffsetCommit", **of_producer(name, producer), group="g", topics=topics)


def add_group(name, producer):
    return ask("AddOffsetsToTxn", **of_producer(name, producer), group="g")


def acl_filter(name=None, principal=None):
    """A filter over topics, of this literal name and principal, or of any."""
    return Entry(name, Pattern.LITERAL, Kind.Topic, principal, None, ANY, ANY)._asdict()


def describe_acls(name=None, principal=None):
    return ask("DescribeAcls", **acl_filter(name, principal))


def delete_acls(name):
    return ask("DeleteAcls", filters=[acl_filter(name)])


# ---- rows: what stands before the work, the work, and how many look-ups it is


def produce_among_topics(n):
    head = settings(n, 100) + "---\n"
    return head, [produce(("t", 99))] * WORK, WORK


def produce_among_ids(n):
    head = settings() + "---\n" + "".join(init(f"id{it}") for it in range(n))
    head += add(f"id{n - 1}", n - 1, [0])
    return head, [produce(PLACE, f"id{n - 1}", n - 1, it) for it in range(WORK)], WORK


def fetch_after_open(n):
    head = settings() + "---\n" + init("id") + add("id", 0, [0]) + produce(PLACE, "id", 0, 0)
    head += produce() * (n - 1)
    return head, [fetch(PLACE, n - 1, 1, 1000)] * WORK, WORK


def fetch_after_aborted(n):
    head = settings() + "---\n" + init("id")
    for it in range(n):
        head += add("id", 0, [0]) + produce(PLACE, "id", 0, it) + end("id", 0, 0) + "mark\n"
    return head, [fetch(PLACE, 2 * n - 2, 1, 1000)] * WORK, WORK


def fetch_offsets_after_commits(n):
    head = settings() + "---\n" + "".join(commits(range(it, min(it + 1000, n))) for it in range(0, n, 1000))
    return head, [fetch_offsets()] * WORK, WORK


def begin_groups(n, front="an ordinary name: groups"):
    return settings() + "---\n", [commits([it], f"{front}{it:08}") for it in range(n)], n


def begin_colliding_groups(n):
    return begin_groups(n, COLLIDING)


def stage_at_once(n):
    head = settings(1, 1000) + "---\n" + init("id") + add_group("id", 0)
    return head, [stage("id", 0, n)], n


def decide_staged(n):
    head = settings(1, 1000) + "---\n" + init("id") + add_group("id", 0) + stage("id", 0, n)
    return head, [end("id", 0, 1), "mark\n", fetch_offsets(999)], n


def markers_owed(n):
    """Of each transactional id a thousand, or all where there are fewer."""
    each, head = min(n, 1000), settings(1, min(n, 1000)) + "---\n"
    for it in range(n // each):
        head += init(f"id{it}") + add(f"id{it}", it, range(each)) + end(f"id{it}", it, 1)
    return head, ["mark\n"] * n, n


def open_many_names(n):
    return settings(), [acl(f"name{it}", "ann") for it in range(n)] + ["---\n"], n


def open_one_name(n):
    return settings(), [acl("name", f"user{it}") for it in range(n)] + ["---\n"], n


def describe_by_name(n):
    head = settings(acls=[acl(f"name{it}", f"user{it}") for it in range(n)]) + "---\n"
    return head, [describe_acls(f"name{n - 1}")] * WORK, WORK


def describe_all(n):
    head = settings(acls=[acl(f"name{it}", f"user{it}") for it in range(n)]) + "---\n"
    return head, [describe_acls()], n


def describe_one_principal(n):
    head = settings(acls=[acl(f"name{it}", "ann") for it in range(n)]) + "---\n"
    return head, [describe_acls(principal="User:ann")], n


def delete_by_name(n):
    """Of the bindings a thousand are taken out, one by one."""
    head = settings(acls=[acl(f"name{it}", f"user{it}") for it in range(n)]) + "---\n"
    return head, [delete_acls(f"name{it}") for it in range(0, n, n // 1000)], 1000


def describe_one_name(n):
    head = settings(acls=[acl("name", f"user{it}") for it in range(n)]) + "---\n"
    return head, [describe_acls("name")], n


ROWS = [
    ("a Produce among n topics of 100 partitions", produce_among_topics, [10, 100, 250]),
    ("a transactional Produce among n ids", produce_among_ids, [10, 1_000, 25_000]),
    ("a read_committed Fetch at the end of n batches, after an open transaction", fetch_after_open, [1_000, 10_000, 25_000]),
    ("a read_committed Fetch at the end, after n aborted transactions", fetch_after_aborted, [2_500]),
    ("an OffsetFetch after n commits", fetch_offsets_after_commits, [1_000, 10_000, 100_000]),
    ("an OffsetCommit that begins one of n groups", begin_groups, [5_000]),
    ("the same, with names that collide by the default hasher", begin_colliding_groups, [5_000]),
    ("one of n entries of a TxnOffsetCommit", stage_at_once, [1_000, 25_000]),
    ("one of n staged offsets, decided", decide_staged, [1_000, 25_000]),
    ("a marker step with n pending", markers_owed, [250, 1_000, 25_000]),
    ("a binding of n on as many names, read at the opening", open_many_names, [1_000, 25_000]),
    ("a binding of n on one name, read at the opening", open_one_name, [1_000, 25_000]),
    ("a DescribeAcls by one name among n", describe_by_name, [1_000, 25_000]),
    ("one of n bindings on as many names, described", describe_all, [1_000, 25_000]),
    ("one of n bindings on one name, described", describe_one_name, [1_000, 25_000]),
    ("one of n bindings of one principal, described", describe_one_principal, [1_000, 25_000]),
    ("a DeleteAcls of one name among n, which takes it out", delete_by_name, [1_000, 25_000]),
]


# ---- measuring


def run(program, script):
    """Processor seconds, of the best of some runs, and the peak of memory in bytes, of one more; or nothing where a run takes too
    long."""
    best = float("inf")
    with tempfile.NamedTemporaryFile("w+") as text:
        text.write(script)
        text.flush()
        for _ in range(RUNS):
            text.seek(0)
            process = subprocess.Popen([program, "replay"], stdin=text, stdout=subprocess.DEVNULL)
            timer = threading.Timer(LONGEST, process.kill)
            timer.start()
            _, status, usage = os.wait4(process.pid, 0)
            timer.cancel()
            process.returncode = os.waitstatus_to_exitcode(status)
            if process.returncode == -signal.SIGKILL:
                return None
            if process.returncode:
                sys.exit(f"tables: the program ended with {process.returncode}")
            best = min(best, usage.ru_utime + usage.ru_stime)
    return best, support.peak_of(script, program)


def measured(program, row, n):
    """Microseconds for each of the row's look-ups, and the peak of memory; or nothing."""
    head, work, steps = row(n)
    before = run(program, head if "---\n" in head else head + "---\n")
    after = before and run(program, head + "".join(work))
    return after and (max(after[0] - before[0], 0.0) * 1e6 / steps, after[1])


def told(small, large, n):
    """The last columns of a row."""
    times = [f"{it[0]:,.2f} µs" if it else f"above {LONGEST} s in all" for it in (small, large)]
    ratio = f"{large[0] / small[0]:.1f}" if small and large and small[0] else ""
    memory = f"{(large[1] - small[1]) // (3 * n):,}" if small and large else ""
    return [*times, ratio, memory]


def main():
    program = sys.argv[1]
    print("| | n | at n | at 4n | ratio | bytes for one more |\n|---|--:|--:|--:|--:|--:|")
    for name, row, sizes in ROWS:
        for n in sizes:
            small = measured(program, row, n)
            large = small and measured(program, row, 4 * n)
            print("| " + " | ".join([name, f"{n:,}", *told(small, large, n)]) + " |", flush=True)


if __name__ == "__main__":
    main()

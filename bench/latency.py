"""How long another user waits beside one large request: each step is answered while all others wait.

Each row is asked three times in a broker of its own, by `root`, who may do everything, or by `nobody`, who may do nothing,
while `shop` asks for the Metadata of one topic as fast as it can. What is told is the longest wait of `shop`.
"""

import sys
from pathlib import Path

sys.path.append(str(Path(__file__).resolve().parent.parent))

from tests.abuse.beside import LONGEST, beside_another  # noqa: E402
from tests.support import TOP, acl, topic, user  # noqa: E402

from kbroker_testing.acl_model import OPEN, Entry, Kind, Operation, Pattern, Permission  # noqa: E402
from kbroker_testing.broker import ClockedKbroker  # noqa: E402
from kbroker_testing.protocol import batch, logged_in, request_frame  # noqa: E402

MANY = 100_000
ROUNDS = 3
TWENTY = [f"u{it}" for it in range(20)]
USERS = "".join(user(it, it[0]) for it in ("root", "nobody", "shop"))
SETTINGS = (
    TOP
    + 'supers = ["User:root"]\ntrail_limit = 10000000\n'
    + USERS
    + topic("shop-orders")
    + topic("t", 1_000)
    + "".join(topic(it, 1_000) for it in TWENTY)
    + acl(name="shop-", principal="User:shop", operation="ALL", pattern="PREFIXED")
)


def creation(number):
    """A binding that nobody asks for."""
    binding = Entry(f"topic-{number}", Pattern.LITERAL, Kind.Topic, "User:ann", "*", Operation.READ, Permission.ALLOW)
    return binding._asdict()


def picking(name):
    """A filter for the topics' bindings of this name, or of any."""
    return OPEN._replace(kind=Kind.Topic, name=name)._asdict()


def partitions(name, indices, **more):
    return [{"topic": name, "partitions": [{"index": it, **more} for it in indices]}]


def commits(name, indices, **more):
    return partitions(name, indices, offset=0, metadata=None, **more)


def begins(broker):
    """A producer id for `x`."""
    return {"transactional_id": "x", **{it: broker.ask("InitProducerId", transactional_id="x", timeout=900_000)[it] for it in ("producer", "epoch")}}


def all_of_twenty():
    """The 20,000 partitions of twenty topics."""
    return [{"topic": it, "partitions": [*range(1_000)]} for it in TWENTY]


def adds(broker):
    """A producer id for `x`, with 20,000 partitions in its transaction."""
    pair = begins(broker)
    broker.ask("AddPartitionsToTxn", **pair, topics=all_of_twenty())
    return pair


def binds(broker):
    """So many bindings."""
    broker.ask("CreateAcls", creations=[creation(it) for it in range(MANY)])
    return {}


def nothing(_):
    return {}


# What is asked by whom, after what, and how many things each request names.
ROWS = {
    "OffsetCommit of 1,000, group of 32,767 bytes, refused": ("nobody", nothing, 1_000, "OffsetCommit", {"group": LONGEST, "topics": commits("t", range(1_000))}),
    "Metadata of 20 names of 32,767 bytes, refused": ("nobody", nothing, 20, "Metadata", {"topics": [LONGEST[2:] + f"{it:02}" for it in range(20)]}),
    "Metadata of 100,000 names, refused": ("nobody", nothing, MANY, "Metadata", {"topics": [f"n{it}" for it in range(MANY)]}),
    "Metadata of 100,000 names": ("root", nothing, MANY, "Metadata", {"topics": [f"n{it}" for it in range(MANY)]}),
    "Metadata of 1,000 partitions, 500 times": ("root", nothing, 500, "Metadata", {"topics": ["t"] * 500}),
    "OffsetCommit of 100,000": ("root", nothing, MANY, "OffsetCommit", {"group": "g", "topics": commits("t", range(1_000)) * 100}),
    "TxnOffsetCommit of 100,000": ("root", begins, MANY, "TxnOffsetCommit", {"group": "g", "instance": None, "topics": commits("t", range(1_000), leader_epoch=-1) * 100}),
    "AddPartitionsToTxn of 20,000": ("root", begins, 20_000, "AddPartitionsToTxn", {"topics": all_of_twenty()}),
    "EndTxn of 20,000 partitions": ("root", adds, 20_000, "EndTxn", {"committed": True}),
    "Produce of 100,000 batches": ("root", nothing, MANY, "Produce", {"transactional_id": None, "topics": partitions("t", range(1_000), records=batch([b"v"])) * 100}),
    "CreateAcls of 100,000": ("root", nothing, MANY, "CreateAcls", {"creations": [creation(it) for it in range(MANY)]}),
    "DescribeAcls of 100,000": ("root", binds, MANY, "DescribeAcls", picking(None)),
    "DeleteAcls, 200 filters with a name": ("root", binds, 200, "DeleteAcls", {"filters": [picking(f"other-{it}") for it in range(200)]}),
    "DeleteAcls, 20 filters without a name, of 100,000": ("root", binds, 20, "DeleteAcls", {"filters": [{**picking(None), "principal": "User:bob"}] * 20}),
}


def measure(who, before, api, fields):
    """The bytes of the frame, how long it takes at most, and how long another user waits at most, in seconds."""
    with ClockedKbroker(SETTINGS, connections=2) as running, logged_in(running.address, who, who[0], timeout=600) as broker:
        frame = request_frame(api, 1, {**before(broker), **fields})
        _, took, waited = beside_another(running.address, broker, [frame] * ROUNDS)
    return len(frame), took, waited


def main():
    print("| request | frame | it takes | another user waits | for each thousand |\n|---|--:|--:|--:|--:|")
    for name, (who, before, count, api, fields) in ROWS.items():
        size, took, waited = measure(who, before, api, fields)
        print(f"| {name} | {size / 1000:,.0f} kB | {took * 1000:.0f} ms | {waited * 1000:.0f} ms | {waited / count * 1e6:.1f} ms |", flush=True)


if __name__ == "__main__":
    main()

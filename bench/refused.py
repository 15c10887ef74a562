"""What a refused part of a request costs beside a served one, api by api.

The same frames are sent by `root`, a super user, by `granted`, whom bindings allow everything, and by `nobody`, who may do nothing,
each in a broker of its own. What is told is the broker's processor time for each part that a request names, from its first byte to the
last of its answer, and how many times what `granted` takes `nobody` takes.
"""

import struct
import sys
from pathlib import Path

sys.path.append(str(Path(__file__).resolve().parent.parent))

from latency import SETTINGS, adds, begins, commits, creation, nothing, partitions, picking  # noqa: E402
from tests.abuse.beside import ask_whole  # noqa: E402
from tests.support import acl, user  # noqa: E402

from kbroker_testing.broker import ClockedKbroker  # noqa: E402
from kbroker_testing.codes import Code  # noqa: E402
from kbroker_testing.protocol import batch, logged_in, request_frame, response_of  # noqa: E402

ALL = (("Topic", "*"), ("Group", "*"), ("TransactionalId", "*"), ("Cluster", "kafka-cluster"))
BOUND = [acl(kind, name, "User:granted", operation="ALL") for kind, name in ALL]
THOUSAND = range(1_000)
AT_LEAST = 0.5  # seconds of processor time that are measured: the kernel counts hundredths
PIPELINED = 100  # requests that are sent before their answers are read
ROUNDS = 5  # of so many requests before it is asked how long they took
REFUSED = {
    Code.TOPIC_AUTHORIZATION_FAILED,
    Code.GROUP_AUTHORIZATION_FAILED,
    Code.CLUSTER_AUTHORIZATION_FAILED,
    Code.TRANSACTIONAL_ID_AUTHORIZATION_FAILED,
}


def member(broker):
    """A member of the group `g`, whose rebalance is over."""
    joined = broker.ask("JoinGroup", group="g", protocols=[{"name": "range", "metadata": b""}])
    who = {it: joined[it] for it in ("generation", "member")}
    broker.ask("SyncGroup", group="g", assignments=[], **who)
    return who


# What is asked after what, and how many parts each request names.
ROWS = {
    "Produce of 1,000 batches": (nothing, 1_000, "Produce", {"transactional_id": None, "topics": partitions("t", THOUSAND, records=batch([b"v"]))}),
    "Fetch of 1,000": (nothing, 1_000, "Fetch", {"topics": partitions("t", THOUSAND, offset=0, max_bytes=100)}),
    "ListOffsets of 1,000": (nothing, 1_000, "ListOffsets", {"topics": partitions("t", THOUSAND, timestamp=-1)}),
    "Metadata of one topic, 1,000 times": (nothing, 1_000, "Metadata", {"topics": ["shop-orders"] * 1_000}),
    "OffsetCommit of 1,000": (nothing, 1_000, "OffsetCommit", {"group": "g", "topics": commits("t", THOUSAND)}),
    "OffsetFetch of 1,000": (nothing, 1_000, "OffsetFetch", {"group": "g", "topics": [{"topic": "t", "partitions": [*THOUSAND]}]}),
    "FindCoordinator": (nothing, 1, "FindCoordinator", {"key": "g"}),
    "Heartbeat": (member, 1, "Heartbeat", {"group": "g"}),
    "InitProducerId": (nothing, 1, "InitProducerId", {"transactional_id": "x"}),
    "AddPartitionsToTxn of 1,000": (begins, 1_000, "AddPartitionsToTxn", {"topics": [{"topic": "t", "partitions": [*THOUSAND]}]}),
    "AddOffsetsToTxn": (begins, 1, "AddOffsetsToTxn", {"group": "g"}),
    "TxnOffsetCommit of 1,000": (begins, 1_000, "TxnOffsetCommit", {"group": "g", "instance": None, "topics": commits("t", THOUSAND, leader_epoch=-1)}),
    "EndTxn": (adds, 1, "EndTxn", {"committed": True}),
    "CreateAcls of 1,000": (nothing, 1_000, "CreateAcls", {"creations": [creation(it) for it in THOUSAND]}),
    "DescribeAcls of one name": (nothing, 1, "DescribeAcls", picking("t")),
    "DeleteAcls of 1,000 names": (nothing, 1_000, "DeleteAcls", {"filters": [picking(f"t{it}") for it in THOUSAND]}),
}


def errors_of(value):
    """Each error that an answer tells."""
    if isinstance(value, list):
        return {code for it in value for code in errors_of(it)}
    if isinstance(value, dict):
        return {value["error"]} if "error" in value else {code for it in value.values() for code in errors_of(it)}
    return set()


def ask_many(broker, frame, count):
    """Asks the same so many times, and reads the answers afterwards."""
    broker.socket.sendall(frame * count)
    for _ in range(count):
        broker.input.read(struct.unpack(">i", broker.input.read(4))[0])


def cost(who, fields, api, parts):
    """The broker's processor time for each part, in microseconds, and the errors that are told."""
    settings = "".join([SETTINGS, user("granted", "g"), *BOUND])
    with ClockedKbroker(settings) as running, logged_in(running.address, who, who[0], timeout=600) as broker:
        frame = request_frame(api, 1, fields(broker))
        errors = errors_of(response_of(api, ask_whole(broker, frame))[1])
        count, asked, before = PIPELINED if parts == 1 else 1, 0, running.processor_seconds()
        while (took := running.processor_seconds() - before) < AT_LEAST:
            for _ in range(ROUNDS):
                ask_many(broker, frame, count)
            asked += ROUNDS * count
    return took / asked / parts * 1e6, errors


def measure(before, parts, api, fields):
    """What a part costs that a super user is served, one that bindings allow, and a refused one that is asked with the same words."""
    asked = {}

    def served(broker):
        asked.update({**before(broker), **fields})
        return asked

    costs = []
    for who in ("root", "granted"):
        took, errors = cost(who, served, api, parts)
        if errors & REFUSED:
            raise AssertionError(f"{api} is refused to {who}: {errors}")
        costs.append(took)
    refused_cost, errors = cost("nobody", lambda _: asked, api, parts)
    if not errors or errors - REFUSED:
        raise AssertionError(f"{api} isn't refused to nobody: {errors}")
    return *costs, refused_cost


def main():
    print("| request | super user | by bindings | refused | refused / by bindings |\n|---|--:|--:|--:|--:|")
    for name, row in ROWS.items():
        of_super, bound, refused = measure(*row)
        print(f"| {name} | {of_super:.2f} µs | {bound:.2f} µs | {refused:.2f} µs | {refused / bound:.2f} |", flush=True)


if __name__ == "__main__":
    main()

"""The apis that are served, in each version that is: what is asked and answered, as the protocol's guide has it."""

import re
from typing import Any, Union

# A kind of value: a word, as `i32`, a list of items of one kind, or fields.
FieldKind = Union[str, tuple[str, "FieldKind"], "FieldSchema"]
# Fields, each with its name, its kind, and whether it may be null.
FieldSchema = list[tuple[str, FieldKind, bool]]

FILTER = "kind i8, name s?, pattern i8, principal s?, host s?, operation i8, permission i8"
BINDING = "kind i8, name s, pattern i8, principal s, host s, operation i8, permission i8"
OF_PARTITIONS = "topics [topic s, partitions [index i32, error i16]]"
OF_PRODUCER = "transactional_id s, producer i64, epoch i16"
ENDING = OF_PRODUCER + ", committed bool"
ENDED = "throttle i32, error i16"

# Each api, EndTxn in each of its versions (with its number after the name from 1 on): key and version, whether it is
# flexible, and what is asked and answered. `s` is a text, `b` bytes, `i8` to `i64` numbers, `bool` a truth, `[..]` a list;
# with `?` it may be null. https://kafka.apache.org/protocol.html
APIS: dict[str, tuple[int, int, bool, str, str]] = {
    "Produce": (
        0, 3, False,
        "transactional_id s?, acks i16, timeout i32, topics [topic s, partitions [index i32, records b?]]",
        "topics [topic s, partitions [index i32, error i16, base_offset i64, log_append_time i64]], throttle i32",
    ),
    "Fetch": (
        1, 4, False,
        "replica i32, max_wait i32, min_bytes i32, max_bytes i32, isolation i8,"
        " topics [topic s, partitions [index i32, offset i64, max_bytes i32]]",
        "throttle i32, topics [topic s, partitions [index i32, error i16, high_watermark i64, last_stable_offset i64,"
        " aborted [producer i64, first_offset i64]?, records b]]",
    ),
    "ListOffsets": (
        2, 2, False,
        "replica i32, isolation i8, topics [topic s, partitions [index i32, timestamp i64]]",
        "throttle i32, topics [topic s, partitions [index i32, error i16, timestamp i64, offset i64]]",
    ),
    "Metadata": (
        3, 1, False,
        "topics [s]?",
        "brokers [node i32, host s, port i32, rack s?], controller i32, topics [error i16, topic s, internal bool,"
        " partitions [error i16, index i32, leader i32, replicas [i32], in_sync [i32]]]",
    ),
    "OffsetCommit": (
        8, 2, False,
        "group s, generation i32, member s, retention i64,"
        " topics [topic s, partitions [index i32, offset i64, metadata s?]]",
        OF_PARTITIONS,
    ),
    "OffsetFetch": (
        9, 7, True,
        "group s, topics [topic s, partitions [i32]]?, require_stable bool",
        "throttle i32, topics [topic s, partitions [index i32, offset i64, leader_epoch i32, metadata s?, error i16]],"
        " error i16",
    ),
    "FindCoordinator": (
        10, 1, False,
        "key s, key_type i8",
        "throttle i32, error i16, message s?, node i32, host s, port i32",
    ),
    "JoinGroup": (
        11, 2, False,
        "group s, session_timeout i32, rebalance_timeout i32, member s, protocol_type s,"
        " protocols [name s, metadata b]",
        "throttle i32, error i16, generation i32, protocol s, leader s, member s, members [member s, metadata b]",
    ),
    "Heartbeat": (12, 1, False, "group s, generation i32, member s", "throttle i32, error i16"),
    "LeaveGroup": (13, 1, False, "group s, member s", "throttle i32, error i16"),
    "SyncGroup": (
        14, 1, False,
        "group s, generation i32, member s, assignments [member s, assignment b]",
        "throttle i32, error i16, assignment b",
    ),
    "SaslHandshake": (17, 1, False, "mechanism s", "error i16, mechanisms [s]"),
    "ApiVersions": (18, 0, False, "", "error i16, apis [key i16, min i16, max i16]"),
    "InitProducerId": (
        22, 0, False, "transactional_id s?, timeout i32", "throttle i32, error i16, producer i64, epoch i16",
    ),
    "AddPartitionsToTxn": (
        24, 0, False, OF_PRODUCER + ", topics [topic s, partitions [i32]]", "throttle i32, " + OF_PARTITIONS,
    ),
    "AddOffsetsToTxn": (25, 0, False, OF_PRODUCER + ", group s", "throttle i32, error i16"),
    "EndTxn": (26, 0, False, ENDING, ENDED),
    "EndTxn1": (26, 1, False, ENDING, ENDED),
    "EndTxn2": (26, 2, False, ENDING, ENDED),
    "EndTxn3": (26, 3, True, ENDING, ENDED),
    "EndTxn4": (26, 4, True, ENDING, ENDED),
    "EndTxn5": (26, 5, True, ENDING, ENDED + ", producer i64, epoch i16"),
    "TxnOffsetCommit": (
        28, 3, True,
        "transactional_id s, group s, producer i64, epoch i16, generation i32, member s, instance s?,"
        " topics [topic s, partitions [index i32, offset i64, leader_epoch i32, metadata s?]]",
        "throttle i32, " + OF_PARTITIONS,
    ),
    "DescribeAcls": (
        29, 1, False,
        FILTER,
        "throttle i32, error i16, message s?, resources [kind i8, name s, pattern i8,"
        " acls [principal s, host s, operation i8, permission i8]]",
    ),
    "CreateAcls": (
        30, 1, False, f"creations [{BINDING}]", "throttle i32, results [error i16, message s?]",
    ),
    "DeleteAcls": (
        31, 1, False,
        f"filters [{FILTER}]",
        f"throttle i32, results [error i16, message s?, matches [error i16, message s?, {BINDING}]]",
    ),
    "SaslAuthenticate": (36, 0, False, "auth b", "error i16, message s?, auth b"),
}

# What a request says where nothing is given.
DEFAULTS: dict[str, Any] = {
    "replica": -1, "max_wait": 0, "min_bytes": 1, "timeout": 30_000, "acks": -1, "retention": -1, "generation": -1,
    "leader_epoch": -1, "session_timeout": 30_000, "rebalance_timeout": 30_000, "isolation": 0, "key_type": 0,
    "max_bytes": 1 << 20, "protocol_type": "consumer", "member": "", "require_stable": False,
}

TOKEN = re.compile(r"\s*([\[\],?]|[a-z_0-9]+)")


class Schema:
    """Reads a list of fields, each with its name and its kind."""

    def __init__(self, text: str) -> None:
        self.words: list[str] = TOKEN.findall(text)
        self.at = 0

    def read_fields(self) -> FieldSchema:
        """The fields up to the end, or to that of a list."""
        fields: FieldSchema = []
        while self.at < len(self.words) and self.words[self.at] != "]":
            name = self.words[self.at]
            self.at += 1
            fields.append((name, *self.read_kind()))
            if self.at < len(self.words) and self.words[self.at] == ",":
                self.at += 1
        return fields

    def read_items(self) -> FieldKind:
        """The kind of a list's items: one kind without a name, or fields."""
        if self.words[self.at + 1] == "]":
            self.at += 1
            return self.words[self.at - 1]
        return self.read_fields()

    def read_kind(self) -> tuple[FieldKind, bool]:
        """A kind, and whether a value of it may be null."""
        kind: FieldKind = self.words[self.at]
        self.at += 1
        if kind == "[":
            kind = ("list", self.read_items())
            self.at += 1
        may_be_null = self.at < len(self.words) and self.words[self.at] == "?"
        self.at += may_be_null
        return kind, may_be_null


# What each api is asked and answered.
SCHEMAS: dict[str, tuple[FieldSchema, FieldSchema]] = {
    name: (Schema(asked).read_fields(), Schema(answered).read_fields()) for name, (_, _, _, asked, answered) in APIS.items()
}

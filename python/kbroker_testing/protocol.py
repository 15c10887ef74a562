"""A client of the broker in the protocol of Kafka, as its guide has it: every api that is served, in each version that is.

As a program it asks one thing and prints the answer as JSON:

    python3 -m kbroker_testing.protocol 127.0.0.1:9092 ann secret Metadata '{"topics": ["orders"]}'

As a module it has `Connection`, which logs in and asks, `batch` and `batches_of` for records, and `committed`, which
filters what a read_committed fetch answers as consumers do. What each api is asked and answered stands in `apis`.
"""

import json
import reprlib
import socket
import struct
import sys
from collections.abc import Collection, Iterable, Iterator, Mapping, Sequence
from enum import IntEnum
from types import TracebackType
from typing import Any, NamedTuple

from kbroker_testing.acl_model import Kind, Operation, Pattern, Permission
from kbroker_testing.apis import APIS, DEFAULTS, SCHEMAS, FieldKind, FieldSchema
from kbroker_testing.codes import Code, named

# The fields of a request or an answer, by their names.
Fields = dict[str, Any]

# What the program calls itself.
NAME = "kbroker_testing"

# An answer that is no longer than this is printed in one line.
LINE = 240

TIMEOUT = 30  # seconds that a connection, and each answer, is waited for

NUMBERS = {"i8": ">b", "i16": ">h", "i32": ">i", "i64": ">q"}
LONGEST_TEXT = (1 << 15) - 1  # bytes, where an api isn't flexible


def uvarint(number: int) -> bytes:
    """An unsigned number, seven bits a byte."""
    out = bytearray()
    while number > 127:
        out.append(number & 127 | 128)
        number >>= 7
    return bytes(out) + bytes([number])


def zigzag(number: int) -> bytes:
    """A signed number, seven bits a byte."""
    return uvarint(number << 1 if number >= 0 else (-number << 1) - 1)


def misfit(place: str, value: object, wanted: str) -> ValueError:
    """That a value isn't what stands at this place of a request."""
    return ValueError(f"{place} is {reprlib.repr(value)}, and not {wanted}")


def write_length(length: int | None, kind: str, compact: bool) -> bytes:
    """The length before a text, bytes or a list; None for null."""
    if compact:
        return uvarint(0 if length is None else length + 1)
    return struct.pack(">h" if kind == "s" else ">i", -1 if length is None else length)


def write_number(kind: str, value: object, place: str) -> bytes:
    """The bytes of a number."""
    try:
        return struct.pack(NUMBERS[kind], value)
    except struct.error:
        half = 1 << int(kind[1:]) - 1
        raise misfit(place, value, f"a number from {-half} to {half - 1}") from None


def write_text(kind: str, value: object, compact: bool, place: str) -> bytes:
    """A text or bytes, after their length. Each may be given as the other."""
    if value is None:
        return write_length(None, kind, compact)
    data = value.encode() if isinstance(value, str) else value
    if not isinstance(data, (bytes, bytearray, memoryview)):
        raise misfit(place, value, "a text" if kind == "s" else "bytes")
    if kind == "s" and not compact and len(data) > LONGEST_TEXT:
        raise ValueError(f"{place} has {len(data)} bytes, and may have {LONGEST_TEXT}")
    return write_length(len(data), kind, compact) + data


def write_list(kind: FieldKind, value: object, compact: bool, place: str) -> bytes:
    """The items of a list, after their number."""
    if value is None:
        return write_length(None, "list", compact)
    if not isinstance(value, Collection) or isinstance(value, (str, bytes, bytearray, Mapping)):
        raise misfit(place, value, "a list")
    items = b"".join(write(kind, item, compact, f"{place}[{at}]") for at, item in enumerate(value))
    return write_length(len(value), "list", compact) + items


def write_fields(schema: FieldSchema, value: object, compact: bool, place: str = "") -> bytes:
    """The bytes of fields. ValueError where there is one that the schema doesn't have, or one is left out that has no usual value and
    may not be null."""
    if not isinstance(value, Mapping):
        raise misfit(place or "what is asked", value, "a dict of fields")
    inside = f"{place}: " if place else ""
    names = [name for name, *_ in schema]
    if unknown := value.keys() - names:
        raise ValueError(f"{inside}there is no field {min(map(str, unknown))}; those that are: {', '.join(names) or 'none'}")
    parts = []
    for name, kind, may_be_null in schema:
        field = value.get(name, DEFAULTS.get(name))
        if field is None and not may_be_null:
            raise ValueError(f"{inside}the field {name} is missing")
        parts.append(write(kind, field, compact, f"{place}.{name}" if place else name))
    return b"".join(parts) + b"\0" * compact


def write(kind: FieldKind, value: object, compact: bool, place: str = "") -> bytes:
    """The bytes of a value. ValueError where it isn't of its kind, which names its place."""
    if isinstance(kind, list):
        return write_fields(kind, value, compact, place)
    if isinstance(kind, tuple):
        return write_list(kind[1], value, compact, place)
    if kind in NUMBERS:
        return write_number(kind, value, place)
    if kind != "bool":
        return write_text(kind, value, compact, place)
    if value not in (True, False):
        raise misfit(place, value, "True or False")
    return bytes([bool(value)])


class Reader:
    """Takes values off bytes, from the front."""

    def __init__(self, data: bytes) -> None:
        self.data, self.at = data, 0

    def take(self, count: int) -> bytes:
        """So many bytes."""
        if count < 0 or self.at + count > len(self.data):
            raise ValueError("the bytes end inside a value")
        self.at += count
        return self.data[self.at - count : self.at]

    def number(self, form: str) -> int:
        """A number of a form that `struct` has."""
        number: int = struct.unpack(form, self.take(struct.calcsize(form)))[0]
        return number

    def uvarint(self) -> int:
        """An unsigned number, seven bits a byte."""
        number = shift = 0
        while True:
            byte = self.take(1)[0]
            number |= (byte & 127) << shift
            shift += 7
            if byte < 128:
                return number

    def zigzag(self) -> int:
        """A signed number, seven bits a byte."""
        number = self.uvarint()
        return number >> 1 ^ -(number & 1)

    def part(self) -> bytes | None:
        """A part of a record, or None where it is null."""
        length = self.zigzag()
        return None if length < 0 else self.take(length)

    def length(self, kind: str, compact: bool) -> int:
        """The length before a text, bytes or a list, below zero for null."""
        return self.uvarint() - 1 if compact else self.number(">h" if kind == "s" else ">i")

    def read(self, kind: FieldKind, compact: bool) -> Any:
        """A value of a kind."""
        if isinstance(kind, list):
            return self.read_fields(kind, compact)
        if isinstance(kind, tuple):
            count = self.length("list", compact)
            return None if count < 0 else [self.read(kind[1], compact) for _ in range(count)]
        if kind in NUMBERS:
            return self.number(NUMBERS[kind])
        if kind == "bool":
            return self.take(1) != b"\0"
        length = self.length(kind, compact)
        if length < 0:
            return None
        return self.take(length).decode() if kind == "s" else self.take(length)

    def read_fields(self, schema: FieldSchema, compact: bool) -> Fields:
        """Fields, by their names."""
        value = {name: self.read(kind, compact) for name, kind, _ in schema}
        if compact:
            self.skip_tags()
        return value

    def skip_tags(self) -> None:
        """Leaves out the tagged fields, of which there are none that are known."""
        for _ in range(self.uvarint()):
            self.uvarint()
            self.take(self.uvarint())


def is_flexible(api: str) -> bool:
    """Whether an api is of the flexible kind. ValueError where none has this name."""
    if api not in APIS:
        raise ValueError(f"no api {api} is served; those that are: {', '.join(APIS)}")
    return APIS[api][2]


def write_body(api: str, part: int, fields: Mapping[str, Any]) -> bytes:
    """The bytes of what an api is asked, or of what it answers. A ValueError names the api."""
    try:
        return write(SCHEMAS[api][part], fields, is_flexible(api))
    except ValueError as fault:
        raise ValueError(f"{api}: {fault}") from None


def request_frame(api: str, correlation: int, fields: Mapping[str, Any], client: str | None = "kbroker_testing") -> bytes:
    """The frame of a request, with its size field."""
    flexible = is_flexible(api)
    key, version, *_ = APIS[api]
    body = struct.pack(">hhi", key, version, correlation) + write("s", client, False) + b"\0" * flexible + write_body(api, 0, fields)
    return struct.pack(">i", len(body)) + body


def response_frame(api: str, correlation: int, fields: Mapping[str, Any]) -> bytes:
    """The frame of a response, with its size field."""
    body = struct.pack(">i", correlation) + b"\0" * is_flexible(api) + write_body(api, 1, fields)
    return struct.pack(">i", len(body)) + body


def response_of(api: str, frame: bytes) -> tuple[int, Fields]:
    """The correlation id and the fields of a response without its size field."""
    reader, flexible = Reader(frame), is_flexible(api)
    correlation = reader.number(">i")
    if flexible:
        reader.skip_tags()
    fields = reader.read_fields(SCHEMAS[api][1], flexible)
    if reader.at != len(frame):
        raise ValueError("bytes follow the response")
    return correlation, fields


def request_digits(api: str, **fields: Any) -> str:
    """A request's frame in hexadecimal digits, as a script has it."""
    return request_frame(api, 7, fields, client=None).hex()


def in_partition(place: tuple[str, int], **fields: Any) -> list[Fields]:
    """A list of one topic with one partition, which has these fields."""
    topic, index = place
    return [{"topic": topic, "partitions": [{"index": index, **fields}]}]


def partition_of(answer: Mapping[str, Any]) -> Fields:
    """The one partition of an answer."""
    [topic] = answer["topics"]
    [partition] = topic["partitions"]
    found: Fields = partition
    return found


class LoginRefused(Exception):
    """A user's login was answered an error."""


def host_and_port(address: str) -> tuple[str, int]:
    """The two parts of an address."""
    host, _, port = address.rpartition(":")
    if not (host and port.isdecimal() and 0 < int(port) < 1 << 16):
        raise ValueError(f"{address} is no HOST:PORT")
    return host.strip("[]"), int(port)


class Connection:
    """A connection to the broker, from a host of this machine if one is named: requests out, responses in. Each answer is waited for
    so many seconds."""

    def __init__(self, address: str, timeout: float = TIMEOUT, source: str | None = None) -> None:
        self.socket = socket.create_connection(host_and_port(address), timeout, (source, 0) if source else None)
        self.socket.setsockopt(socket.IPPROTO_TCP, socket.TCP_NODELAY, 1)
        self.input, self.correlation = self.socket.makefile("rb"), 0

    def __enter__(self) -> "Connection":
        return self

    def __exit__(self, kind: type[BaseException] | None, fault: BaseException | None, trace: TracebackType | None) -> None:
        self.close()

    def close(self) -> None:
        """Closes it. A second time does nothing."""
        self.input.close()
        self.socket.close()

    def send(self, api: str, **fields: Any) -> int:
        """Sends a request, and gives its correlation id."""
        self.correlation += 1
        self.socket.sendall(request_frame(api, self.correlation, fields))
        return self.correlation

    def read(self, count: int) -> bytes:
        """Waits for so many bytes, and gives them, or fewer where the broker closes the connection before."""
        return self.input.read(count)

    def take(self, count: int) -> bytes:
        """As `read`, but fewer are EOFError."""
        data = self.read(count)
        if len(data) < count:
            raise EOFError("the broker has closed the connection")
        return data

    def receive(self, api: str) -> tuple[int, Fields]:
        """Waits for a response, and gives its correlation id and fields."""
        return response_of(api, self.take(struct.unpack(">i", self.take(4))[0]))

    def ask(self, api: str, **fields: Any) -> Fields:
        """Sends a request and waits for its answer. ValueError where there is no such api, or a field isn't as the api has it."""
        sent = self.send(api, **fields)
        correlation, answer = self.receive(api)
        if correlation != sent:
            raise ValueError(f"request {sent} is answered under the id {correlation}")
        return answer

    def login(self, user: str, password: str) -> int:
        """Logs in by SASL PLAIN, and gives the error code."""
        code: int = self.ask("SaslHandshake", mechanism="PLAIN")["error"]
        if code == Code.NONE:
            code = self.ask("SaslAuthenticate", auth=f"\0{user}\0{password}".encode())["error"]
        return code


def logged_in(
    address: str, user: str = "root", password: str = "toor", timeout: float = TIMEOUT, source: str | None = None
) -> Connection:
    """A connection over which a user has logged in."""
    connection = Connection(address, timeout, source)
    try:
        code = connection.login(user, password)
        if code != Code.NONE:
            raise LoginRefused(f"the login of {user} is answered {named(code)}")
    except BaseException:
        connection.close()
        raise
    return connection


def crc_table() -> list[int]:
    """What each byte adds to a sum."""
    table = []
    for byte in range(256):
        for _ in range(8):
            byte = byte >> 1 ^ 0x82F63B78 * (byte & 1)
        table.append(byte)
    return table


CRC_TABLE = crc_table()


def crc32c(data: bytes) -> int:
    """CRC-32C, by the reflected polynomial 82f63b78."""
    crc = 0xFFFFFFFF
    for byte in data:
        crc = crc >> 8 ^ CRC_TABLE[(crc ^ byte) & 255]
    return crc ^ 0xFFFFFFFF


def record(delta: int, value: bytes | None, key: bytes | None = None) -> bytes:
    """A record without headers."""
    parts = b"\0\0" + zigzag(delta)
    for part in (key, value):
        parts += zigzag(-1) if part is None else zigzag(len(part)) + part
    parts += b"\0"
    return zigzag(len(parts)) + parts


def batch(
    values: Sequence[bytes | None], producer: int = -1, epoch: int = -1, sequence: int = -1, transactional: bool = False
) -> bytes:
    """A record batch in magic 2 of these values, each of which is bytes or None. The producer -1 is none; a producer's batch has the
    sequence number of its first record."""
    if not isinstance(values, Collection) or isinstance(values, (str, bytes, bytearray, Mapping)):
        raise misfit("batch: values", values, "a list of bytes")
    for at, value in enumerate(values):
        if not isinstance(value, (bytes, bytearray, memoryview, type(None))):
            raise misfit(f"batch: values[{at}]", value, "bytes")
    numbers = ("i64", producer, "producer"), ("i16", epoch, "epoch"), ("i32", sequence, "sequence")
    pair = b"".join(write_number(kind, number, f"batch: {name}") for kind, number, name in numbers)
    records = b"".join(record(delta, value) for delta, value in enumerate(values))
    last = len(values) - 1
    summed = struct.pack(">hiqq", 16 * transactional, last, 0, 0) + pair + struct.pack(">i", last + 1) + records
    return struct.pack(">qiibI", 0, len(summed) + 9, 0, 2, crc32c(summed)) + summed


class Record(NamedTuple):
    """A record at an offset. Its key and its value may be null."""

    offset: int
    key: bytes | None
    value: bytes | None


class Batch(NamedTuple):
    """A record batch as it was fetched, with its size in bytes."""

    base: int
    size: int
    attributes: int
    producer: int
    records: tuple[Record, ...]

    @property
    def end(self) -> int:
        """The offset after its last record's."""
        return self.base + len(self.records)

    @property
    def is_transactional(self) -> bool:
        """Whether it belongs to a transaction."""
        return bool(self.attributes & 16)

    @property
    def is_control(self) -> bool:
        """Whether it is a marker."""
        return bool(self.attributes & 32)

    @property
    def commits(self) -> bool:
        """Whether it is a marker that commits: the second number of a control record's key is its kind."""
        return self.is_control and Reader((self.records[0].key or b"")[2:]).number(">h") == 1


def read_batch(reader: Reader) -> Batch:
    """A record batch in magic 2, whose sum has to be right."""
    base, length = reader.number(">q"), reader.number(">i")
    inner = Reader(reader.take(length))
    inner.take(5)
    crc = inner.number(">I")
    if crc != crc32c(inner.data[inner.at :]):
        raise ValueError(f"the batch at {base} has another sum")
    attributes, _, _, _, producer, _, _, count = struct.unpack(">hiqqqhii", inner.take(40))
    records = []
    for _ in range(count):
        inner.uvarint()
        inner.take(1)
        inner.uvarint()
        offset = base + inner.zigzag()
        records.append(Record(offset, inner.part(), inner.part()))
        for _ in range(inner.zigzag()):
            inner.part(), inner.part()
    return Batch(base, length + 12, attributes, producer, tuple(records))


def batches_of(data: bytes) -> list[Batch]:
    """The record batches that a fetch answers."""
    reader, batches = Reader(data), []
    while reader.at < len(data):
        batches.append(read_batch(reader))
    return batches


def without_aborted(batches: Iterable[Batch], aborted: Iterable[Fields] | None) -> list[Record]:
    """The records of batches that are left where a consumer drops what the list of aborted transactions tells (KIP-98):
    a producer's transactional batches, from the one on in which an entry begins, up to the producer's abort marker."""
    listed = sorted(aborted or (), key=lambda it: int(it["first_offset"]), reverse=True)
    dropped: set[int] = set()
    left: list[Record] = []
    for batch in batches:
        while listed and listed[-1]["first_offset"] < batch.end:
            dropped.add(listed.pop()["producer"])
        if batch.is_control:
            dropped -= set() if batch.commits else {batch.producer}
        elif not (batch.is_transactional and batch.producer in dropped):
            left += batch.records
    return left


def committed(partition: Mapping[str, Any], offset: int = 0) -> list[tuple[int, bytes | None]]:
    """The records that a read_committed consumer sees of a partition's answer, from an offset on: pairs of an offset and a value."""
    left = without_aborted(batches_of(partition["records"]), partition["aborted"])
    return [(it.offset, it.value) for it in left if it.offset >= offset]


def dicts_in(value: object) -> Iterator[Fields]:
    """The dicts of a list, if it is one."""
    return (it for it in value if isinstance(it, dict)) if isinstance(value, (list, tuple)) else iter(())


def partitions_of(told: Mapping[str, Any]) -> Iterator[tuple[str, Fields]]:
    """Each partition of a request's or an answer's topics, with its topic's name."""
    for topic in dicts_in(told.get("topics")):
        for partition in dicts_in(topic.get("partitions")):
            yield topic.get("topic", ""), partition


def make_batch(told: Mapping[str, Any]) -> bytes:
    """The batch that is told by the arguments of `batch`, of which the values are texts."""
    more = {"producer", "epoch", "sequence", "transactional"}
    if unknown := told.keys() - more - {"values"}:
        raise ValueError(f"records: there is no field {min(unknown)}; those that are: values, {', '.join(sorted(more))}")
    values = told.get("values")
    if not isinstance(values, list) or not all(isinstance(it, (str, type(None))) for it in values):
        raise misfit("records.values", values, "a list of texts")
    return batch([it if it is None else it.encode() for it in values], **{name: told[name] for name in more & told.keys()})


def make_batches(fields: Fields) -> None:
    """Makes a batch of each partition's records that are told by the arguments of `batch`, as {"values": ["one"]}."""
    for _, partition in partitions_of(fields):
        if isinstance(partition.get("records"), dict):
            partition["records"] = make_batch(partition["records"])


def show_records(fields: Fields, answer: Fields) -> None:
    """Puts the records that a consumer shows, with their offsets, in place of a fetch's bytes."""
    asked = {(name, it.get("index")): it.get("offset", 0) for name, it in partitions_of(fields)}
    for name, partition in partitions_of(answer):
        if isinstance(partition.get("records"), bytes):
            records = committed(partition, asked.get((name, partition["index"]), 0))
            partition["records"] = [[offset, value and value.decode(errors="replace")] for offset, value in records]


def errors_in(answer: object) -> set[int]:
    """The numbers of the errors in an answer."""
    if isinstance(answer, dict):
        found = {it for name, value in answer.items() if name != "error" for it in errors_in(value)}
        return found | ({answer["error"]} if answer.get("error") else set())
    return {it for value in answer for it in errors_in(value)} if isinstance(answer, list) else set()


def words_of(enum: type[IntEnum]) -> str:
    """What the numbers of a field mean."""
    return ", ".join(f"{it.value} {it.name}" for it in enum)


def usage() -> str:
    """How the program is called, and what each api is asked."""
    rows = [f"    {name:<20}{' '.join(api[3].split()) or 'nothing'}" for name, api in APIS.items()]
    acls = {"kind": Kind, "pattern": Pattern, "operation": Operation, "permission": Permission}
    numbers = [f"    {name:<20}{words_of(enum)}" for name, enum in acls.items()]
    return (
        "usage: python3 -m kbroker_testing.protocol HOST:PORT USER PASSWORD API ['JSON']\n\n"
        "Logs in, asks one thing and prints the answer as JSON. What an error is called is said on standard error.\n"
        'JSON is an object of fields, as in \'{"topics": ["orders"]}\'; those that it leaves out are the usual ones, or null.\n\n'
        "The apis and their fields: s is a text, b bytes, i8 to i64 numbers, bool true or false, [..] a list; with ? it\n"
        "may be null. In place of a Produce's records stands what `batch` takes, as in {\"values\": [\"a cup\"]}.\n\n"
        + "\n".join(rows)
        + "\n\nWhat the numbers of ACLs mean; in a filter 1 is any:\n\n"
        + "\n".join(numbers)
    )


def fields_of(api: str, text: str) -> Fields:
    """The fields that a text names, which are those of a request."""
    try:
        fields = json.loads(text)
    except ValueError as fault:
        sys.exit(f"{NAME}: the fields are no JSON: {fault}")
    if not isinstance(fields, dict):
        sys.exit(f"{NAME}: the fields stand in an object, as in " + '{"topics": ["orders"]}')
    try:
        make_batches(fields)
        request_frame(api, 0, fields)
    except ValueError as fault:
        sys.exit(f"{NAME}: {api}: {str(fault).removeprefix(f'{api}: ')}; --help has each field")
    return fields


def answer_to(address: str, user: str, password: str, api: str, fields: Fields) -> Fields:
    """What the broker answers."""
    try:
        connection = Connection(address, TIMEOUT)
    except ValueError as fault:
        sys.exit(f"{NAME}: {fault}")
    except OSError as fault:
        sys.exit(f"{NAME}: nobody answers at {address}: {fault.strerror or fault}")
    with connection as broker:
        code = broker.login(user, password)
        if code != Code.NONE:
            sys.exit(f"{NAME}: the login of {user} is answered {named(code)}")
        return broker.ask(api, **fields)


def main() -> None:
    """Asks what the words of the command line say."""
    if sys.argv[1:] in (["--help"], ["-h"]):
        print(usage())
        return
    if len(sys.argv) not in (5, 6):
        sys.exit(f"{NAME}: the words are HOST:PORT USER PASSWORD API ['JSON'], and --help has each api with its fields")
    address, user, password, api = sys.argv[1:5]
    if api not in APIS:
        sys.exit(f"{NAME}: no api {api} is served; those that are: {', '.join(APIS)}")
    fields = fields_of(api, sys.argv[5] if len(sys.argv) == 6 else "{}")
    try:
        answer = answer_to(address, user, password, api, fields)
    except TimeoutError:
        sys.exit(f"{NAME}: no answer comes within {TIMEOUT} seconds; all workers of the broker may be taken")
    except (EOFError, ConnectionError):
        sys.exit(f"{NAME}: the broker has closed the connection; its standard error says why")
    show_records(fields, answer)
    line = json.dumps(answer, default=lambda data: data.hex())
    print(line if len(line) <= LINE else json.dumps(answer, indent=1, default=lambda data: data.hex()), flush=True)
    for number in sorted(errors_in(answer)):
        print(f"{NAME}: error {named(number)}", file=sys.stderr)


if __name__ == "__main__":
    main()

"""Which frames are requests: a reading of its own, from the protocol's guide, of what the program reads."""

import struct

from kbroker_testing.apis import APIS, SCHEMAS

SERVED = {(key, version): name for name, (key, version, *_) in APIS.items()}
NUMBERS = {"i8": (1, ">b"), "i16": (2, ">h"), "i32": (4, ">i"), "i64": (8, ">q")}


class NoRequest(Exception):
    """The bytes are no request that is served."""


class Reading:
    """Reads a request from left to right, and takes nothing that its schema doesn't allow."""

    def __init__(self, data):
        self.data, self.at = data, 0

    def take(self, count):
        if count > len(self.data) - self.at:
            raise NoRequest("too few bytes")
        self.at += count
        return self.data[self.at - count : self.at]

    def number(self, kind):
        size, form = NUMBERS[kind]
        return struct.unpack(form, self.take(size))[0]

    def uvarint(self):
        """An unsigned number of at most 32 bits in groups of seven, not always as short as could be."""
        number = 0
        for place in range(5):
            byte = self.take(1)[0]
            number |= (byte & 127) << 7 * place
            if byte < 128:
                break
        if byte >= 128 or number >> 32:
            raise NoRequest("a length of more than 32 bits")
        return number

    def length(self, kind, compact, may_be_null):
        """A length, or None for null."""
        length = self.uvarint() - 1 if compact else self.number("i16" if kind == "s" else "i32")
        if length < -1 or length == -1 and not may_be_null:
            raise NoRequest("a length that there is not")
        return None if length == -1 else length

    def value(self, kind, compact, may_be_null=False):
        """Reads a value of a kind, and gives it where it is a number."""
        if isinstance(kind, list):
            for name, of, null in kind:
                value = self.value(of, compact, null)
                if name == "isolation" and value not in (0, 1):
                    raise NoRequest("an isolation level that there is not")
            if compact:
                self.tags()
        elif isinstance(kind, tuple):
            for _ in range(self.length("list", compact, may_be_null) or 0):
                self.value(kind[1], compact)
        elif kind in NUMBERS:
            return self.number(kind)
        elif kind == "bool":
            self.take(1)
        else:
            text = self.take(self.length(kind, compact, may_be_null) or 0)
            if kind == "s":
                self.look_at(text)
        return None

    def look_at(self, text):
        try:
            text.decode()
        except UnicodeDecodeError:
            raise NoRequest("a text that is no UTF-8") from None

    def tags(self):
        for _ in range(self.uvarint()):
            self.uvarint()
            self.take(self.uvarint())


def asked_by(frame):
    """The api and the correlation id of a frame without its size field; no api for ApiVersions in another version."""
    reading = Reading(frame)
    key, version = reading.number("i16"), reading.number("i16")
    api = SERVED.get((key, version))
    if api is None:
        if key == APIS["ApiVersions"][0]:
            return None, reading.number("i32")
        raise NoRequest("an api that is not served")
    correlation, flexible = reading.number("i32"), APIS[api][2]
    reading.value("s", False, True)
    if flexible:
        reading.tags()
    reading.value(SCHEMAS[api][0], flexible)
    if reading.at < len(frame):
        raise NoRequest("bytes after the request")
    return api, correlation


def is_silent(frame, api):
    """Whether a request is a Produce that wants no answer: its acks stand after the client's and the transactional id."""
    if api != "Produce":
        return False
    reading = Reading(frame)
    reading.take(8)
    reading.value("s", False, True)
    reading.value("s", False, True)
    return reading.number("i16") == 0

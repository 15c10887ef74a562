"""What is sent in a session and what is answered, byte for byte in hexadecimal digits, from the protocol's guide."""

import struct

from tests.support import TOP, acl, topic, user


def settings(trail_limit):
    """Settings with two users, two topics, and a trail of so many events. Ann may describe `b`."""
    named = user("ann", "pw") + user("bob", "other") + topic("a") + topic("b")
    return f"{TOP}trail_limit = {trail_limit}\n{named}" + acl(operation="DESCRIBE")


# Ann chooses PLAIN, tells her password, and asks for all topics, of which `b` is described to her.
HANDSHAKE = "000000110011000100000001ffff0005504c41494e"
HANDSHAKE_TOLD = "00000011000000010000000000010005504c41494e"
LOGIN = "000000150024000000000002ffff0000000700616e6e007077"
LOGIN_TOLD = "0000000c000000020000ffff00000000"
METADATA = "0000000e0003000100000001ffffffffffff"
METADATA_TOLD = (
    "00000041000000010000000100000001000168"
    "00002384ffff0000000100000001000000016200000000010000000000000000000100000001000000010000000100000001"
)

# ApiVersions: each api by its key, with the first and the last version that is served; and in another version.
VERSIONS = "0000000a0012000000000007ffff"
VERSIONS_TOLD = (
    "0000008e0000000700000000001600000003000300010004000400020002000200030001000100080002000200090007"
    "0007000a00010001000b00020002000c00010001000d00010001000e0001000100110001000100120000000000160000"
    "0000001800000000001900000000001a00000005001c00030003001d00010001001e00010001001f0001000100240000"
    "0000"
)
VERSIONS_IN_THREE = "000000110012000300000007000163000261023100"
VERSIONS_IN_THREE_TOLD = "0000001000000007002300000001001200000000"
# The same with nothing after the correlation id, of which no more is read.
BARE_VERSIONS_IN_THREE = "000000080012000300000007"

# A handshake that chooses SCRAM; another password; a handshake and a login after a login.
SCRAM = "000000110011000100000001ffff0005534352414d"
SCRAM_TOLD = "00000011000000010021000000010005504c41494e"
WRONG = "000000150024000000000002ffff0000000700616e6e007078"
WRONG_TOLD = "0000000c00000002003affff00000000"
HANDSHAKE_AGAIN_TOLD = "00000011000000010022000000010005504c41494e"
LOGIN_AGAIN_TOLD = "0000000c000000020022ffff00000000"

# Nothing is produced, with an answer, which follows, and without one.
PRODUCE = "000000160000000300000009ffffffff00010000000000000000"
PRODUCE_TOLD = "0000000c000000090000000000000000"
SILENT_PRODUCE = "000000160000000300000009ffffffff00000000000000000000"

# Requests whose bodies can't be read: a Produce, and Metadata that counts more topics than there are bytes, with a byte after
# its body, and without a client's name; an api that isn't served, and one in a version that isn't.
SPOILT_PRODUCE = "000000150000000300000009ffffffff000100000000000000"
SPOILT = (
    "000000100003000100000001ffff7fffffff0000",
    "0000000f0003000100000001ffffffffffff00",
    "000000080003000100000001",
    "0000000a00ff000000000001ffff",
    "0000000a0003000000000001ffff",
    SPOILT_PRODUCE,
)


def framed(key, version, correlation, client, body):
    """A request's frame, in digits."""
    name = struct.pack(">h", -1) if client is None else struct.pack(">h", len(client)) + client
    frame = struct.pack(">hhi", key, version, correlation) + name + body
    return (struct.pack(">i", len(frame)) + frame).hex()


def login_of(size, more=0):
    """A login of so many bytes by another password, which counts so many bytes more than it has."""
    message = b"\0ann\0" + b"p" * (size - 8 - 2 - 4 - 5)
    return framed(36, 0, 2, None, struct.pack(">i", len(message) + more) + message)


# So long is the longest frame whose body is read before a login: a handshake with the longest names of a client and of a
# mechanism. No user's message is so long that a login would be longer.
LONGEST = 65_546
NAME = b"c" * 32_767
HANDSHAKE_AT_LENGTH = framed(17, 1, 1, NAME, struct.pack(">h", 5) + b"PLAIN")
LOGIN_AT_LENGTH = framed(36, 0, 2, NAME, struct.pack(">i", 7) + b"\0ann\0pw")
UNKNOWN_AT_LENGTH = framed(17, 1, 1, NAME, struct.pack(">h", len(NAME)) + NAME)
UNKNOWN_TOO_LONG = framed(17, 1, 1, NAME, struct.pack(">h", len(NAME)) + NAME + b"c")
VERSIONS_TOO_LONG = framed(18, 0, 7, None, bytes(LONGEST))
VERSIONS_IN_THREE_TOO_LONG = framed(18, 3, 7, None, bytes(LONGEST))
LOGIN_IN_ONE_TOO_LONG = framed(36, 1, 2, None, bytes(LONGEST))
PRODUCE_TOO_LONG = framed(0, 3, 9, None, bytes(1 << 20))

"""Works out the answers of each script of `examples/` and of this folder on its own, and of the program's stored run. They are
compared with the file of the same name that ends in `.out`, or with `stdout`, byte for byte.

The program isn't asked. Requests are read and answers written by the schemas of the protocol's guide
(`kbroker_testing.protocol`, `tests/models/frames.py`), and what is answered is worked out over plain lists
(`tests/models/plain_apis.py` and what it stands on).
"""

import tomllib
import unittest

from kbroker_testing.apis import APIS, SCHEMAS
from kbroker_testing.codes import Code
from kbroker_testing.protocol import Reader, response_frame
from tests.golden.scripts import a_case_for_each, assert_lines, output_of
from tests.models import frames
from tests.models.plain_apis import Request
from tests.models.plain_broker import World


def fields_of(api, frame):
    """The fields of a request, whose frame has no size field."""
    reader = Reader(frame[8:])
    reader.read("s", False)
    if APIS[api][2]:
        reader.skip_tags()
    return reader.read(SCHEMAS[api][0], APIS[api][2])


def lines_of(world, user, host, frame):
    """What is printed for a request."""
    try:
        api, correlation = frames.asked_by(frame)
    except frames.NoRequest:
        return ["closed"]
    if api is None:
        key = APIS["ApiVersions"][0]
        told = {"error": Code.UNSUPPORTED_VERSION, "apis": [{"key": key, "min": 0, "max": 0}]}
        return [response_frame("ApiVersions", correlation, told).hex()]
    request = Request(world, f"User:{user}", host)
    answer = response_frame(api, correlation, request.answer(api, fields_of(api, frame))).hex()
    return ["-" if frames.is_silent(frame, api) else answer, *request.refused]


def printed(script):
    """All that is printed for a script."""
    settings, _, lines = script.partition("---\n")
    world, told = World(tomllib.loads(settings)), []
    for line in lines.splitlines():
        word, *rest = line.split(" ")
        if word == "req":
            user, host, digits = rest
            told += lines_of(world, user, host, bytes.fromhex(digits)[4:])
            continue
        world.tick(int(rest[0])) if word == "tick" else world.mark()
        told.append("-")
    return told


@a_case_for_each
class PlainAnswers(unittest.TestCase):
    def look_at(self, script):
        told = [f"{line}\n" for line in printed(script.read_text())]
        assert_lines(self, told, output_of(script).read_text().splitlines(keepends=True))

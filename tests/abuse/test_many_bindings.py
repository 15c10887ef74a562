"""A request costs by what it asks and by the bindings of its caller, and not by those that others have on the same name.

A thousand users may read one topic, and one that may not asks for it again and again. Each part is answered by the bindings of the
caller and those of everybody, whether they stand on the name, on `*` or on a beginning of it.
"""

import sys
import time
import unittest

from kbroker_testing.broker import ClockedKbroker
from kbroker_testing.codes import Code
from kbroker_testing.protocol import logged_in, request_frame, response_of
from tests.abuse.beside import ask_whole
from tests.support import TOP, acl, topic, user

MANY = 1_000  # bindings on one name
ASKED = 2_000  # times in a request
ROUNDS = 5  # of which the quickest counts
TIMES = 3  # as long as with one binding: it was 28 to 57 times
PLACES = {"the name": ("shared", "LITERAL"), "each name": ("*", "LITERAL"), "a beginning": ("sha", "PREFIXED")}


def settings(count, name, pattern):
    """Of a topic that so many others may read."""
    others = "".join(acl(name=name, principal=f"User:u{it}", pattern=pattern) for it in range(count))
    return TOP + user("nobody", "n") + topic("shared") + others


class ManyBindings(unittest.TestCase):
    def took(self, text):
        """How long such a request takes, in seconds."""
        frame = request_frame("Metadata", 1, {"topics": ["shared"] * ASKED})
        rounds = []
        with ClockedKbroker(text, connections=1) as server, logged_in(server.address, "nobody", "n") as broker:
            for _ in range(ROUNDS):
                began = time.monotonic()
                answer = ask_whole(broker, frame)
                rounds.append(time.monotonic() - began)
                told = response_of("Metadata", answer)[1]["topics"]
                self.assertEqual([it["error"] for it in told], [Code.TOPIC_AUTHORIZATION_FAILED] * ASKED)
        return min(rounds)

    def test_bindings_of_others(self):
        for place, (name, pattern) in PLACES.items():
            with self.subTest(place=place):
                one, many = self.took(settings(1, name, pattern)), self.took(settings(MANY, name, pattern))
                told = f"{ASKED} refused parts took {one * 1000:.1f} ms with one binding on {place}, {many * 1000:.1f} ms with {MANY}"
                print(f"abuse: {told}", file=sys.stderr)
                self.assertLess(many, TIMES * one, told)

    def test_the_own_one_is_found(self):
        """Beside a thousand others; a denial of everybody goes before it, but not one of another operation."""
        of_all = acl(name="shared", principal="User:*").replace("ALLOW", "DENY")
        own = acl(name="shared", principal="User:nobody", operation="DESCRIBE")
        for more, code in ((own, Code.NONE), (of_all + own, Code.NONE), ("", Code.TOPIC_AUTHORIZATION_FAILED)):
            with self.subTest(more=more):
                text = settings(MANY, "shared", "LITERAL") + more
                with ClockedKbroker(text, connections=1) as server, logged_in(server.address, "nobody", "n") as broker:
                    [told] = broker.ask("Metadata", topics=["shared"])["topics"]
                    self.assertEqual(told["error"], code)
        denied = of_all.replace('operation = "READ"', 'operation = "DESCRIBE"')
        text = settings(MANY, "shared", "LITERAL") + own + denied
        with ClockedKbroker(text, connections=1) as server, logged_in(server.address, "nobody", "n") as broker:
            [told] = broker.ask("Metadata", topics=["shared"])["topics"]
            self.assertEqual(told["error"], Code.TOPIC_AUTHORIZATION_FAILED)


if __name__ == "__main__":
    unittest.main()

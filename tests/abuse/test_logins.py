"""What strangers send before a login costs little, whoever they are and whatever it is.

A login that is longer than any right one is refused without a look at it, and one that has said its first word and then says
nothing more doesn't hold a worker for the whole time of a login, once it had to wait for it as long.
"""

import statistics
import sys
import time
import unittest

from kbroker_testing.broker import ClockedKbroker
from kbroker_testing.codes import Code
from kbroker_testing.protocol import Connection, logged_in, request_frame
from tests.support import OF_ROOT, connect, topic, user

USERS = 100
ROUNDS = 7  # of which the median counts
TIMES = 12  # as long as a short login a long one may take: it has 90 times as many bytes to be read
STRANGERS = 40
WORKERS = 4
WITHIN = 2.0  # seconds in which a client logs in
LEFT = 0.4  # seconds of them for a client that has waited as long
LATE = 4.0  # seconds that a slow machine may add


class Logins(unittest.TestCase):
    def took(self, server, password):
        """How long a login with a wrong password takes, in seconds, as the median of some."""
        rounds = []
        for _ in range(ROUNDS):
            with Connection(server.address) as broker:
                began = time.monotonic()
                self.assertEqual(broker.login("u7", password), Code.SASL_AUTHENTICATION_FAILED)
                rounds.append(time.monotonic() - began)
        return statistics.median(rounds)

    def test_a_long_login(self):
        """One of 30,000 bytes costs hardly more than one of 10, though there are many users to compare it with."""
        settings = OF_ROOT + "".join(user(f"u{it}", f"p{it}") for it in range(USERS))
        with ClockedKbroker(settings, connections=None, more=("--endless",)) as server:
            short, long = self.took(server, "w" * 10), self.took(server, "w" * 30_000)
        told = f"a login of 10 bytes took {short * 1000:.2f} ms, one of 30,000 bytes {long * 1000:.2f} ms"
        print(f"abuse: {told}", file=sys.stderr)
        self.assertLess(long, TIMES * short, told)

    def test_strangers_that_stop_after_their_first_request(self):
        """They hold up a client for one time of a login, and then only for what is left of it to those that waited."""
        handshake = request_frame("SaslHandshake", 1, {"mechanism": "PLAIN"})
        options = {"workers": WORKERS, "connections": None, "more": ("--endless", "--login-within", str(int(WITHIN)))}
        with ClockedKbroker(OF_ROOT + topic("b"), **options) as server:
            for _ in range(STRANGERS):
                self.enterContext(connect(server.address)).sendall(handshake)
            began = time.monotonic()
            with logged_in(server.address) as broker:
                broker.ask("Metadata", topics=["b"])
            took = time.monotonic() - began
        print(f"abuse: a client beside {STRANGERS} strangers waited {took:.1f} s", file=sys.stderr)
        self.assertLess(took, WITHIN + LEFT * STRANGERS / WORKERS + LATE)


if __name__ == "__main__":
    unittest.main()

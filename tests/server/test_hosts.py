"""A binding by host holds for whoever connects from that host, also where the broker listens on `[::]`.

There a peer of IPv4 comes with an address of IPv6 that holds its own, as ::ffff:127.0.0.1 (RFC 4291, section 2.5.5.2). It is denied what
is denied to 127.0.0.1, and counts for --per-host as that.
"""

import socket
import unittest

from kbroker_testing.broker import ClockedKbroker
from kbroker_testing.codes import Code
from kbroker_testing.protocol import logged_in, partition_of
from tests.support import TOP, acl, connect, of_b, topic, user

FOUR, SIX = "127.0.0.1", "::1"
DENIED = acl(host=FOUR).replace("ALLOW", "DENY")
SETTINGS = TOP + user() + topic("b") + acl() + DENIED


def has_ipv6():
    """Whether this machine listens on all addresses of both families."""
    try:
        with socket.create_server(("::", 0), family=socket.AF_INET6, dualstack_ipv6=True):
            return True
    except (OSError, ValueError):
        return False


class Hosts(unittest.TestCase):
    def code(self, server, host):
        """How a Fetch from this host is answered."""
        port = server.address.rpartition(":")[2]
        with logged_in(f"{host}:{port}", "ann", "p") as broker:
            return partition_of(broker.ask("Fetch", topics=of_b(offset=0, max_bytes=1000)))["error"]

    def test_over_ipv4(self):
        with ClockedKbroker(SETTINGS, connections=1) as server:
            self.assertEqual(self.code(server, FOUR), Code.TOPIC_AUTHORIZATION_FAILED)

    @unittest.skipUnless(has_ipv6(), "this machine has no IPv6")
    def test_over_both(self):
        """Who is denied is the peer of IPv4 alone."""
        with ClockedKbroker(SETTINGS, connections=2, host="[::]") as server:
            self.assertEqual(self.code(server, FOUR), Code.TOPIC_AUTHORIZATION_FAILED)
            self.assertEqual(self.code(server, SIX), Code.NONE)

    @unittest.skipUnless(has_ipv6(), "this machine has no IPv6")
    def test_connections_of_one_host(self):
        """The second one of a host is closed, whose first one is told by its IPv4 address."""
        with ClockedKbroker(SETTINGS, connections=2, host="[::]", more=("--per-host", "1")) as server:
            port = server.address.rpartition(":")[2]
            first = self.enterContext(connect(f"{FOUR}:{port}"))
            with connect(f"{FOUR}:{port}") as second:
                self.assertEqual(second.recv(1), b"", "another connection of the host is open")
            self.assertEqual(self.code(server, SIX), Code.NONE)
            first.close()
            _, told = server.settled()
        closed = f"kbroker: a connection from {FOUR} was closed at once, since its host has as many as --per-host says"
        self.assertIn(closed, told)


if __name__ == "__main__":
    unittest.main()

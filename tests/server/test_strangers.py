"""A server that strangers can reach doesn't end because they come.

With `--endless` thousands of connections come and go that ask nothing, a while without a descriptor for the next one follows,
and then a client is answered as before; little memory is taken, and the last line counts every session. With `--per-host` a
host has no more connections than it may, those that wait among them, and may have another one for each that ends; the operator is
told of those that are closed once a second at most.
"""

import os
import resource
import socket
import subprocess
import time
import unittest

from kbroker_testing.broker import BrokerProcess, ClockedKbroker
from kbroker_testing.codes import Code
from kbroker_testing.protocol import Connection, logged_in
from kbroker_testing.waiting import wait_until
from tests.server.told import without_waits
from tests.support import OF_ROOT, connect, needs_proved_program, topic

SETTINGS = OF_ROOT + topic("b")
STRANGERS = 5_000
AT_ONCE = 50  # of them
MORE = 30  # connections of a host that has as many as it may
GROWTH = 2 << 20  # bytes that it may take while most of the strangers come

FAILED = "kbroker: connections can't be accepted for now: "
TURNED_AWAY = "kbroker: a connection from 127.0.0.1 was closed at once, since its host has as many as --per-host says"


def descriptors(server):
    """How many files the server has open, which has no connection yet."""
    return len(os.listdir(f"/proc/{server.process.pid}/fd"))


class Endless(BrokerProcess):
    """A broker that takes connections without end, until its standard input ends."""

    def words(self, settings):
        return ["--endless", "--stop-with-input", "--settings", settings.name], subprocess.PIPE


class Strangers(unittest.TestCase):
    def come_and_go(self, server, count):
        """So many strangers connect, some at once, and leave without a word."""
        for _ in range(count // AT_ONCE):
            strangers = [connect(server.address) for _ in range(AT_ONCE)]
            for it in strangers:
                it.shutdown(socket.SHUT_WR)
            for it in strangers:
                self.assertEqual(it.recv(1), b"", "a stranger is answered")
                it.close()

    def assert_served(self, broker):
        """A client that has logged in is told of the topic."""
        self.assertEqual([it["topic"] for it in broker.ask("Metadata", topics=None)["topics"]], ["b"])

    def assert_served_without_descriptors(self, server, most):
        """A client connects while the server may open so many files. That is told once; later the client is served."""
        process = server.process.pid
        limits = resource.prlimit(process, resource.RLIMIT_NOFILE)
        resource.prlimit(process, resource.RLIMIT_NOFILE, (most, limits[1]))
        with Connection(server.address) as broker:
            wait_until(lambda: without_waits(server.told()), otherwise="it isn't told that no connection can be accepted")
            time.sleep(0.3)  # thirty more of them fail
            resource.prlimit(process, resource.RLIMIT_NOFILE, limits)
            self.assertEqual(broker.login("root", "toor"), Code.NONE)
            self.assert_served(broker)
        [line] = without_waits(server.told())
        self.assertTrue(line.startswith(FAILED), line)

    @needs_proved_program("memory is measured, of which checks take more")
    def test_an_endless_server(self):
        """Strangers come and go, no connection can be accepted for a while, and a client is answered all the same."""
        with Endless(SETTINGS) as server:
            most = descriptors(server)
            self.come_and_go(server, STRANGERS // 5)
            before = server.memory()
            self.come_and_go(server, STRANGERS - STRANGERS // 5)
            grown = server.memory() - before
            self.assert_served_without_descriptors(server, most)
            with logged_in(server.address) as broker:
                self.assert_served(broker)
            settled, told = server.settled()
        self.assertEqual((settled.sessions, settled.refusals, len(without_waits(told))), (STRANGERS + 2, 0, 1), told)
        self.assertLess(grown, GROWTH)

    def is_let_in(self, server):
        """Whether a client is served, and not closed at once."""
        try:
            with logged_in(server.address) as broker:
                self.assert_served(broker)
                return True
        except (EOFError, ConnectionError):
            return False

    def assert_turned_away(self, server):
        """One more connection is closed at once."""
        with connect(server.address) as peer:
            self.assertEqual(peer.recv(1), b"", "one connection more is open")

    def test_two_connections_of_a_host(self):
        """A third connection of a host is closed at once, one of another host is served, and so is a third once one has ended."""
        with ClockedKbroker(SETTINGS, connections=4, more=("--per-host", "2")) as server:
            with connect(server.address) as first, connect(server.address):
                self.assert_turned_away(server)
                began = time.monotonic()
                for _ in range(MORE):
                    self.assert_turned_away(server)
                lines = len(without_waits(server.told()))
                self.assertLessEqual(lines, 2 + int(time.monotonic() - began))
                with logged_in(server.address, source="127.0.0.2") as broker:
                    self.assert_served(broker)
                first.close()
                wait_until(lambda: self.is_let_in(server), otherwise="no third connection is let in")
            settled, told = server.settled()
        self.assertEqual((settled.sessions, settled.refusals), (4, 0))
        self.assertEqual({*without_waits(told)}, {TURNED_AWAY})

    def test_a_connection_that_waits(self):
        """It counts for its host as well."""
        with ClockedKbroker(SETTINGS, workers=1, connections=3, more=("--per-host", "2")) as server:
            with connect(server.address), connect(server.address):
                self.assert_turned_away(server)
            wait_until(lambda: self.is_let_in(server), otherwise="no connection is let in")
            settled, told = server.settled()
        self.assertEqual((settled.sessions, settled.refusals), (3, 0))
        self.assertEqual({*without_waits(told)}, {TURNED_AWAY})

"""With `--per-user` a user has no more sessions at once than it may: a further one is closed after its login, which is answered as
ever, and the operator is told why. Another user isn't concerned, and once a session ends there may be another one.
"""

import unittest

from kbroker_testing.broker import ClockedKbroker
from kbroker_testing.codes import Code
from kbroker_testing.protocol import Connection, logged_in
from kbroker_testing.waiting import wait_until
from tests.server.told import of_user
from tests.support import OF_ROOT, topic, user

SETTINGS = OF_ROOT + user("ann", "pw") + topic("b")
FULL = "its user has as many sessions as --per-user says"


class PerUser(unittest.TestCase):
    def is_served(self, server, name="ann", password="pw"):
        """Whether a session of the user is served after its login."""
        with Connection(server.address) as broker:
            self.assertEqual(broker.login(name, password), Code.NONE)
            try:
                return bool(broker.ask("Metadata", topics=["b"])["topics"])
            except (EOFError, ConnectionError):
                return False

    def test_two_sessions_of_a_user(self):
        with ClockedKbroker(SETTINGS, workers=4, connections=None, more=("--endless", "--per-user", "2")) as server:
            first = self.enterContext(logged_in(server.address, "ann", "pw"))
            with logged_in(server.address, "ann", "pw"):
                self.assertFalse(self.is_served(server), "a third session is served")
                self.assertTrue(self.is_served(server, "root", "toor"), "another user isn't served")
            wait_until(lambda: self.is_served(server), otherwise="no second session is served after one has ended")
            self.assertEqual([it["error"] for it in first.ask("Metadata", topics=["b"])["topics"]], [Code.TOPIC_AUTHORIZATION_FAILED])
            self.assertIn(of_user(2, "ann", FULL), server.told())

    def test_any_number(self):
        """Without the option nobody is counted."""
        with ClockedKbroker(SETTINGS, workers=8, connections=6) as server:
            for _ in range(5):
                self.enterContext(logged_in(server.address, "ann", "pw"))
            self.assertTrue(self.is_served(server))


if __name__ == "__main__":
    unittest.main()

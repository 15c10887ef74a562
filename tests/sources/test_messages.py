"""What docs/OPERATING.md says that a server tells is what the sources of the crates write: its tables have each message, and no other,
and each has words beside it."""

import re
import unittest
from unittest import mock

import messages

PAGE = messages.PAGE.read_text()


class Page(unittest.TestCase):
    def test_its_tables_are_those_of_the_sources(self):
        """`tools/messages.py --write` makes them anew."""
        for table, text in messages.tables(PAGE).items():
            with self.subTest(table=table):
                self.assertEqual(messages.place_of(table).search(PAGE)[0], text)

    def test_each_message_has_words(self):
        words = messages.words_of(PAGE)
        for table, those in messages.messages().items():
            self.assertTrue(those)
            for message in those:
                with self.subTest(table=table, message=message):
                    self.assertTrue("".join(words[table].get(message, "")), "the page doesn't say what it means, or what to do")


class OfTools(unittest.TestCase):
    def test_what_the_command_of_a_checkout_says(self):
        """What the page quotes of it stands in the tools."""
        texts = "".join((messages.ROOT / "tools" / it).read_text() for it in ("program.py", "unproved.py", "chosen.py"))
        paragraph = next(it for it in PAGE.split("\n\n") if "In a checkout `./kbroker` also says" in it)
        quoted = re.findall(rf"`{messages.SAID}(.+?)`", paragraph)
        self.assertEqual(len(quoted), 3)
        for text in quoted:
            with self.subTest(text=text):
                self.assertIn(text, texts)


class Sources(unittest.TestCase):
    def test_each_text_is_looked_at(self):
        self.assertEqual(messages.faults(), [])

    def assert_told(self, sources, fault):
        """With these sources that fault is told."""
        with mock.patch.object(messages, "SOURCES", sources):
            self.assertIn(fault, "\n".join(messages.faults()))

    def test_a_text_that_nothing_is_said_of(self):
        """It is told; and so is one of which something is said, and that stands nowhere."""
        sources = messages.SOURCES
        self.assert_told([it for it in sources if it.path != "admission/"], "crates/admission/src/peer.rt has texts")
        self.assert_told([it for it in sources if not it.path.endswith("log_writer.rt")], "'kbroker: lines left out, ")
        self.assert_told([messages.Source("show/", parts=("no such text",), none="of none"), *sources], "has no text 'no such text'")
        self.assert_told([messages.Source("show/", ((messages.RUNNING, "no", "ne"),), none="of none"), *sources], "has no part of 'none'")


if __name__ == "__main__":
    unittest.main()

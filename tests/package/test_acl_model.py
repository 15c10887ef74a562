"""The package's plain model of bindings, by examples of KIP-290 and KIP-679 that are worked out by hand."""

import unittest

from kbroker_testing.acl_model import (
    ANY,
    CLUSTER,
    OPEN,
    REFUSED,
    Book,
    Entry,
    Kind,
    Operation,
    Pattern,
    Permission,
    escaped,
)
from kbroker_testing.codes import Code


def binding(name="a", pattern=Pattern.LITERAL, operation=Operation.READ, permission=Permission.ALLOW, **more):
    """A binding of ann's on a topic."""
    words = {"kind": Kind.Topic, "principal": "User:ann", "host": "*", **more}
    return Entry(name=name, pattern=pattern, operation=operation, permission=permission, **words)


def book_of(*bindings):
    """A book with these bindings, numbered from 1 on."""
    book = Book(["User:root"])
    for it in bindings:
        book.add(it)
    return book


class Entries(unittest.TestCase):
    def test_numbers_are_those_of_the_protocol(self):
        self.assertEqual([*map(int, Kind)], [2, 3, 4, 5])
        self.assertEqual((Operation.ALL, Operation.DESCRIBE, Operation.IDEMPOTENT_WRITE), (2, 8, 12))
        self.assertEqual((Permission.DENY, Permission.ALLOW, Pattern.MATCH, Pattern.PREFIXED), (2, 3, 2, 4))
        self.assertEqual(REFUSED[Kind.Group], Code.GROUP_AUTHORIZATION_FAILED)

    def test_what_a_binding_covers(self):
        rows = (("a", Pattern.LITERAL, "a"), ("*", Pattern.LITERAL, "ab"), ("a", Pattern.PREFIXED, "ab"))
        for name, pattern, covered in rows:
            self.assertTrue(binding(name, pattern).covers(covered), (name, pattern, covered))
        rows = (("a", Pattern.LITERAL, "ab"), ("ab", Pattern.PREFIXED, "a"), ("*", Pattern.PREFIXED, "a"))
        for name, pattern, other in rows:
            self.assertFalse(binding(name, pattern).covers(other), (name, pattern, other))

    def test_what_a_filter_picks(self):
        literal, prefixed, star = binding("ab"), binding("a", Pattern.PREFIXED), binding("*")
        rows = (
            (OPEN, (True, True, True)),
            (OPEN._replace(name="ab"), (True, False, False)),
            (OPEN._replace(name="ab", pattern=Pattern.MATCH), (True, True, True)),
            (OPEN._replace(name="b", pattern=Pattern.MATCH), (False, False, True)),
            (OPEN._replace(pattern=Pattern.PREFIXED), (False, True, False)),
            (OPEN._replace(operation=Operation.WRITE), (False, False, False)),
            (OPEN._replace(principal="User:bob"), (False, False, False)),
        )
        for wanted, picked in rows:
            with self.subTest(wanted=wanted):
                self.assertEqual(tuple(map(wanted.picks, (literal, prefixed, star))), picked)

    def test_what_is_no_binding_and_no_filter(self):
        self.assertTrue(binding().is_creatable())
        self.assertTrue(binding(kind=Kind.Cluster, name=CLUSTER).is_creatable())
        for more in ({"kind": ANY}, {"pattern": Pattern.MATCH}, {"principal": "User:"}, {"host": ""}, {"operation": 13}):
            self.assertFalse(binding(**more).is_creatable(), more)
        self.assertFalse(binding(kind=Kind.Cluster).is_creatable())
        self.assertTrue(OPEN.is_filter())
        for more in ({"kind": 0}, {"kind": 6}, {"pattern": 5}, {"operation": 13}, {"permission": 4}):
            self.assertFalse(OPEN._replace(**more).is_filter(), more)


class Books(unittest.TestCase):
    def refusal(self, book, operation=Operation.READ, name="a", who="User:ann"):
        return book.refusal(who, "h", operation, Kind.Topic, name)

    def test_deny_comes_before_allow(self):
        book = book_of(binding(), binding(permission=Permission.DENY, name="*"), binding(permission=Permission.DENY))
        self.assertEqual(self.refusal(book), "denied READ Topic a User:ann h by 2")
        book.remove(OPEN._replace(name="*"))
        self.assertEqual(self.refusal(book), "denied READ Topic a User:ann h by 3")
        book.remove(OPEN._replace(permission=Permission.DENY))
        self.assertIsNone(self.refusal(book))
        self.assertEqual(self.refusal(book, who="User:bob"), "unmatched READ Topic a User:bob h")
        self.assertIsNone(self.refusal(book, who="User:root"))

    def test_reading_allows_to_describe(self):
        book = book_of(binding())
        self.assertIsNone(self.refusal(book, Operation.DESCRIBE))
        self.assertEqual(self.refusal(book, Operation.WRITE), "unmatched WRITE Topic a User:ann h")
        denied = book_of(binding(), binding(permission=Permission.DENY, operation=Operation.WRITE))
        self.assertIsNone(self.refusal(denied, Operation.DESCRIBE))

    def test_numbers_are_never_used_again(self):
        book = book_of(binding("a"), binding("b"))
        self.assertFalse(book.add(binding("a")))
        self.assertEqual(book.remove(OPEN._replace(name="b")), {2: binding("b")})
        self.assertTrue(book.add(binding("b")))
        self.assertEqual(book.bindings, {1: binding("a"), 3: binding("b")})

    def test_who_may_write_to_a_topic(self):
        """KIP-679: a denial stands over an allow where it leaves nothing of it."""
        writes = {"operation": Operation.WRITE}
        allow = binding("ab", Pattern.PREFIXED, **writes)
        denials = (
            (binding("a", Pattern.PREFIXED, permission=Permission.DENY, **writes), False),
            (binding("*", permission=Permission.DENY, **writes), False),
            (binding("ab", permission=Permission.DENY, **writes), True),
            (binding("abc", Pattern.PREFIXED, permission=Permission.DENY, **writes), True),
        )
        for denial, lets in denials:
            with self.subTest(denial=denial):
                self.assertEqual(book_of(allow, denial).lets_write_to_a_topic("User:ann", "h"), lets)
        self.assertFalse(book_of(binding()).lets_write_to_a_topic("User:ann", "h"))
        self.assertFalse(book_of(allow).lets_write_to_a_topic("User:bob", "h"))
        self.assertTrue(book_of().lets_write_to_a_topic("User:root", "h"))

    def test_words_are_escaped(self):
        self.assertEqual(escaped("a b%é\n*"), "a%20b%25%C3%A9%0A*")

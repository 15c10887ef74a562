"""Draws CreateAcls, DescribeAcls and DeleteAcls, and holds each answer against a plain list of the bindings.

What a filter picks is looked for among all bindings, one after the other, by what KIP-290 says of its pattern. Between
them users ask what only the bindings decide, deny before allow; who is denied is told the oldest binding that does it.

All lines are drawn before the program answers them.
"""

import random
import unittest
from collections import Counter

from kbroker_testing.acl_model import ANY, CLUSTER, OPEN, REFUSED, Book, Entry, Kind, Operation, Pattern, Permission
from kbroker_testing.codes import Code
from kbroker_testing.protocol import in_partition, request_digits
from tests.models.drawn import Line, assert_answered, fields_of
from tests.support import OF_ROOT

SEED = 7
LINES = 1500
# How many of these create, describe, delete and ask, one against the other.
WEIGHTS = 6, 4, 2, 6
SETTINGS = OF_ROOT + "---\n"

NAMES = "a", "ab", "abé", "b", "bé", "*"
# What is asked for, or stands in a filter: some names begin it, or nearly do.
ASKED = *NAMES, "abéc", "abè", "c"
PRINCIPALS = "User:ann", "User:bob", "User:*"
HOSTS = "h", "*"

# What bindings are drawn of.
OPERATIONS = [it for it in Operation if it <= Operation.DESCRIBE]
# Each of these makes of a binding, or of a filter, what is none.
NO_BINDING = (
    *({"kind": it} for it in (0, ANY, 6)),
    *({"pattern": it} for it in (0, ANY, Pattern.MATCH, 5)),
    *({"operation": it} for it in (0, ANY, 13)),
    *({"permission": it} for it in (0, ANY, 4)),
    *({"kind": Kind.Cluster, "name": it} for it in ("*", "kafka", "kafka-cluster1")),
    *({"principal": it} for it in ("", "ann", "User:", "Group:ann")),
    *({it: ""} for it in ("name", "host")),
)
NO_FILTER = (*({it: 0} for it in ("kind", "pattern", "operation", "permission")), {"kind": 6}, {"pattern": 5})

# What asks for an operation on a resource of a kind, and the code where it is allowed: nothing that is asked for is
# there, and this is no filter.
UNKNOWN_TOPIC = Code.UNKNOWN_TOPIC_OR_PARTITION
FAULTY = dict.fromkeys(("kind", "pattern", "operation", "permission"), 0)
QUESTIONS = (
    (Operation.DESCRIBE, Kind.Topic, "Metadata", lambda name: {"topics": [name]}, UNKNOWN_TOPIC),
    (Operation.READ, Kind.Topic, "Fetch", lambda name: {"topics": in_partition((name, 0), offset=0)}, UNKNOWN_TOPIC),
    (Operation.DESCRIBE, Kind.Group, "FindCoordinator", lambda name: {"key": name}, Code.NONE),
    (Operation.READ, Kind.Group, "Heartbeat", lambda name: {"group": name}, Code.UNKNOWN_MEMBER_ID),
    (Operation.DESCRIBE, Kind.Cluster, "DescribeAcls", lambda _: FAULTY, Code.INVALID_REQUEST),
    (Operation.ALTER, Kind.Cluster, "DeleteAcls", lambda _: {"filters": [FAULTY]}, Code.INVALID_REQUEST),
    (Operation.DESCRIBE, Kind.TransactionalId, "FindCoordinator", lambda name: {"key": name, "key_type": 1}, Code.NONE),
    (Operation.WRITE, Kind.TransactionalId, "InitProducerId", lambda name: {"transactional_id": name}, Code.NONE),
)

# Each of these is seen so often at least; a pattern where a filter of it picks a binding of its own name, or another.
ENOUGH = 50
LOOKED_FOR = (
    *("new", "there already", "no binding", "no filter", "deleted", "several", "allowed", "denied", "unmatched"),
    *((it, True) for it in Pattern),
    (Pattern.MATCH, False),
)


def error_of(api, answer):
    """The one code in an answer."""
    told = fields_of(api, answer)
    while "error" not in told:
        [told] = told.get("topics") or told.get("partitions") or told["results"]
    return told["error"]


class Drawing:
    """Draws lines, by the bindings so far under the numbers in whose order they were created."""

    def __init__(self):
        self.random, self.lines, self.seen = random.Random(SEED), [], Counter()
        self.book, self.drawn = Book(), []
        for draw in self.random.choices((self.create, self.describe, self.delete, self.ask), WEIGHTS, k=LINES):
            draw()
        self.tell(OPEN, Code.NONE)

    def edit(self, api, told, **fields):
        """A request of the super user."""
        self.lines.append(Line(f"req root h {request_digits(api, **fields)}", {"throttle": 0, **told}, api))

    def or_none(self, entry, faults):
        """The entry and no error; or at times what is none, and its code."""
        if self.random.randrange(8):
            return entry, Code.NONE
        return entry._replace(**self.random.choice(faults)), Code.INVALID_REQUEST

    def binding(self):
        """A binding; at times it was drawn before."""
        pick = self.random.choice
        if self.drawn and not self.random.randrange(4):
            return pick(self.drawn[-20:])
        kind, pattern = pick([*Kind]), pick([Pattern.LITERAL, Pattern.PREFIXED])
        name, who = CLUSTER if kind == Kind.Cluster else pick(NAMES), (pick(PRINCIPALS), pick(HOSTS))
        self.drawn.append(Entry(name, pattern, kind, *who, pick(OPERATIONS), pick([*Permission, Permission.ALLOW])))
        return self.drawn[-1]

    def filter(self):
        """The words of a binding, some of them left open."""
        pick = self.random.choice
        words = Entry(*map(pick, zip(self.binding(), OPEN)))
        return words._replace(name=pick([None, words.name, *ASKED]), pattern=pick([*Pattern]))

    def create(self):
        """A binding that stands there already is told as a new one, and keeps its number."""
        entries = [self.or_none(self.binding(), NO_BINDING) for _ in range(self.random.randint(1, 3))]
        for made, error in entries:
            is_new = not error and self.book.add(made)
            self.seen["no binding" if error else "new" if is_new else "there already"] += 1
        told = [{"error": error, "message": None} for _, error in entries]
        self.edit("CreateAcls", {"results": told}, creations=[made._asdict() for made, _ in entries])

    def picked(self, wanted, error, pick):
        """What a filter picks, in the order of its numbers."""
        found = [] if error else [*pick(wanted).values()]
        self.seen.update((wanted.pattern, it.name == wanted.name) for it in found if wanted.name)
        self.seen["no filter"] += error != Code.NONE
        return found

    def tell(self, wanted, error):
        """Resources are told in the order of their first bindings, and the bindings of each in theirs."""
        resources = {}
        for it in self.picked(wanted, error, self.book.picked):
            resources.setdefault(it[:3], []).append(dict(zip(Entry._fields[3:], it[3:])))
        told = [dict(zip(Entry._fields, it), acls=acls) for it, acls in resources.items()]
        self.seen["several"] += sum(len(it) > 1 for it in resources.values())
        self.edit("DescribeAcls", {"error": error, "message": None, "resources": told}, **wanted._asdict())

    def describe(self):
        self.tell(*self.or_none(self.filter(), NO_FILTER))

    def delete(self):
        """Each filter picks among what the earlier ones left."""
        filters, told = [self.or_none(self.filter(), NO_FILTER) for _ in range(self.random.randint(1, 2))], []
        for wanted, error in filters:
            gone = self.picked(wanted, error, self.book.remove)
            self.seen["deleted"] += len(gone)
            matches = [{"error": Code.NONE, "message": None, **it._asdict()} for it in gone]
            told.append({"error": error, "message": None, "matches": matches})
        self.edit("DeleteAcls", {"results": told}, filters=[it._asdict() for it, _ in filters])

    def ask(self):
        """What a user asks of one resource."""
        pick = self.random.choice
        operation, kind, api, fields, code = pick(QUESTIONS)
        user, host, name = pick(["ann", "bob"]), pick(["h", "g"]), CLUSTER if kind == Kind.Cluster else pick(ASKED)
        refused = self.book.refusal(f"User:{user}", host, operation, kind, name)
        self.seen[refused.split()[0] if refused else "allowed"] += 1
        wanted, lines = (REFUSED[kind], (refused,)) if refused else (code, ())
        self.lines.append(Line(f"req {user} {host} {request_digits(api, **fields(name))}", wanted, api, error_of, lines))


class DrawnBindings(unittest.TestCase):
    @classmethod
    def setUpClass(cls):
        cls.drawing = Drawing()

    def test_each_line_is_answered_by_the_plain_bindings(self):
        assert_answered(self, SETTINGS, self.drawing.lines)

    def test_enough_is_seen(self):
        for it in LOOKED_FOR:
            with self.subTest(it=it):
                self.assertGreaterEqual(self.drawing.seen[it], ENOUGH)

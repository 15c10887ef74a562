"""What bindings and filters say, looked for among all bindings, one after the other: KIP-290, and KIP-679 for who may write."""

from collections.abc import Collection
from enum import IntEnum
from typing import NamedTuple

from kbroker_testing.codes import Code

# The words by their numbers.
Pattern = IntEnum("Pattern", "ANY MATCH LITERAL PREFIXED")
Kind = IntEnum("Kind", "Topic Group Cluster TransactionalId", start=2)
Operation = IntEnum(
    "Operation",
    "ALL READ WRITE CREATE DELETE ALTER DESCRIBE CLUSTER_ACTION DESCRIBE_CONFIGS ALTER_CONFIGS IDEMPOTENT_WRITE",
    start=2,
)
Permission = IntEnum("Permission", "DENY ALLOW", start=2)
ANY = 1
CLUSTER = "kafka-cluster"

# An ALLOW of these allows another operation, too.
IMPLYING = {
    Operation.DESCRIBE: {Operation.READ, Operation.WRITE, Operation.DELETE, Operation.ALTER},
    Operation.DESCRIBE_CONFIGS: {Operation.ALTER_CONFIGS},
}

# What is told where something is refused about a resource of this kind.
REFUSED = {
    Kind.Topic: Code.TOPIC_AUTHORIZATION_FAILED,
    Kind.Group: Code.GROUP_AUTHORIZATION_FAILED,
    Kind.Cluster: Code.CLUSTER_AUTHORIZATION_FAILED,
    Kind.TransactionalId: Code.TRANSACTIONAL_ID_AUTHORIZATION_FAILED,
}


def escaped(text: str) -> str:
    """A word of an audit line: controls, blanks, `%` and bytes above 7f are escaped."""
    plain = (chr(it) if 0x20 < it < 0x7F and it != 0x25 else f"%{it:02X}" for it in text.encode())
    return "".join(plain)


class Entry(NamedTuple):
    """A binding; or a filter, which may leave a number open by ANY, and a text by None."""

    name: str | None
    pattern: int
    kind: int
    principal: str | None
    host: str | None
    operation: int
    permission: int

    def covers(self, name: str) -> bool:
        """Whether this binding is about this name."""
        return name.startswith(self.name or "") if self.pattern == Pattern.PREFIXED else self.name in (name, "*")

    def is_for(self, principal: str, host: str) -> bool:
        """Whether this binding is about a principal at a host."""
        return self.principal in (principal, "User:*") and self.host in (host, "*")

    def takes(self, binding: "Entry") -> bool:
        """Whether this filter's pattern and name take those of the binding (KIP-290)."""
        if self.pattern == Pattern.MATCH:
            return self.name is None or binding.covers(self.name)
        return self.pattern in (ANY, binding.pattern) and self.name in (None, binding.name)

    def picks(self, binding: "Entry") -> bool:
        """Whether this filter picks the binding."""
        return self.takes(binding) and all(it in (ANY, None, own) for it, own in zip(self[2:], binding[2:]))

    def is_creatable(self) -> bool:
        """Whether this is a binding, and no filter or nothing at all."""
        user = (self.principal or "").removeprefix("User:")
        texts = self.name and self.host and user and user != self.principal
        numbers = self.kind in [*Kind] and self.operation in [*Operation] and self.permission in [*Permission]
        is_named = self.kind != Kind.Cluster or self.name == CLUSTER
        return bool(texts and numbers and is_named and self.pattern in (Pattern.LITERAL, Pattern.PREFIXED))

    def is_filter(self) -> bool:
        """Whether each number is one that a filter may have."""
        numbers = (self.kind, Kind), (self.pattern, Pattern), (self.operation, Operation), (self.permission, Permission)
        return all(it in (ANY, *words) for it, words in numbers)

    def stands_over(self, allow: "Entry") -> bool:
        """Whether this denial of a topic leaves nothing of what the other binding allows (KIP-679)."""
        everything = "*", Pattern.LITERAL
        if everything in (self[:2], allow[:2]):
            return self[:2] == everything
        begins = self.pattern == Pattern.PREFIXED and (allow.name or "").startswith(self.name or "")
        return begins or self[:2] == allow[:2]


# A filter that picks all.
OPEN = Entry(None, ANY, ANY, None, None, ANY, ANY)


class Book:
    """The bindings by their creation numbers, and the super users, to whom all is allowed."""

    def __init__(self, supers: Collection[str] = ()) -> None:
        self.supers, self.last = supers, 0
        self.bindings: dict[int, Entry] = {}

    def add(self, binding: Entry) -> bool:
        """Adds a binding, and gives whether it is a new one."""
        is_new = binding not in self.bindings.values()
        if is_new:
            self.last += 1
            self.bindings[self.last] = binding
        return is_new

    def picked(self, wanted: Entry) -> dict[int, Entry]:
        """The bindings that a filter picks, by their numbers."""
        return {at: it for at, it in self.bindings.items() if wanted.picks(it)}

    def remove(self, wanted: Entry) -> dict[int, Entry]:
        """Takes out what a filter picks, and gives it."""
        gone = self.picked(wanted)
        self.bindings = {at: it for at, it in self.bindings.items() if at not in gone}
        return gone

    def refusal(self, principal: str, host: str, operation: Operation, kind: Kind, name: str) -> str | None:
        """The line that tells how it is refused, or None where it is allowed: the oldest denial comes before any allow."""
        if principal in self.supers:
            return None
        about = {at: it for at, it in self.bindings.items() if it.kind == kind and it.covers(name) and it.is_for(principal, host)}
        own = {operation, Operation.ALL}
        denials = [at for at, it in about.items() if it.permission == Permission.DENY and it.operation in own]
        own |= IMPLYING.get(operation, set())
        allows = any(it.permission == Permission.ALLOW and it.operation in own for it in about.values())
        words = f"{operation.name} {kind.name} {escaped(name)} {escaped(principal)} {escaped(host)}"
        if denials:
            return f"denied {words} by {min(denials)}"
        return None if allows else f"unmatched {words}"

    def lets_write_to_a_topic(self, principal: str, host: str) -> bool:
        """Whether somebody may write to a topic at all, which is enough for an idempotent producer (KIP-679)."""
        if principal in self.supers:
            return True
        own = [it for it in self.bindings.values() if it.kind == Kind.Topic and it.is_for(principal, host)]
        own = [it for it in own if it.operation in (Operation.WRITE, Operation.ALL)]
        denials = [it for it in own if it.permission == Permission.DENY]
        return any(it.permission == Permission.ALLOW and not any(no.stands_over(it) for no in denials) for it in own)

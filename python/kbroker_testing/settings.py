"""Settings for a broker, in Python: each function gives a part of the text, and a fixture takes a list of parts.

    with Kbroker([super_users("bank"), user("bank", "secret"), topic("debits"), allow("audit", "READ", topic="debits")]) as broker:
"""

from collections.abc import Iterable
from typing import Union

# A text of settings, or parts of one.
Settings = Union[str, Iterable[str]]
KINDS = {"topic": "Topic", "group": "Group", "transactional_id": "TransactionalId", "cluster": "Cluster"}
CLUSTER = "kafka-cluster"  # the one name of a cluster, in Kafka too


def quoted(text: str) -> str:
    """A text as TOML has it."""
    if not isinstance(text, str):
        raise TypeError(f"a text is wanted, and this is none: {text!r}")
    return '"' + "".join(f"\\u{ord(it):04x}" if it < " " or it in '"\\\x7f' else it for it in text) + '"'


def principal(user: str) -> str:
    """A user as ACLs name it."""
    if quoted(user).startswith('"User:'):
        raise ValueError(f"a user is named without `User:`, and this one isn't: {user}")
    return f"User:{user}"


def super_users(*names: str) -> str:
    """Users who may do everything."""
    return f"supers = [{', '.join(quoted(principal(it)) for it in names)}]\n"


def user(name: str, password: str) -> str:
    """A user who can log in."""
    return f"[[user]]\nname = {quoted(name)}\npassword = {quoted(password)}\n"


def topic(name: str, partitions: int = 1) -> str:
    """A topic."""
    if isinstance(partitions, bool) or not isinstance(partitions, int):
        raise TypeError(f"a number of partitions is wanted, and this is none: {partitions!r}")
    return f"[[topic]]\nname = {quoted(name)}\npartitions = {int(partitions)}\n"


def resource(**named: str | None) -> tuple[str, str]:
    """The kind and the name of the one resource that is named."""
    found = {key: name for key, name in named.items() if name is not None}
    if len(found) != 1:
        raise TypeError(f"one of {', '.join(KINDS)} is wanted, and this is named: {', '.join(found) or 'nothing'}")
    [(key, name)] = found.items()
    return KINDS[key], name


def binding(user: str, operation: str, permission: str, host: str, prefixed: bool, of: tuple[str, str]) -> str:
    """An ACL for a user, or for all with "*", of one resource."""
    rows = {
        "kind": of[0],
        "name": of[1],
        "pattern": "PREFIXED" if prefixed else "LITERAL",
        "principal": principal(user),
        "host": host,
        "operation": operation,
        "permission": permission,
    }
    return "[[acl]]\n" + "".join(f"{key} = {quoted(it)}\n" for key, it in rows.items())


def allow(
    user: str,
    operation: str,
    *,
    host: str = "*",
    prefixed: bool = False,
    topic: str | None = None,
    group: str | None = None,
    transactional_id: str | None = None,
    cluster: bool = False,
) -> str:
    """Allows a user an operation on one resource: a topic, a group or a transactional id by its name, `"*"` for all of them, or the
    cluster. With `prefixed` the name is one with which others begin."""
    of = resource(topic=topic, group=group, transactional_id=transactional_id, cluster=CLUSTER if cluster else None)
    return binding(user, operation, "ALLOW", host, prefixed, of)


def deny(
    user: str,
    operation: str,
    *,
    host: str = "*",
    prefixed: bool = False,
    topic: str | None = None,
    group: str | None = None,
    transactional_id: str | None = None,
    cluster: bool = False,
) -> str:
    """Denies it, whatever allows it."""
    of = resource(topic=topic, group=group, transactional_id=transactional_id, cluster=CLUSTER if cluster else None)
    return binding(user, operation, "DENY", host, prefixed, of)


def joined(parts: Settings) -> str:
    """A text of settings: itself, or parts in any order, of which keys outside of tables come first."""
    if isinstance(parts, str):
        return parts
    texts = [*parts] if isinstance(parts, Iterable) else None
    if texts is None or not all(isinstance(it, str) for it in texts):
        raise TypeError("settings are a text, or a list of texts")
    return "".join(sorted(texts, key=lambda it: it.lstrip().startswith("[")))

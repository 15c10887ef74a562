"""Settings of each fault, of each two neighbours of the faults' order, and of none; and the program's command lines.

`check` reads each text, and what it prints is compared byte for byte, with its status. So is what it says on standard
error of a fault of each kind.
"""

import os
import subprocess
import tempfile
import unittest

from tests import support
from tests.support import PROGRAM, topic, user

WARNING = b"kbroker: settings: warning: "

# The keys that must be there.
REQUIRED = 'node_id = 1\nhost = "broker"\nport = 9092\n'

OPERATIONS = (
    "ALL READ WRITE CREATE DELETE ALTER DESCRIBE CLUSTER_ACTION DESCRIBE_CONFIGS ALTER_CONFIGS"
    " IDEMPOTENT_WRITE"
).split()

# The words of a binding that are chosen from a list, as the sentences on them list them.
WORDS = {
    "kind": ("kinds", ["Topic", "Group", "Cluster", "TransactionalId"]),
    "pattern": ("patterns", ["LITERAL", "PREFIXED"]),
    "operation": ("operations", OPERATIONS),
    "permission": ("permissions", ["ALLOW", "DENY"]),
}


def acl(**words):
    """A binding on the topics that begin so, but for these words."""
    return support.acl(**{"name": "logs", "pattern": "PREFIXED", **words})


# What stands after the required keys, and the fault that is named, if there is one.
SETTINGS = (
    ("", None),
    ("max_batch = 61", None),
    ("max_batch = 104857600", None),
    ("max_txn_timeout = 2147483647", None),
    ("trail_limit = 1", None),
    ("trail_limit = 1073741824", None),
    (topic("b.C_1-2", 1000), None),
    (topic("x" * 249), None),
    (user() + user("bob"), None),
    *((acl(kind=it), None) for it in ("Topic", "Group", "TransactionalId")),
    *((acl(operation=it), None) for it in OPERATIONS),
    (acl(kind="Cluster", name="kafka-cluster", principal="User:*", pattern="LITERAL"), None),
    ("=", "Toml"),
    ("x = 1", "Key"),
    ('trail_limit = "1"', "Key"),
    ('[[user]]\nname = "ann"\n', "Key"),
    (acl(kind="topic"), "Key"),
    (acl(kind="ANY"), "Key"),
    (acl(operation="ANY"), "Key"),
    (acl(operation="Read"), "Key"),
    (acl(pattern="MATCH"), "Key"),
    (user(name=""), "User"),
    (user(password=""), "User"),
    (user(name="a\\u0000"), "User"),
    (user() + user("bob") + user(), "User"),
    ("max_batch = 60", "Range"),
    ("max_batch = 104857601", "Range"),
    ("trail_limit = 0", "Range"),
    ("trail_limit = 1073741825", "Range"),
    ("max_txn_timeout = 0", "Range"),
    (topic(partitions=0), "Range"),
    (topic(partitions=1001), "Range"),
    (topic("a b"), "TopicName"),
    (topic(".."), "TopicName"),
    (topic("x" * 250), "TopicName"),
    (topic() + topic(partitions=2), "Twice"),
    (topic() + topic("b") + topic(), "Twice"),
    (acl(host=""), "Acl"),
    (acl(name=""), "Acl"),
    (acl(principal="ann"), "Acl"),
    (acl(kind="Cluster"), "Acl"),
    ('supers = ["User:"]', "Super"),
    ('supers = ["ann"]', "Super"),
    # of two faults the one that is looked for earlier
    ("racks = 1\n=", "Toml"),
    ("racks = 1\n" + user(name=""), "Key"),
    ("max_batch = 0\n" + user(name=""), "User"),
    ("max_batch = 0\n" + topic("."), "Range"),
    (topic() + topic() + topic(".."), "TopicName"),
    (topic() + topic() + acl(host=""), "Twice"),
    ('supers = ["ann"]\n' + acl(host=""), "Acl"),
)

# Whole texts, each of which lacks a key, or is no text.
WHOLE = (
    (b"", "Key"),
    (b'host = "broker"\nport = 9092\n', "Key"),
    (b"node_id = 1\nport = 9092\n", "Key"),
    (b'node_id = 1\nhost = "broker"\n', "Key"),
    (b'node_id = 1\nhost = "\xff"\nport = 9092\n', "Toml"),
    (b'node_id = 1\nhost = "broker"\nport = 0\n', "Range"),
    (b'node_id = 1\nhost = "broker"\nport = 0\n' + 2 * topic().encode(), "Range"),
    (b'node_id = 1\nhost = "broker"\nport = 65535\n', None),
    (b'node_id = 1\nhost = "broker"\nport = 65536\n', "Range"),
    (b'node_id = -1\nhost = "broker"\nport = 1\n', "Range"),
    (b'node_id = 1\nhost = ""\nport = 1\n', "Range"),
)

NAME_RULE = "a name is 1 to 249 ASCII letters, digits, `.`, `_` and `-`, and neither `.` nor `..`"
NO_PRINCIPAL = "and not `User:` and at least one character"
BELONGS = "is unknown there: it belongs before the first table"
BEFORE_TABLES = ("node_id", "host", "port", "supers", "trail_limit", "max_batch", "max_txn_timeout")

# What stands after the required keys, and what is said of it on standard error.
SENTENCES = (
    # keys
    ("x = 1", "the key `x` is unknown"),
    ('"a\\nb" = 1', "the key `a\\nb` is unknown"),
    ("trail_limit = true", "`trail_limit` is not an integer"),
    ("supers = 1", "`supers` is not a list"),
    ("supers = [1]", "`supers` is not a list of texts"),
    ("user = [1]", "`user`, entry 1: it is no table"),
    ('[[user]]\nname = "ann"\n', "`user`, entry 1: the key `password` is missing"),
    (topic() + topic("b", "true"), "`topic`, entry 2: `partitions` is not an integer"),
    (user() + "racks = 1\n", "`user`, entry 1: the key `racks` is unknown"),
    *((user() + f"{key} = []\n", f"`user`, entry 1: the key `{key}` {BELONGS}") for key in BEFORE_TABLES),
    (topic() + "supers = []\n", f"`topic`, entry 1: the key `supers` {BELONGS}"),
    (acl() + acl() + "port = 1\n", f"`acl`, entry 2: the key `port` {BELONGS}"),
    # users
    (user(name=""), "`user`, entry 1: `name` is empty"),
    (user() + user("bob", ""), "`user`, entry 2: `password` is empty"),
    (user(name="a\\u0000"), "`user`, entry 1: `name` holds a NUL"),
    (user(password="\\u0000"), "`user`, entry 1: `password` holds a NUL"),
    (user() + user(password="q"), "`user`, entries 1 and 2: the name `ann` stands twice"),
    (user("bob") + user() + user("eve") + user(), "`user`, entries 2 and 4: the name `ann` stands twice"),
    # numbers and lengths
    ("trail_limit = 0", "`trail_limit` is 0, and not from 1 to 1073741824"),
    ("max_batch = 60", "`max_batch` is 60, and not from 61 to 104857600"),
    ("max_txn_timeout = -1", "`max_txn_timeout` is -1, and not from 1 to 2147483647"),
    (topic(partitions=5000), "`topic`, entry 1: `partitions` is 5000, and not from 1 to 1000"),
    (topic() + topic("b", 0), "`topic`, entry 2: `partitions` is 0, and not from 1 to 1000"),
    ("".join(topic(f"t{it}") for it in range(1001)), "there are 1001 topics, and not at most 1000"),
    (acl(name="x" * 1001), "`acl`, entry 1: `name` has 1001 bytes, and not at most 1000"),
    (acl(principal="x" * 1002), "`acl`, entry 1: `principal` has 1002 bytes, and not at most 1000"),
    (acl() + acl(host="x" * 1003), "`acl`, entry 2: `host` has 1003 bytes, and not at most 1000"),
    (f'supers = ["{"x" * 1001}"]', "`supers`, entry 1: it has 1001 bytes, and not at most 1000"),
    # topics
    (topic("a b"), f"`topic`, entry 1: no topic may have the name `a b`: {NAME_RULE}"),
    (topic("a\\nb"), f"`topic`, entry 1: no topic may have the name `a\\nb`: {NAME_RULE}"),
    (topic() + topic(""), f"`topic`, entry 2: no topic may have the name ``: {NAME_RULE}"),
    (topic() + topic(), "`topic`, entries 1 and 2: the name `a` stands twice"),
    (topic("x") + topic() + topic("b") + topic(), "`topic`, entries 2 and 4: the name `a` stands twice"),
    # bindings
    (acl(name=""), "`acl`, entry 1: `name` is empty"),
    (acl(host=""), "`acl`, entry 1: `host` is empty"),
    (acl() + acl(kind="Cluster"), "`acl`, entry 2: the cluster's name is `kafka-cluster`, and not `logs`"),
    (acl(kind="Cluster", name=""), "`acl`, entry 1: the cluster's name is `kafka-cluster`, and not ``"),
    (acl(principal="ann"), f"`acl`, entry 1: `principal` is `ann`, {NO_PRINCIPAL}"),
    (acl(principal="User:"), f"`acl`, entry 1: `principal` is `User:`, {NO_PRINCIPAL}"),
    # super users
    ('supers = ["User:ann", "bob"]', f"`supers`, entry 2: it is `bob`, {NO_PRINCIPAL}"),
)

NO_VALUE = "invalid value, expected a string, number, boolean, date-time, array or inline table"
QUOTES = f"{NO_VALUE}: a text stands between quotes"

# Whole texts, and what is said of them.
WHOLE_SENTENCES = (
    (b"", "the key `node_id` is missing"),
    (b"node_id = 1\n[[user]]\nname = 1\n", "the key `host` is missing"),
    (b'node_id = 1\nhost = "h"\n[[user]]\nport = 1\n', f"`user`, entry 1: the key `port` {BELONGS}"),
    (b"node_id = 1\nhost = 1\nport = 1\n", "`host` is not a text"),
    (b'node_id = -1\nhost = "broker"\nport = 1\n', "`node_id` is -1, and not from 0 to 2147483647"),
    (b'node_id = 1\nhost = "broker"\nport = 65536\n', "`port` is 65536, and not from 1 to 65535"),
    (b'node_id = 1\nhost = ""\nport = 1\n', "`host` has 0 bytes, and not from 1 to 255"),
    (b'host = "\xff"\n', "the settings are not UTF-8"),
    # settings of Kafka's own form
    (
        b"listeners=SASL_PLAINTEXT://:9092\n",
        "TOML parse error at line 1, column 11\n`_` may only go between digits: a text stands between quotes",
    ),
    (b"super.users=User:admin\n", f"TOML parse error at line 1, column 13\n{QUOTES}"),
    (b"node_id = 1\nhost = localhost\n", f"TOML parse error at line 2, column 8\n{QUOTES}"),
    (b"log=kafka/data", f"TOML parse error at line 1, column 5\n{QUOTES}"),
    (b"port =\nhost = 1\n", f"TOML parse error at line 1, column 7\n{NO_VALUE}"),
    (b"port = # none\n", f"TOML parse error at line 1, column 8\n{NO_VALUE}"),
    (b"port\n", "TOML parse error at line 1, column 5\nkey with no value, expected `=`"),
)

# Command lines that ask for no job: what is said of them stands on standard error.
REFUSED = (
    [],
    ["--help"],
    ["check", "--help"],
    ["--version"],
    ["-V"],
    ["check", "--version"],
    ["serves"],
    ["replay", "one", "two"],
    ["check", "one", "--", "two"],
    ["check", "-x"],
    ["serve", "--listen", "127.0.0.1:0", "--workers", "65"],
)
MISUSED = 2
FAILED = 1

# The commands that read a file where one is named, and what each prints for REQUIRED alone.
READERS = {"check": b"settings ok\n", "replay": b"", "show": b""}


def said(words, given=b""):
    """What the program says on standard error."""
    return subprocess.run([PROGRAM, *words], input=given, capture_output=True, timeout=60).stderr.decode()


def run(words, given=b""):
    """What the program prints, its status, and whether it says something on standard error that is no warning."""
    ran = subprocess.run([PROGRAM, *words], input=given, capture_output=True, timeout=60)
    return ran.stdout, ran.returncode, not all(it.startswith(WARNING) for it in ran.stderr.splitlines())


def said_of(settings):
    """What the program says of settings with a fault."""
    return said(["check"], settings)


def of_word(key, word):
    """The settings of a binding with this word at the key, which is written as TOML."""
    lines = (f"{key} = {word}" if it.startswith(f"{key} =") else it for it in acl().splitlines())
    return (REQUIRED + "\n".join(lines)).encode()


class Settings(unittest.TestCase):
    def test_texts(self):
        rows = [((REQUIRED + more).encode(), fault) for more, fault in SETTINGS]
        for text, fault in (*rows, *WHOLE):
            with self.subTest(text=text):
                wanted = f"settings refused: {fault}\n" if fault else "settings ok\n"
                self.assertEqual(run(["check"], text), (wanted.encode(), 1 if fault else 0, bool(fault)))

    def test_sentences(self):
        rows = [((REQUIRED + more).encode(), sentence) for more, sentence in SENTENCES]
        for text, sentence in (*rows, *WHOLE_SENTENCES):
            with self.subTest(text=text):
                self.assertEqual(said_of(text), f"kbroker: settings: {sentence}\n")

    def test_words_of_bindings(self):
        for key, (plural, words) in WORDS.items():
            with self.subTest(key=key):
                for word in words:
                    name = "kafka-cluster" if word == "Cluster" else "logs"
                    text = of_word(key, f'"{word}"').replace(b'"logs"', f'"{name}"'.encode())
                    self.assertEqual(run(["check"], text), (b"settings ok\n", 0, False))
                sentence = f"`{key}` is `it`, which is none: the {plural} are {', '.join(words)}"
                self.assertEqual(said_of(of_word(key, '"it"')), f"kbroker: settings: `acl`, entry 1: {sentence}\n")
                sentence = f"kbroker: settings: `acl`, entry 1: `{key}` is not a text\n"
                self.assertEqual(said_of(of_word(key, "1")), sentence)

    def test_command_lines_that_ask_for_no_job(self):
        for words in REFUSED:
            with self.subTest(words=words):
                self.assertEqual(run(words), (b"", MISUSED, True))

    def test_warnings(self):
        warning = WARNING.decode() + "{}\n"
        for settings, warned in (
            (REQUIRED + user(), []),
            (REQUIRED, ["there is no `[[user]]`, so nobody can log in"]),
            (REQUIRED + user("bob") + acl(), ["`acl`, entry 1: `User:ann` is no `[[user]]`"]),
        ):
            with self.subTest(settings=settings):
                self.assertEqual(said(["check"], settings.encode()), "".join(warning.format(it) for it in warned))
                self.assertEqual(run(["check"], settings.encode()), (b"settings ok\n", 0, False))

    def test_version(self):
        for word in ("--version", "-V"):
            self.assertRegex(said([word]), r"\Akbroker \d+\.\d+\.\d+\n\Z")

    def test_usage_is_that_of_the_command(self):
        self.assertIn("kbroker serve [OPTIONS] --listen <ADDR>", said(REFUSED[-1]))

    def test_settings_of_the_help_are_taken(self):
        for command in ("check", "serve"):
            shown = [line[4:] for line in said([command, "--help"]).splitlines() if line.startswith("    ")]
            begin = shown.index("node_id = 1")
            text = "\n".join(shown[begin : begin + 6])
            self.assertEqual(run(["check"], text.encode()), (b"settings ok\n", 0, False))

    def test_files_in_place_of_standard_input(self):
        with tempfile.TemporaryDirectory() as folder:
            path = os.path.join(folder, "settings.toml")
            with open(path, "w", encoding="utf-8") as file:
                file.write(REQUIRED + "---\n")
            checked = os.path.join(folder, "-checked.toml")
            with open(checked, "w", encoding="utf-8") as file:
                file.write(REQUIRED)
            for command, printed in READERS.items():
                named = checked if command == "check" else path
                for words in ([named], ["--", named], [named, "--"]):
                    with self.subTest(command=command, words=words):
                        self.assertEqual(run([command, *words], b"="), (printed, 0, False))

    def test_a_file_that_cannot_be_opened(self):
        for command in READERS:
            with self.subTest(command=command), tempfile.TemporaryDirectory() as folder:
                path = os.path.join(folder, "none")
                self.assertEqual(run([command, path], REQUIRED.encode()), (b"", FAILED, True))
                self.assertTrue(said([command, path]).startswith(f"kbroker: {path}: the file can't be opened: "))

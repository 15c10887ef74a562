"""Command lines: words that can be no address, words that are no text, files that can't be read, and what is said at a terminal.

What the program says on standard error is compared whole, but for the usage below an option that is refused.
"""

import os
import pty
import resource
import subprocess
import tempfile
import unittest

from tests.support import PROGRAM, TOP, needs_proved_program, user

MISUSED, FAILED = 2, 1
FREE = "127.0.0.1:0"
NONE = "/none"
OPEN_FAILED = f"kbroker: {NONE}: the settings' file can't be opened: no such file or directory\n"

# What `--listen` refuses, and how.
NO_ADDRESS = (
    "",
    ":",
    "9092",
    "localhost",
    ":9092",
    "localhost:",
    "localhost:9092x",
    "localhost:x9092",
    "localhost: 9092",
    "localhost:-1",
    "localhost:65536",
    "localhost:99999",
    "localhost:18446744073709551616",
    "[::1]",
    "[::1]:",
    "PLAINTEXT://127.0.0.1:9092",
    "//127.0.0.1:9092",
)
UNREAD = "kbroker: the input can't be read\n"
DIRECTORY = "kbroker: {}: is a directory\n"
TAKES_AN_ADDRESS = (
    "error: --listen takes HOST:PORT, as in 127.0.0.1:9092, with a port from 0 to 65535 and no PLAINTEXT:// before it\n"
)
USAGE = "Usage: kbroker serve [OPTIONS] --listen <ADDR>\n"

NO_TEXT = "kbroker: the command line: an argument is not UTF-8\n"

# A file of so many bytes doesn't fit in so much memory.
LONG, ROOM = 1 << 28, 1 << 27

# What is typed after each command, what it waits for, and how it ends.
TYPED = (
    (("check",), TOP + user(), "the settings", 0, "settings ok\n"),
    (("replay",), TOP + "---\nmark\n", "the script", 0, "-\n"),
    (("show",), "mark\n", "the script", 0, "line 1: mark\n"),
    (("show", "--answers", os.devnull), "mark\n", "the script", 0, "line 1: mark\n  answer none, the answers end before it\n"),
    (("serve", "--listen", FREE), "=\n", "the settings", FAILED, "settings refused: Toml\n"),
)
CTRL_D = b"\x04"


def ended(*words, given=b"", **options):
    """The status, the text and the errors of a run."""
    ran = subprocess.run([PROGRAM, *words], input=given, capture_output=True, timeout=60, **options)
    return ran.returncode, ran.stdout.decode(), ran.stderr.decode()


def ended_at_terminal(typed, *words):
    """The same where this is typed at a terminal, and then Ctrl-D."""
    keyboard, terminal = pty.openpty()
    try:
        os.write(keyboard, typed.encode() + CTRL_D)
        ran = subprocess.run([PROGRAM, *words], stdin=terminal, stdout=subprocess.PIPE, stderr=subprocess.PIPE, timeout=60)
    finally:
        os.close(keyboard)
        os.close(terminal)
    return ran.returncode, ran.stdout.decode(), ran.stderr.decode()


class Words(unittest.TestCase):
    def test_words_that_can_be_no_address(self):
        for address in NO_ADDRESS:
            with self.subTest(address=address):
                status, printed, said = ended("serve", "--listen", address, "--settings", NONE)
                self.assertEqual((status, printed), (MISUSED, ""))
                self.assertEqual(said[: len(TAKES_AN_ADDRESS)], TAKES_AN_ADDRESS)
                self.assertIn(USAGE, said)

    def test_log_times_is_a_flag(self):
        words = "serve", "--listen", FREE, "--settings", NONE
        self.assertEqual(ended(*words, "--log-times"), (FAILED, "open failed\n", OPEN_FAILED))
        self.assertEqual(ended(*words, "--log-times=1")[:2], (MISUSED, ""))
        self.assertEqual(ended(*words, "--log-times", "1")[:2], (MISUSED, ""))
        self.assertIn("--log-times\n", ended("serve", "--help")[2])

    def test_a_port_alone_is_told_what_is_taken(self):
        for option in ("--port", "-p"):
            with self.subTest(option=option):
                status, printed, said = ended("serve", option, "9092")
                self.assertEqual((status, printed), (MISUSED, ""))
                self.assertEqual(said[: len(TAKES_AN_ADDRESS)], TAKES_AN_ADDRESS)

    def test_config_names_the_settings_file_too(self):
        self.assertEqual(ended("serve", "--listen", FREE, "--config", NONE), (FAILED, "open failed\n", OPEN_FAILED))
        self.assertEqual(ended("serve", "--listen", FREE, "--config", NONE, "--settings", NONE)[:2], (MISUSED, ""))

    def test_help_fits_in_a_hundred_columns(self):
        for command in ((), ("replay",), ("check",), ("serve",), ("show",)):
            for line in ended(*command, "--help")[2].splitlines():
                self.assertLessEqual(len(line), 100, line)

    def test_help_tells_where_to_read_on(self):
        for command, page in ((), "docs/USING.md"), (("serve",), "docs/OPERATING.md"):
            self.assertIn(page, ended(*command, "--help")[2])

    def test_words_that_are_no_text(self):
        for words in ((b"\xff",), (b"check", b"a\xff"), (b"serve", b"--listen", b"\xc3:9092"), (b"show", b"--answers", b"\xff", b"a")):
            with self.subTest(words=words):
                self.assertEqual(ended(*words), (MISUSED, "", NO_TEXT))


class Files(unittest.TestCase):
    def test_a_script_that_is_no_file(self):
        with tempfile.TemporaryDirectory() as folder:
            said = f"kbroker: {folder}: it can't be read\n" + DIRECTORY.format(folder)
            self.assertEqual(ended("show", folder), (FAILED, "", said))

    def test_a_folder_or_nothing_in_place_of_a_text(self):
        with tempfile.TemporaryDirectory() as folder:
            for words in (("check", folder), ("replay", folder), ("serve", "--listen", FREE, "--settings", folder)):
                with self.subTest(words=words):
                    self.assertEqual(ended(*words), (FAILED, "", UNREAD + DIRECTORY.format(folder)))
        for words in (("check",), ("replay",), ("serve", "--listen", FREE)):
            with self.subTest(words=words):
                closed = (FAILED, "", UNREAD + "kbroker: standard input: it is closed\n")
                self.assertEqual(ended(*words, preexec_fn=lambda: os.close(0)), closed)

    @needs_proved_program("the checks of the other one want memory of their own")
    def test_files_that_do_not_fit_in_memory(self):
        with tempfile.NamedTemporaryFile() as file:
            file.truncate(LONG)
            for words in ((file.name,), ("--answers", file.name)):
                with self.subTest(words=words):
                    confined = {"preexec_fn": lambda: resource.setrlimit(resource.RLIMIT_AS, (ROOM, ROOM))}
                    told = f"kbroker: {file.name}: there is not enough memory\n"
                    self.assertEqual(ended("show", *words, given=b"mark\n", **confined), (FAILED, "", told))


class Terminal(unittest.TestCase):
    def test_what_is_waited_for(self):
        for words, typed, what, status, printed in TYPED:
            with self.subTest(words=words):
                *came, said = ended_at_terminal(typed, *words)
                self.assertEqual(came, [status, printed])
                waits, *others = said.splitlines()
                self.assertEqual(waits, f"kbroker: standard input: waiting for {what}, up to Ctrl-D")
                self.assertEqual(bool(others), status != 0, others)

    def test_files_are_not_waited_for(self):
        with tempfile.NamedTemporaryFile("w") as file:
            print(TOP, end="---\n", file=file, flush=True)
            for command in ("replay", "show"):
                with self.subTest(command=command):
                    self.assertEqual(ended_at_terminal("", command, file.name), (0, "", ""))
        for words in ((), ("--control",), ("--stop-with-input",)):
            with self.subTest(words=words):
                came = ended_at_terminal("", "serve", "--listen", FREE, "--settings", NONE, *words)
                self.assertEqual(came, (FAILED, "open failed\n", OPEN_FAILED))

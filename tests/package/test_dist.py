"""What users install: the tarball, the package for Debian and the wheel of `make dist`, and what `make install` lays.

Each is unpacked into an empty folder and run there: scripts are answered, clients are served, and a signal stops the server with
its last line, also where the command is process 1 and finds neither Python nor a folder for its files. The same sources give the same
bytes.
"""

import hashlib
import importlib.util
import io
import json
import os
import re
import shutil
import signal
import subprocess
import sys
import tarfile
import tempfile
import unittest
from datetime import datetime, timezone
from pathlib import Path
from unittest import mock

import dist_files
import dist_pages
import dist_proof
from kbroker_testing.broker import BrokerProcess
from kbroker_testing.protocol import batch, logged_in, partition_of
from program import ROOT, what_lacks
from tests.support import OF_ROOT, PROGRAM, of_b, topic

SETTINGS = OF_ROOT + topic("b")
WAIT = 120  # seconds that a command may take
VERSION = dist_files.version()
TOP = f"kbroker-{VERSION}-linux-x86_64"
TARBALL, DEB, WHEEL = f"{TOP}.tar.gz", f"kbroker_{VERSION}_amd64.deb", f"kbroker_testing-{VERSION}-py3-none-any.whl"
# What each installation has, beside pages and examples.
FILES = (
    "bin/kbroker",
    "libexec/kbroker/kbroker",
    "lib/systemd/system/kbroker.service",
    "share/bash-completion/completions/kbroker",
    "share/doc/kbroker/LICENSE",
    "share/doc/kbroker/PROOF",
    "share/doc/kbroker/README.md",
    "share/doc/kbroker/examples/server.toml",
    f"share/kbroker/{WHEEL}",
    "share/man/man1/kbroker.1",
    "share/zsh/site-functions/_kbroker",
)
# All that the command calls, but for the program.
CALLED = "sh", "dirname", "readlink", "mktemp", "mkfifo", "rm"
PROCESS_1 = ["unshare", "--pid", "--fork", "--kill-child"]
COMMANDS = (), ("check",), ("replay",), ("serve",), ("show",)
# It says its words, its environment and its input, and has a status of its own.
STAND_IN = '#!/bin/sh\necho "$@" $MALLOC_MMAP_THRESHOLD_ $MALLOC_TRIM_THRESHOLD_\ncat\nexit 7\n'

folder = None  # in which all is packed


def setUpModule():
    """Packs everything, twice, unpacks it, and makes a folder with no more commands than it calls."""
    global folder
    folder = Path(unittest.enterModuleContext(tempfile.TemporaryDirectory()))
    made = [subprocess.Popen([ROOT / "tools/dist.py", "--program", PROGRAM, "--into", folder / it]) for it in ("packed", "again")]
    if any([it.wait(WAIT) for it in made]):
        raise AssertionError("nothing is packed")
    shutil.unpack_archive(folder / "packed" / TARBALL, folder)
    (folder / "path").mkdir()
    for name in CALLED:
        (folder / "path" / name).symlink_to(shutil.which(name))


def run(*words, status=0, **more):
    """What a command prints, which ends with this status."""
    ran = subprocess.run(words, capture_output=True, encoding="utf-8", timeout=WAIT, **{"stdin": subprocess.DEVNULL, **more})
    if ran.returncode != status:
        raise AssertionError(f"{words} ends with {ran.returncode}: {ran.stdout}{ran.stderr}")
    return ran.stdout


def command():
    """The command that was unpacked."""
    return folder / TOP / "bin/kbroker"


def make(*words, status=0):
    """What `make` prints for these words, of which it hears from nobody else."""
    asked = {name: it for name, it in os.environ.items() if name not in ("MAKEFLAGS", "MAKELEVEL", "MFLAGS", "PREFIX", "DESTDIR")}
    return run("make", "-s", *words, f"KBROKER_PROGRAM={PROGRAM.resolve()}", cwd=ROOT, env=asked, status=status)


def files_below(top):
    """The files and the folders below a folder, by their paths there."""
    return sorted(str(it.relative_to(top)) for it in Path(top).rglob("*"))


# ---- what is packed


class Packed(unittest.TestCase):
    def test_checksums(self):
        """Those of the files beside them, and those of the files in the tarball, of which they leave out none but themselves."""
        names = {DEB, "PROOF", TARBALL, WHEEL}
        for top, wanted in ((folder / "packed", names), (folder / TOP, {*files_below(folder / TOP)})):
            with self.subTest(top=top.name):
                said = run("sha256sum", "--check", "--strict", "SHA256SUMS", cwd=top).splitlines()
                self.assertEqual({it.removesuffix(": OK") for it in said}, {it for it in wanted if (top / it).is_file()} - {"SHA256SUMS"})

    def test_the_same_bytes(self):
        first, second = ({it.name: it.read_bytes() for it in (folder / name).iterdir()} for name in ("packed", "again"))
        self.assertEqual(first.keys(), {DEB, "PROOF", "SHA256SUMS", TARBALL, WHEEL})
        self.assertEqual([name for name in first if first[name] != second[name]], [])

    def test_the_tarball(self):
        """Its files, all of root's and as old as the version."""
        self.assertLessEqual({*FILES}, {*files_below(folder / TOP)})
        with tarfile.open(folder / "packed" / TARBALL) as archive:
            members = archive.getmembers()
        self.assertEqual(len({it.name for it in members}), len(members))
        self.assertEqual({(it.uid, it.gid) for it in members}, {(0, 0)})
        moments = {datetime.fromtimestamp(it.mtime, timezone.utc).isoformat() for it in members}
        self.assertEqual(moments, {f"{dist_files.released()}T00:00:00+00:00"})
        modes = {it.name: it.mode for it in members if it.isfile() and it.mode != 0o644}
        self.assertEqual(modes, {f"{TOP}/bin/kbroker": 0o755, f"{TOP}/libexec/kbroker/kbroker": 0o755})

    def test_the_program(self):
        self.assertEqual((folder / TOP / "libexec/kbroker/kbroker").read_bytes(), PROGRAM.read_bytes())

    def test_the_version_stands_in_one_place(self):
        """The others follow it."""
        rows = (
            ("python/pyproject.toml", r'^version = "(.+)"$'),
            ("packaging/Containerfile", r"^ARG VERSION=(.+)$"),
            ("CHANGELOG.md", rf"^## ({re.escape(VERSION)}), "),
            ("docs/OPERATING.md", r" INFO kbroker: version (\S+) as node "),
        )
        self.assertEqual(run(command(), "--version"), f"kbroker {VERSION}\n")
        for path, pattern in rows:
            with self.subTest(path=path):
                self.assertEqual({*re.findall(pattern, (ROOT / path).read_text(), re.M)}, {VERSION})


class Proof(unittest.TestCase):
    """The file PROOF."""

    GATE = {"commit": "0123abcd", "date": "2026-12-01", "kit": "a kit", "last": "9 passed, 0 failed"}
    GATE |= {"processors": 4, "machine": "a machine"}

    def told(self, program=PROGRAM, gate=None, are_same=False):
        """The lines of the file, by their names."""
        text = dist_proof.text_of(program.resolve(), VERSION, gate, are_same)
        return dict(re.findall(r"^(\w[\w ]*): +(.+)$", text, re.M))

    def test_what_was_packed(self):
        """It is of the program that was packed, and calls it proved where it is."""
        text = (folder / "packed/PROOF").read_text()
        self.assertEqual(text, (folder / TOP / "share/doc/kbroker/PROOF").read_text())
        self.assertIn(f"sha256:    {hashlib.sha256(PROGRAM.read_bytes()).hexdigest()}\n", text)
        built = {dist_proof.UNPROVED: "no: nothing was proved"} | ({} if what_lacks() else {dist_proof.PROGRAM: "yes: "})
        self.assertIn(f"proved:    {built.get(PROGRAM.resolve(), 'unknown: ')}", text)

    def test_a_program_without_a_proof(self):
        """Whatever the gate says of the sources, nothing was proved of it."""
        with mock.patch.object(dist_proof, "UNPROVED", Path("/bin/true").resolve()):
            told = self.told(Path("/bin/true"), self.GATE, are_same=True)
        self.assertTrue(told["proved"].startswith("no: nothing was proved of this program"), told)
        self.assertNotIn("gate", told)

    def test_a_program_of_others(self):
        told = self.told(Path("/bin/true"), self.GATE, are_same=True)
        self.assertTrue(told["proved"].startswith("unknown: "), told)
        self.assertNotIn("gate", told)

    def test_a_proved_program(self):
        """The gate's last line stands there only where it was run over the very sources."""
        rows = (
            (self.GATE, True, "9 passed, 0 failed"),
            (self.GATE, False, "not run over these sources: the last `make verify` was over commit 0123abcd"),
            (None, False, "not run: no `make verify` is known over these sources"),
        )
        for gate, are_same, wanted in rows:
            with self.subTest(wanted=wanted), mock.patch.object(dist_proof, "proved", lambda _: dist_proof.PROVED):
                told = self.told(gate=gate, are_same=are_same)
                self.assertEqual((told["proved"], told["gate"]), (dist_proof.PROVED, wanted))
                self.assertEqual(told.get("gate run"), "2026-12-01, by a kit, on 4 processors (a machine)" if are_same else None)

    def test_what_is_known_of_the_gate(self):
        """All of it, or nothing: a file that an older gate wrote, or half of one, tells nothing."""
        file = Path(self.enterContext(tempfile.TemporaryDirectory()), "gate.json")
        self.assertIsNone(dist_proof.last_gate(file))
        texts = json.dumps(self.GATE), json.dumps({"last": "9 passed, 0 failed"}), json.dumps(self.GATE)[:-1]
        for text, wanted in zip(texts, (self.GATE, None, None)):
            file.write_text(text)
            self.assertEqual(dist_proof.last_gate(file), wanted)

    def test_sources_of_a_commit(self):
        """Pages may have changed since, and nothing of which the program is made."""
        top = Path(self.enterContext(tempfile.TemporaryDirectory()))
        (top / "crates").mkdir()
        for name in (*dist_proof.SOURCES[1:], "crates/lib.rt", "README.md"):
            (top / name).write_text("one")
        git = ["git", "-C", top, "-c", "user.name=a", "-c", "user.email=a@b"]
        run(*git, "init", "-q")
        run(*git, "add", ".")
        run(*git, "commit", "-q", "-m", "one")
        name = run(*git, "rev-parse", "HEAD").strip()
        (top / "README.md").write_text("two")
        self.assertTrue(dist_proof.is_of(name, top))
        self.assertFalse(dist_proof.is_of(f"{name}, with changes", top))
        (top / "crates/lib.rt").write_text("two")
        self.assertFalse(dist_proof.is_of(name, top))


# ---- the command


class Installed(BrokerProcess):
    """A broker that the unpacked command starts, with no Python and no folder for files at hand."""

    def words(self, settings):
        return ["--settings", settings.name], subprocess.DEVNULL

    def run(self, words, stdin):
        bare = [shutil.which("env"), "-i", f"PATH={folder / 'path'}", "TMPDIR=/none"]
        return super().run([*bare, *words], stdin)

    def command(self):
        """The number of the command's process."""
        return self.process.pid


class First(Installed):
    """The same, where the command is process 1."""

    def run(self, words, stdin):
        return super().run([shutil.which(PROCESS_1[0]), *PROCESS_1[1:], *words], stdin)

    def command(self):
        [child] = Path(f"/proc/{self.process.pid}/task/{self.process.pid}/children").read_text().split()
        if not re.search(r"^NSpid:.*\t1$", Path(f"/proc/{child}/status").read_text(), re.M):
            raise AssertionError("the command isn't process 1")
        return int(child)


class Command(unittest.TestCase):
    def assert_stops(self, broker, sent):
        """A client is served, and a signal stops the broker while it is connected: the last line comes, and the status is 0."""
        with broker, logged_in(broker.address) as client:
            given = client.ask("Produce", topics=of_b(records=batch([b"a cup"])))
            self.assertEqual(partition_of(given)["base_offset"], 0)
            os.kill(broker.command(), sent)
            settled, told = broker.settled()
        self.assertEqual((settled.sessions, settled.refusals, told), (1, 0, []))

    def test_a_clean_stop(self):
        for sent in (signal.SIGTERM, signal.SIGINT):
            with self.subTest(sent.name):
                self.assert_stops(Installed(SETTINGS, command()), sent)

    def test_as_process_1(self):
        """With the options by which the image serves."""
        if subprocess.run([*PROCESS_1, "true"], capture_output=True).returncode:
            self.skipTest("`unshare --pid` isn't permitted, so nothing can be process 1 here")
        [words] = re.findall(r"^CMD (.+)$", (ROOT / "packaging/Containerfile").read_text().replace("\\\n", ""), re.M)
        serves = json.loads(words)
        self.assertEqual(serves[:7:2], ["serve", "/etc/kbroker/settings.toml", "0.0.0.0:9092", "64"])
        self.assert_stops(First(SETTINGS, command(), more=serves[7:]), signal.SIGTERM)

    def test_examples(self):
        """What it answers to them is what stands beside them."""
        scripts = sorted((folder / TOP / "share/doc/kbroker/examples").glob("*.txt"))
        self.assertIn("transfer.txt", [it.name for it in scripts])
        for script in scripts:
            with self.subTest(script=script.name):
                self.assertEqual(run(command(), "replay", script), (ROOT / "examples" / script.name).with_suffix(".out").read_text())

    def test_help_and_version(self):
        """They go to standard output, with status 0, and are what the program says, on standard error."""
        for words in (*((*it, "--help") for it in COMMANDS), ("serve", "-h"), ("help",), ("help", "show"), ("-V",), ("--version",)):
            with self.subTest(words=words):
                self.assertEqual(run(command(), *words), dist_pages.said(PROGRAM, *words))

    def test_what_is_not_understood(self):
        """It stays on standard error, with the program's status."""
        for words in ((), ("srve", "--help"), ("help", "srve"), ("serve", "--version"), ("--help", b"\xff"), ("check", "--", "--help")):
            with self.subTest(words=words):
                streams = {"stdin": subprocess.DEVNULL, "capture_output": True, "timeout": WAIT}
                ended, wanted = (subprocess.run([it, *words], **streams) for it in (command(), PROGRAM))
                self.assertEqual((ended.returncode, ended.stdout, ended.stderr), (wanted.returncode, b"", wanted.stderr))
                self.assertNotEqual(wanted.returncode, 0)

    def test_what_the_program_is_given(self):
        """Its own words, `--stop-with-input` where it serves by a file alone, and what the C library is told."""
        top = Path(self.enterContext(tempfile.TemporaryDirectory()))
        for path, text in (("bin/kbroker", command().read_text()), ("libexec/kbroker/kbroker", STAND_IN)):
            (top / path).parent.mkdir(parents=True)
            (top / path).write_text(text)
            (top / path).chmod(0o755)
        (top / "link").symlink_to("bin/kbroker")
        limits, serves = "8388608 16777216\n", "serve --listen a --settings f"
        for words in ("replay", "check f", "serve --listen a", f"{serves} --control", f"{serves} --stop-with-input"):
            with self.subTest(words=words):
                told = run(top / "link", *words.split(), status=7, input="input\n", stdin=None)
                self.assertEqual(told, f"{words} {limits}input\n")
        stopped = subprocess.Popen([top / "link", *serves.split()], stdout=subprocess.PIPE, encoding="utf-8")
        self.addCleanup(stopped.wait)
        self.addCleanup(stopped.kill)
        self.assertEqual(stopped.stdout.readline(), f"{serves} --stop-with-input {limits}")
        stopped.terminate()
        self.assertEqual((stopped.communicate(timeout=WAIT)[0], stopped.returncode), ("", 7))


# ---- where it is installed


class Laid(unittest.TestCase):
    """`make install` and `make uninstall`."""

    def setUp(self):
        self.top = Path(self.enterContext(tempfile.TemporaryDirectory()))

    def test_nothing_is_left(self):
        """All goes that came. The unit names the command as it is without DESTDIR."""
        make("install", f"DESTDIR={self.top}", "PREFIX=/opt/a b")
        self.assertLessEqual({f"opt/a b/{it}" for it in FILES}, {*files_below(self.top)})
        self.assertIn('ExecStart="/opt/a b/bin/kbroker" serve ', (self.top / "opt/a b/lib/systemd/system/kbroker.service").read_text())
        self.assertEqual(run(self.top / "opt/a b/bin/kbroker", "--version"), f"kbroker {VERSION}\n")
        make("uninstall", f"DESTDIR={self.top}", "PREFIX=/opt/a b")
        self.assertEqual(files_below(self.top), [])

    def test_over_an_earlier_one(self):
        """What the earlier one alone had goes. What is others' stays."""
        own, others = self.top / "share/kbroker/own", self.top / "share/man/others"
        make("install", f"PREFIX={self.top}")
        before = files_below(self.top)
        own.touch()
        others.touch()
        with (self.top / "share/kbroker/installed").open("a") as listed:
            listed.write(f"{own}\n")
        make("install", f"PREFIX={self.top}")
        self.assertEqual(files_below(self.top), sorted([*before, "share/man/others"]))
        make("uninstall", f"PREFIX={self.top}")
        self.assertEqual(files_below(self.top), ["share", "share/man", "share/man/others"])
        make("uninstall", f"PREFIX={self.top}", status=2)

    def test_the_unit(self):
        """A broker serves with the options in it, and where systemd is installed it has nothing to say against it."""
        make("install", f"PREFIX={self.top}")
        unit = self.top / "lib/systemd/system/kbroker.service"
        [options] = re.findall(r'^Environment="KBROKER_OPTIONS=--listen \S+ --workers 64 (.+)"$', unit.read_text(), re.M)
        with Installed(SETTINGS, self.top / "bin/kbroker", more=options.split()) as broker:
            os.kill(broker.command(), signal.SIGTERM)
            self.assertEqual(broker.settled()[0].sessions, 0)
        if shutil.which("systemd-analyze"):
            said = subprocess.run(["systemd-analyze", "verify", "--man=no", unit], capture_output=True, encoding="utf-8", timeout=WAIT)
            self.assertEqual((said.returncode, said.stderr), (0, ""))


class Wheel(unittest.TestCase):
    def test_where_no_index_is(self):
        """In an environment that has nothing else it is imported, and starts a broker."""
        if importlib.util.find_spec("pip") is None:
            self.skipTest("pip isn't installed")
        top = self.enterContext(tempfile.TemporaryDirectory())
        run(sys.executable, "-m", "venv", "--without-pip", top)
        python = f"{top}/bin/python"
        run(sys.executable, "-m", "pip", "--python", python, "install", "--no-index", folder / "packed" / WHEEL, env=self.quiet())
        does = "import kbroker_testing.broker as it; print(it.__file__)\nwith it.Kbroker(it.joined([])) as b: print(b.state().events)"
        said = run(python, "-I", "-c", does, cwd=top, env={"PATH": os.environ["PATH"], "KBROKER": str(command())}).splitlines()
        self.assertTrue(said[0].startswith(f"{top}/lib/"), said)
        self.assertEqual(said[1:], ["0"])
        finds = "from importlib.metadata import entry_points as e, version as v; print(v('kbroker-testing'), *e(group='pytest11'))"
        self.assertIn(f"{VERSION} EntryPoint(name='kbroker', value='kbroker_testing.pytest_plugin'", run(python, "-I", "-c", finds))

    def quiet(self):
        """The environment, of which nothing tells pip to look elsewhere."""
        return {name: it for name, it in os.environ.items() if not name.startswith("PIP_")} | {"PIP_DISABLE_PIP_VERSION_CHECK": "1"}


class Deb(unittest.TestCase):
    """The package for Debian, read without its tools, and by them where they are."""

    @classmethod
    def setUpClass(cls):
        cls.path = folder / "packed" / DEB
        cls.members = cls.members_of(cls.path.read_bytes())
        cls.control, cls.data = (cls.files_of(cls.members[f"{it}.tar.gz"]) for it in ("control", "data"))

    @staticmethod
    def members_of(text):
        """The members of an `ar` archive, in their order."""
        assert text[:8] == b"!<arch>\n"
        found, at = {}, 8
        while at < len(text):
            name, size = text[at : at + 16].decode().strip(), int(text[at + 48 : at + 58])
            assert text[at + 58 : at + 60] == b"`\n"
            found[name] = text[at + 60 : at + 60 + size]
            at += 60 + size + size % 2
        return found

    @staticmethod
    def files_of(tarball):
        """What the files of a tarball hold, by their paths."""
        with tarfile.open(fileobj=io.BytesIO(tarball)) as archive:
            return {it.name: archive.extractfile(it).read() for it in archive.getmembers() if it.isfile()}

    def fields(self):
        """The fields of the control file, but for the description's further lines."""
        return dict(line.split(": ", 1) for line in self.control["./control"].decode().splitlines() if not line.startswith(" "))

    def test_its_members(self):
        self.assertEqual([*self.members], ["debian-binary", "control.tar.gz", "data.tar.gz"])
        self.assertEqual(self.members["debian-binary"], b"2.0\n")

    def test_control(self):
        fields = self.fields()
        self.assertEqual((fields["Package"], fields["Version"], fields["Architecture"]), ("kbroker", VERSION, "amd64"))
        self.assertRegex(fields["Maintainer"], r"^\w.* <\S+@\S+>$")
        size = sum(map(len, self.data.values())) / 1024
        self.assertTrue(size <= int(fields["Installed-Size"]) <= size + len(self.data), (size, fields))

    def test_what_it_needs(self):
        """The packages that have the libraries which the loader finds for it."""
        packages = {"libc.so.6": "libc6", "libm.so.6": "libc6", "libgcc_s.so.1": "libgcc-s1"}
        needed = {packages[it] for it in re.findall(r"^\s*(lib\S+) => ", run("ldd", PROGRAM), re.M)}
        self.assertEqual({it.split()[0] for it in self.fields()["Depends"].split(", ")}, needed)
        self.assertRegex(self.fields()["Depends"], r"^libc6 \(>= 2\.\d+\)")

    def test_its_files(self):
        """Debian has the licence, the changes, the manual page and the completions for zsh elsewhere."""
        elsewhere = {"share/doc/kbroker/LICENSE": "share/doc/kbroker/copyright", "share/man/man1/kbroker.1": "share/man/man1/kbroker.1.gz"}
        elsewhere |= {"share/zsh/site-functions/_kbroker": "share/zsh/vendor-completions/_kbroker", "SHA256SUMS": None}
        elsewhere |= {"share/doc/kbroker/CHANGELOG.md": "share/doc/kbroker/changelog.gz"}
        tarball = [it for it in files_below(folder / TOP) if (folder / TOP / it).is_file()]
        wanted = {f"./usr/{elsewhere.get(it, it)}" for it in tarball} - {"./usr/None"}
        self.assertEqual({*self.data}, wanted)
        sums = dict(reversed(line.split("  ")) for line in self.control["./md5sums"].decode().splitlines())
        self.assertEqual(sums, {path[2:]: hashlib.md5(data).hexdigest() for path, data in self.data.items()})

    @unittest.skipUnless(shutil.which("dpkg-deb"), "dpkg-deb isn't installed")
    def test_by_its_own_tools(self):
        """They read the same of it, and what they unpack runs."""
        for name, text in self.fields().items():
            self.assertEqual(run("dpkg-deb", "--field", self.path, name).split("\n")[0], text)
        told = [line.split() for line in run("dpkg-deb", "--contents", self.path).splitlines()]
        self.assertEqual({it[5] for it in told if it[0].startswith("-")}, {*self.data})
        self.assertEqual({it[1] for it in told}, {"root/root"})
        self.assertIn("./etc/kbroker/", [it[5] for it in told])
        top = self.enterContext(tempfile.TemporaryDirectory())
        run("dpkg-deb", "--extract", self.path, top)
        self.assertEqual(run(f"{top}/usr/bin/kbroker", "--version"), f"kbroker {VERSION}\n")


# ---- the manual page and completions


class Pages(unittest.TestCase):
    def options(self):
        """The options of each command, as its help has them."""
        said = {it: dist_pages.said(PROGRAM, *it, "--help") for it in COMMANDS[1:]}
        found = {it: re.findall(r"^ +(?:-\w, )?(--[\w-]+)", text, re.M) for it, text in said.items()}
        self.assertIn("--stop-with-input", found["serve",])
        return found

    def completed(self, *words):
        """What bash may put in the place of the last of these words."""
        script = 'compopt() { :; }; . "$0"; COMP_WORDS=(kbroker "$@"); COMP_CWORD=$#; _kbroker; printf "%s\\n" "${COMPREPLY[@]}"'
        path = folder / TOP / "share/bash-completion/completions/kbroker"
        return {*run("bash", "-c", script, path, *words).split()}

    def test_the_manual(self):
        """It names each command and each option, and where `man` is installed it has nothing to say against it."""
        path = folder / TOP / "share/man/man1/kbroker.1"
        text = path.read_text().replace("\\-", "-")
        self.assertNotRegex(text, r"@[A-Z]+@")
        for words, options in self.options().items():
            part = text.partition(f"\n.SS {words[0]}\n")[2].partition("\n.S")[0]
            self.assertEqual([it for it in options if not re.search(rf"^\.B .*{it}\b", part, re.M)], [], words)
        if shutil.which("man"):
            shown = subprocess.run(["man", "--warnings", "-l", path], capture_output=True, encoding="utf-8", timeout=WAIT)
            self.assertEqual((shown.returncode, shown.stderr), (0, ""))
            self.assertIn("kbroker serve [OPTIONS] --listen <ADDR>", shown.stdout)

    @unittest.skipUnless(shutil.which("bash"), "bash isn't installed")
    def test_completions_of_bash(self):
        """Commands, the options of each, and nothing where a value or a file stands."""
        commands = {"check", "replay", "serve", "show"}
        self.assertEqual(self.completed(""), commands | {"help", "--help", "--version"})
        self.assertEqual(self.completed("he"), {"help"})
        self.assertEqual(self.completed("help", ""), commands)
        for words, options in self.options().items():
            self.assertEqual(self.completed(*words, "--"), {*options})
        self.assertEqual(self.completed("serve", "--st"), {"--stop-with-input"})
        self.assertEqual(self.completed("serve", "--audit", ""), {"-"})
        for words in (("serve", "--listen"), ("serve", "--settings"), ("show", "--answers"), ("check",)):
            self.assertEqual(self.completed(*words, ""), set(), words)

    def test_completions_of_zsh(self):
        """They name each option of each command, and where zsh is installed it can read them."""
        path = folder / TOP / "share/zsh/site-functions/_kbroker"
        for words, options in self.options().items():
            part = re.search(rf"^ +{words[0]}\)\n(.*?);;$", path.read_text(), re.M | re.S)[1]
            self.assertEqual(re.findall(r"^ +'(--[\w-]+)\[", part, re.M), options)
        if shutil.which("zsh"):
            self.assertEqual(run("zsh", "-n", path), "")


if __name__ == "__main__":
    unittest.main()

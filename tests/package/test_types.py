"""The package has types: mypy finds no fault in it by its strictest rules, and finds those of whoever uses it."""

import os
import shutil
import subprocess
import sys
import sysconfig
import tempfile
import unittest
import venv
from pathlib import Path

from program import ROOT

sys.path.insert(0, str(ROOT / "python"))

import build_backend  # noqa: E402

PROJECT = ROOT / "python/pyproject.toml"
LIMIT = 300  # seconds, which no run of mypy takes
# What an author of tests writes. Where a line ends with a comment, mypy has to say this of it, and it says nothing else.
USER = '''
from typing import Optional

from kbroker_testing.broker import Kbroker, Marker, Moment, Settled
from kbroker_testing.protocol import Connection, batch
from kbroker_testing.settings import allow, super_users, topic, user
from kbroker_testing.waiting import background, wait_until

SETTINGS = [super_users("bank"), user("bank", "secret"), topic("debits", partitions=2), allow("ann", "READ", topic="debits")]
with Kbroker(SETTINGS, clock=True) as broker, broker.steered(), Connection(broker.address) as client:
    moment: Moment = broker.advance(5)
    aborted: tuple[str, ...] = moment.aborted
    marker: Optional[Marker] = broker.mark()
    names: list[str] = [it.name for it in broker.marks()]
    stable: int = broker.state().partitions["debits", 0].stable
    began: int = broker.state().transactions["transfer"].began
    owed: int = wait_until(lambda: broker.state().owed)
    late: list[Marker] = background(broker.marks).result(30)
    code: int = client.login("bank", "secret")
    settled: Settled = broker.end()

    broker.tick("5")  # arg-type
    broker.mark().name  # union-attr
    broker.marks().name  # attr-defined
    broker.adress  # attr-defined
    broker.state().partitions["debits"]  # index
    batch("a cup")  # arg-type
    topic("debits", partitions="2")  # arg-type
    allow("ann", "READ", subject="debits")  # call-arg
    background(broker.tick)  # call-arg
    background(broker.tick, "5")  # arg-type
    Kbroker(5)  # arg-type
'''


class Types(unittest.TestCase):
    def setUp(self):
        self.mypy = shutil.which("mypy")
        if self.mypy is None:
            self.skipTest("mypy isn't installed: Debian's package mypy has it")
        self.folder = Path(self.enterContext(tempfile.TemporaryDirectory()))

    def told(self, *words):
        """The status of mypy, and what it says."""
        words = [self.mypy, "--strict", "--config-file", PROJECT, "--cache-dir", self.folder / "cache", "--hide-error-context", *words]
        environment = {name: it for name, it in os.environ.items() if name != "MYPYPATH"}
        ran = subprocess.run(words, cwd=self.folder, env=environment, capture_output=True, text=True, timeout=LIMIT)
        return ran.returncode, ran.stdout + ran.stderr

    def test_the_package(self):
        status, said = self.told(ROOT / "python/kbroker_testing")
        self.assertEqual(status, 0, said)

    def test_its_users(self):
        """The package is installed, with what its project lists: without `py.typed` mypy would take nothing of its types."""
        builder = venv.EnvBuilder(symlinks=True)
        builder.create(self.folder / "venv")
        paths = sysconfig.get_paths("venv", {"base": str(self.folder / "venv"), "platbase": str(self.folder / "venv")})
        for name, content in build_backend.sources().items():
            file = Path(paths["purelib"], name)
            file.parent.mkdir(exist_ok=True)
            file.write_bytes(content)
        (self.folder / "user.py").write_text(USER)
        _, said = self.told("--python-executable", self.folder / "venv/bin/python", "user.py")
        lines = enumerate(USER.splitlines(), 1)
        wanted = [f"user.py:{number}: [{line.rpartition('  # ')[2]}]" for number, line in lines if "  # " in line]
        found = [f"{line.partition(' ')[0]} [{line.rpartition('  [')[2]}" for line in said.splitlines() if " error: " in line]
        self.assertEqual(found, wanted, said)


if __name__ == "__main__":
    unittest.main()

"""`make build` compiles the program without a proof, and `./kbroker`, `make run` and `make serve` run it until there is a proved one.
Over a small repository in which a script stands in for rt, and another one for the program."""

import os
import shutil
import signal
import subprocess
import unittest

from kbroker_testing.waiting import wait_until
from program import ROOT
from tests.tools.repository import WAIT, Repository
from tests.tools.test_run_tests import LOADER

# As rt does, it runs what it has compiled by the loader, in a folder that has the program.
RT = """
    echo called >> {calls}
    until [ -e {goes_on} ]; do sleep 0.05; done
    cd "$TMPDIR" && cp {program} program
    {loader} /bin/sleep 600 &
    trap 'kill $!; exit 143' TERM
    wait
"""
PROGRAM = '#!/bin/sh\necho "$@"\ncat\nexit 7\n'  # it says its words and its input
NOT_PROVED = "kbroker: this program is not proved, and slow: `make prove` proves and builds it, in an hour or more"
COMPILED = "kbroker: the program isn't built: the sources are compiled without a proof, which takes minutes"
NOT_BUILT = (
    "kbroker: the program isn't built: `make build` builds it without a proof, in minutes, and `make prove` proves and builds it "
    "(in an hour or more where nothing is built)"
)


class Build(unittest.TestCase):
    def setUp(self):
        self.repository = self.enterContext(Repository())
        folder, top = self.repository.folder, self.repository.top
        self.unproved, self.proved = folder / "out/unproved/kbroker", folder / "crates/kbroker/out/kbroker"
        self.calls, self.goes_on, self.script = top / "calls", top / "goes-on", top / "program"
        self.script.write_text(PROGRAM)
        self.script.chmod(0o755)
        self.goes_on.touch()
        (folder / "examples").mkdir()
        (folder / "examples/server.toml").write_text("settings\n")
        (folder / "examples/metadata.txt").write_text("a script\n")
        (folder / "crates/walk/src/lib.rt").touch()
        shutil.copy(ROOT / "kbroker", folder)
        self.repository.set_rt(RT.format(calls=self.calls, goes_on=self.goes_on, program=self.script, loader=LOADER))

    def run_tool(self, name):
        """The status and the lines of a tool, and how often rt was called so far."""
        ended = self.repository.run(f"tools/{name}.py")
        self.assertEqual(self.repository.left(), ([], []))
        return *ended, len(self.calls.read_text().split()) if self.calls.exists() else 0

    def kbroker(self, *words):
        """What `./kbroker` comes to: its status, and what it says on standard output and on standard error."""
        path = self.repository.folder / "kbroker"
        ran = subprocess.run([path, *words], input="input\n", capture_output=True, text=True, timeout=WAIT)
        return ran.returncode, ran.stdout, ran.stderr

    def make_proved(self):
        """Puts a program where the proved one stands."""
        self.proved.parent.mkdir(parents=True)
        shutil.copy(self.script, self.proved)
        os.utime(self.proved)

    def test_it_is_compiled_once(self):
        built = "kbroker: built, and not proved: out/unproved/kbroker, which ./kbroker runs"
        self.assertEqual(self.run_tool("build"), (0, [COMPILED, built], 1))
        self.assertEqual(self.run_tool("build"), (0, [built], 1))
        os.utime(self.repository.folder / "crates/walk/src/lib.rt")
        self.assertEqual(self.run_tool("build"), (0, [COMPILED, built], 2))

    def test_where_it_is_proved(self):
        self.make_proved()
        self.assertEqual(self.run_tool("build"), (0, ["kbroker: built, and proved: crates/kbroker/out/kbroker, which ./kbroker runs"], 0))

    def test_where_it_does_not_compile(self):
        self.repository.set_rt("echo 'src/main.rt:1:1: error'; exit 1")
        status, lines, _ = self.run_tool("build")
        self.assertEqual((status, lines[-1]), (1, "kbroker: the program doesn't compile"))

    def test_how_long_it_compiles_is_told(self):
        self.goes_on.unlink()
        tool = self.repository.folder / "tools/unproved.py"
        tool.write_text(tool.read_text().replace("TOLD_EVERY = 15", "TOLD_EVERY = 1"))
        process = self.repository.start("tools/build.py")
        self.assertEqual([process.stdout.readline() for _ in range(2)], [f"{COMPILED}\n", "kbroker: compiling, for 1 seconds\n"])
        self.goes_on.touch()
        self.assertIn("kbroker: built", process.communicate(timeout=WAIT)[0])

    def test_a_signal(self):
        """It ends rt, and leaves no file."""
        self.goes_on.unlink()
        process = self.repository.start("tools/serve_example.py")
        wait_until(self.calls.exists, WAIT, "rt isn't called")
        process.send_signal(signal.SIGTERM)
        self.assertEqual((process.communicate(timeout=WAIT)[0], process.returncode), (f"{COMPILED}\n", 128 + signal.SIGTERM))
        self.assertEqual(self.repository.left(), ([], []))

    def test_what_kbroker_runs(self):
        """Nothing, what was compiled, or the proved program, of which alone nothing is said. What isn't there isn't installed."""
        self.assertEqual(self.kbroker("replay"), (3, "", f"{NOT_BUILT}\n"))
        self.assertEqual(self.run_tool("install"), (3, [NOT_BUILT], 0))
        self.run_tool("build")
        self.assertEqual(self.kbroker("replay", "x"), (7, "replay x\ninput\n", f"{NOT_PROVED}\n"))
        self.make_proved()
        self.assertEqual(self.kbroker("replay"), (7, "replay\ninput\n", ""))
        os.utime(self.repository.folder / "crates/walk/src/lib.rt")  # both are older than that
        self.assertEqual(self.kbroker("replay")[0], 3)

    def test_the_examples(self):
        """They compile what isn't built, and say once that it isn't proved."""
        show = "kbroker: `./kbroker show examples/metadata.txt` shows these answers in words"
        self.assertEqual(self.run_tool("run_example"), (7, [COMPILED, NOT_PROVED, "replay", "a script", show], 1))
        status, lines, calls = self.run_tool("serve_example")
        self.assertEqual((status, lines[0], lines[2], calls), (7, NOT_PROVED, "settings", 1))
        self.assertTrue(lines[1].startswith("serve --listen 127.0.0.1:9092 --workers "))
        self.make_proved()
        self.assertEqual(self.run_tool("run_example"), (7, ["replay", "a script", show], 1))


if __name__ == "__main__":
    unittest.main()

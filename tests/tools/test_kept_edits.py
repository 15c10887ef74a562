"""What copies with edits came to is kept and used, over a small repository in which a script stands in for rt. As soon as
anything changes on which it rests they are tried again, and what isn't as due isn't kept."""

import json
import os
import tempfile
import threading
import time
import unittest
from pathlib import Path
from unittest import mock

import kept
import processes
from kbroker_testing.waiting import wait_until
from kept import ANEW, Kept
from program import PARTS
from tests.harness import ON_SOURCES
from tests.sources import test_failing_tests as failing
from tests.tools.repository import EDITS, KIT, PROVED, TRIED_AT_ONCE, WAIT, Repository

# It notes each call, and how many run then. The tests of a copy that has an edit fail, and those of one that has none pass,
# unless a file says something else.
RT = """
    if [ "$1" = ci ]; then printf '{proved}'; exit; fi
    echo called >> {top}/calls
    mkdir {top}/running/$$
    ls {top}/running | wc -l >> {top}/at-once
    {waits}
    rmdir {top}/running/$$
    if [ -e {top}/says ]; then . {top}/says; fi
    for it in it other; do
        if grep -q two src/lib.rt; then
            echo "test found::$it ... FAILED"
            echo '    src/found.rt:1:1: the test was killed by signal 6 (SIGABRT)'
        else
            echo "test found::$it ... ok"
        fi
    done
"""
FAILED = "test found::it ... FAILED\n    src/found.rt:1:1: the test was killed by signal {}"
ALL = len(EDITS) + 1  # copies, of which one has no edit
OLD = kept.UNUSED + 3600
TRIED = "-m", "tests.harness", "-k", "failing_tests"


class Tried(unittest.TestCase):
    """A small repository, whose toolchain is a whole one."""

    def setUp(self):
        self.repository = self.enterContext(Repository())
        self.repository.add_edits()
        self.repository.add_kit()
        self.top = self.repository.top
        (self.top / "running").mkdir()
        (self.top / "calls").touch()
        self.set_rt()

    def set_rt(self, waits=":"):
        self.repository.set_rt(RT.format(top=self.top, waits=waits, proved=PROVED.replace("\n", r"\n")))

    def calls(self):
        """How many copies were tried so far."""
        return len((self.top / "calls").read_text().split())

    def entries(self):
        """What is kept."""
        return sorted((self.top / kept.NAME).iterdir())

    def tries(self, status=0, **environment):
        """How many copies a run tries, which it says too."""
        before = self.calls()
        ended, lines = self.repository.run(*TRIED, **environment)
        self.assertEqual(ended, status, lines)
        tried = self.calls() - before
        told = [it.rpartition("tests: ")[2] for it in lines if "copies of crates" in it]
        self.assertEqual(told, [f"{ALL - tried} copies of crates are kept, and {tried} are tried"])
        return tried

    def edit(self, name):
        return self.repository.folder / f"crates/walk/failing-tests/{name}.edit"


class Use(Tried):
    """What is kept is used as long as nothing changes."""

    def test_it_is_used(self):
        self.assertEqual([self.tries(), self.tries()], [ALL, 0])
        self.assertEqual(len(self.entries()), ALL)

    def test_another_checkout(self):
        self.tries()
        self.repository.folder = self.repository.folder.rename(self.top / "other")
        self.assertEqual(self.tries(), 0)

    def test_anew(self):
        self.tries()
        self.assertEqual([self.tries(**{ANEW: "1"}), self.tries()], [ALL, 0])

    def test_the_gate(self):
        """It takes what is kept too, and tries all where that is asked for."""
        self.tries()
        for environment, tried in (({}, 0), ({ANEW: "1"}, ALL)):
            with self.subTest(environment):
                before = self.calls()
                _, lines = self.repository.run("tools/gate.py", **environment)
                self.assertTrue(any(it.startswith(f"tests: {ON_SOURCES} passed: 1 passed") for it in lines), lines)
                self.assertEqual(self.calls() - before, tried)

    def test_two_runs_at_once(self):
        """Each passes, and what both kept is whole."""
        self.set_rt("sleep 0.2")
        both = [self.repository.start(*TRIED) for _ in range(2)]
        for it in both:
            said, _ = it.communicate(timeout=60)
            self.assertEqual(it.returncode, 0, said)
        self.assertEqual(len(self.entries()), ALL)
        self.assertEqual(self.tries(), 0)

    def test_what_nobody_used(self):
        """It goes once it is old, and what half of was written too. What is used stays."""
        self.tries()
        now, entries, half = time.time(), self.entries(), self.top / kept.NAME / "new-half"
        half.touch()
        for it, age in zip([half, *entries], (OLD, OLD, OLD, *[OLD - 7200] * ALL)):
            os.utime(it, (now - age, now - age))
        self.assertEqual(self.tries(), 2)
        self.assertEqual(len(self.entries()), ALL)
        self.assertTrue(all(it.stat().st_mtime > now - 60 for it in self.entries()))


class Change(Tried):
    """What a try rests on is changed, and it is tried again."""

    def setUp(self):
        super().setUp()
        self.tries()

    def test_a_source(self):
        (self.repository.folder / "crates/kbroker/src/lib.rt").write_text("// above\n")
        self.assertEqual(self.tries(), 0)
        for part in PARTS:
            with self.subTest(part):
                (self.repository.folder / f"crates/walk/{part}/deep").mkdir(parents=True)
                (self.repository.folder / f"crates/walk/{part}/deep/more.rt").write_text("// more\n")
                self.assertEqual(self.tries(), ALL)

    def test_the_list_of_crates(self):
        crates = self.repository.folder / "crates.txt"
        crates.write_text(crates.read_text().replace("walk:", "walk tests_may=Wait:"))
        self.assertEqual(self.tries(), ALL)

    def test_an_edit(self):
        self.edit("c").write_text(self.edit("c").read_text().replace("two_c", "two_and_more"))
        self.assertEqual(self.tries(), 1)

    def test_a_test(self):
        """Another test has to fail, and has to pass where there is no edit."""
        self.edit("c").write_text(self.edit("c").read_text().replace("found::it", "found::other"))
        self.assertEqual(self.tries(), 2)

    def test_the_limit(self):
        module = self.repository.folder / "tests/sources/test_failing_tests.py"
        module.write_text(module.read_text().replace("SECONDS = 600 ", "SECONDS = 601 "))
        self.assertEqual(self.tries(), ALL)

    def test_the_toolchain(self):
        for it in KIT:
            with self.subTest(it):
                (self.top / "kit" / it).write_text("another")
                self.assertEqual(self.tries(), ALL)
        self.assertEqual(self.tries(RT_SECONDS="7"), ALL)

    def test_rt(self):
        """Its text counts, though it is as long and as old as before."""
        rt = self.top / "kit/bin/rt"
        was = rt.stat()
        rt.write_text(rt.read_text().replace("called", "CALLED"))
        os.utime(rt, ns=(was.st_atime_ns, was.st_mtime_ns))
        self.assertEqual(self.tries(), ALL)

    def test_a_damaged_entry(self):
        """It counts for nothing, and is whole after the try."""
        name = self.entries()[0].name
        whole = json.loads(self.entries()[0].read_text())
        damaged = ("", "{", "[]", "\0", "{}", json.dumps({**whole, "name": "other"}), json.dumps({**whole, "came": {}}))
        for text in damaged:
            with self.subTest(text):
                (self.top / kept.NAME / name).write_text(text)
                self.assertEqual(self.tries(), 1)
                self.assertEqual(json.loads((self.top / kept.NAME / name).read_text()), whole)


class Wrong(Tried):
    """What isn't as due isn't kept."""

    def assert_not_kept(self, says, stays=0):
        """All but so many are tried again, and where they are as due they are kept."""
        (self.top / "says").write_text(says)
        self.assertEqual([self.tries(status=1), self.tries(status=1)], [ALL, ALL - stays])
        self.assertEqual(len(self.entries()), stays)
        (self.top / "says").unlink()
        self.assertEqual([self.tries(), self.tries()], [ALL - stays, 0])

    def test_a_test_passes(self):
        """Where there is no edit that is right, and kept."""
        self.assert_not_kept("echo 'test found::it ... ok'; exit", stays=1)

    def test_a_test_fails(self):
        """Where there is an edit that is right."""
        self.assert_not_kept(f"echo '{FAILED.format('6 (SIGABRT)')}'; exit", stays=len(EDITS))

    def test_a_test_is_cut_off(self):
        self.assert_not_kept(f"echo '{FAILED.format('9 (SIGKILL)')}'; exit")

    def test_nothing_is_compiled(self):
        self.assert_not_kept("echo 'src/lib.rt:1:1: error'; exit 1")

    def test_it_takes_too_long(self):
        """Whatever it says meanwhile."""
        module = self.repository.folder / "tests/sources/test_failing_tests.py"
        module.write_text(module.read_text().replace("LIMIT = 7200 ", "LIMIT = 3 "))
        (self.top / "says").write_text(f"echo '{FAILED.format('6 (SIGABRT)')}'; exec sleep 600")
        self.assertEqual(self.tries(status=1), ALL)
        self.assertEqual(self.entries(), [])


class BesideProofs(Tried):
    """Where proofs run one copy is tried at a time, and what isn't as due there once more after them."""

    def setUp(self):
        super().setUp()
        self.proofs = self.repository.files / processes.BESIDE_PROOFS

    def most_at_once(self):
        return max(map(int, (self.top / "at-once").read_text().split()))

    def test_at_once(self):
        """As many as there are processors: each waits until so many run."""
        are_there = f'[ -e {self.top}/all ] || [ "$(ls {self.top}/running | wc -l)" = {TRIED_AT_ONCE} ]'
        self.set_rt(f"timeout 30 sh -c 'until {are_there}; do sleep 0.05; done'; touch {self.top}/all; sleep 0.2")
        self.tries()
        self.assertEqual(self.most_at_once(), TRIED_AT_ONCE)

    def test_one_beside_proofs(self):
        self.set_rt("sleep 0.5")
        self.proofs.touch()
        self.tries()
        self.assertEqual(self.most_at_once(), 1)

    def test_once_more_after_them(self):
        """All but the first are wrong beside proofs: they wait for the end of these, and are tried once more then."""
        self.proofs.touch()
        is_wrong = f'[ -e {self.proofs} ] && [ "$(wc -l < {self.top}/calls)" != 1 ]'
        (self.top / "says").write_text(f"if {is_wrong}; then echo wrong >> {self.top}/wrong; exit; fi")
        process = self.repository.start(*TRIED)
        self.addCleanup(processes.end, process)
        wrong = self.top / "wrong"
        wait_until(lambda: wrong.exists() and len(wrong.read_text().split()) >= ALL - 1, WAIT, "not all were tried")
        time.sleep(1)
        self.assertEqual(self.calls(), ALL)
        self.proofs.unlink()
        said, _ = process.communicate(timeout=WAIT)
        self.assertEqual((process.returncode, self.calls()), (0, 2 * ALL - 1), said)
        self.assertEqual(self.tries(), 0)

    def test_once_and_no_more(self):
        """What is wrong after them too fails."""
        self.proofs.touch()
        (self.top / "says").write_text(f"rm -f {self.proofs}; exit")
        ended, lines = self.repository.run(*TRIED)
        self.assertEqual((ended, self.calls()), (1, ALL + 1), lines)


class Store(unittest.TestCase):
    """Where it is kept, and how."""

    def setUp(self):
        self.top = Path(self.enterContext(tempfile.TemporaryDirectory()))
        for it in ("bin/rt", *KIT):
            (self.top / "kit" / it).parent.mkdir(parents=True, exist_ok=True)
            (self.top / "kit" / it).write_text(it)
        (self.top / "kit/bin/rt").chmod(0o700)
        paths = {"PATH": f"{self.top}/kit/bin", "XDG_CACHE_HOME": f"{self.top}/cache"}
        self.enterContext(mock.patch.dict(os.environ, paths))
        os.environ.pop(ANEW, None)

    def test_beside_the_toolchain(self):
        """In a folder of this user's alone."""
        self.assertEqual(Kept().folder, self.top / kept.NAME)
        (self.top / kept.NAME).chmod(0o777)
        self.assertEqual(Kept().folder.stat().st_mode & 0o777, 0o700)

    def test_else_in_the_cache(self):
        (self.top / kept.NAME).symlink_to(self.top)
        self.assertEqual(Kept().folder, self.top / "cache" / kept.NAME_IN_CACHE)

    def test_a_cache_without_a_place(self):
        """It is none, as the specification of these folders has it."""
        with mock.patch.dict(os.environ, {"XDG_CACHE_HOME": "cache"}):
            self.assertEqual(kept.places(), [self.top / kept.NAME])

    def test_another_users_folder(self):
        (self.top / kept.NAME).mkdir()
        with mock.patch.object(os, "geteuid", lambda: os.getuid() + 1):
            self.assertIsNone(Kept().folder)

    def assert_keeps_nothing(self):
        store = Kept()
        self.assertIsNone(store.folder)
        store.keep("a", {})
        store.drop_unused()
        self.assertIsNone(store.find("a"))

    def test_nowhere(self):
        for it in (self.top / kept.NAME, self.top / "cache"):
            it.touch()
        self.assert_keeps_nothing()

    def test_a_toolchain_without_a_name(self):
        """So where rt is a script that calls another one."""
        (self.top / "kit/KIT-ID").unlink()
        self.assert_keeps_nothing()

    def test_no_toolchain(self):
        with mock.patch.dict(os.environ, {"PATH": f"{self.top}/none"}):
            self.assert_keeps_nothing()

    def test_a_toolchain_that_changes_meanwhile(self):
        store = Kept()
        (self.top / "kit/toolchain/bin/clang").write_text("another")
        store.keep("a", {})
        self.assertEqual([*store.folder.iterdir()], [])

    def test_what_is_no_part_of_a_toolchain(self):
        before = kept.sum_of_kit()
        for it in ("bin/__pycache__/rtlib.pyc", "rattle/std/proofs/io.antt", "rlibs/std.rlib/toolchain/mir.json"):
            (self.top / "kit" / it).parent.mkdir(parents=True, exist_ok=True)
            (self.top / "kit" / it).touch()
        self.assertEqual(kept.sum_of_kit(), before)

    def test_many_at_once(self):
        """Each finds nothing, or all of it."""
        found, came = [], {f"found::{it}": "ok" for it in range(1000)}

        def keep_and_find():
            store = Kept()
            for _ in range(50):
                store.keep("a", came)
                found.append(store.find("a"))

        threads = [threading.Thread(target=keep_and_find) for _ in range(4)]
        for it in threads:
            it.start()
        for it in threads:
            it.join()
        self.assertEqual([it for it in found if it != came], [])
        self.assertEqual(len(found), 200)
        self.assertEqual([it.name for it in Kept().folder.iterdir()], ["a"])


class Names(unittest.TestCase):
    """The name of an entry is another one as soon as anything differs on which a try rests."""

    def test_what_differs(self):
        trial, files = failing.Trial("walk", ("a::b",), Path("one.edit")), {"crates.txt": b"walk:", "walk/src/lib.rt": b"1"}
        changed = [(trial, {**files, "walk/src/lib.rt": b"2"}, "kit"), (trial, {**files, "walk/src/more.rt": b""}, "kit")]
        changed += [(trial, {"crates.txt": b"walk:", "walk/src/other.rt": b"1"}, "kit"), (trial, files, "another")]
        others = {"edit": None}, {"crate": "other"}, {"tests": ("a::c",)}, {"tests": ("a::b", "a::c")}
        changed += [(trial._replace(**it), files, "kit") for it in others]
        names = [failing.name_of(trial, files, "kit"), *[failing.name_of(*it) for it in changed]]
        for constant in ("WORDS", "OWN_SUM"):
            with mock.patch.object(failing, constant, "another"):
                names.append(failing.name_of(trial, files, "kit"))
        self.assertEqual(len({*names}), len(changed) + 3)
        self.assertEqual(failing.name_of(trial, dict(reversed(files.items())), "kit"), names[0])

    def test_all_copies(self):
        """Those of this repository have names of their own."""
        read, found = failing.sources(failing.crates_list()), failing.trials()
        names = [failing.name_of(it, failing.copy_of(it, read), "kit") for it in found]
        self.assertEqual(len({*names}), len(found))


if __name__ == "__main__":
    unittest.main()

"""Runs the tests, each module in a process of its own, and holds what ran against what discovery finds.

`python3 -m tests.harness` runs all: those that look at no time side by side, and the others one after the other. With folders or
modules as its words, as `tests.golden`, it runs these; with `-k NAME` the cases that have NAME in their names. It fails where a
case fails, where a module can't be imported or has no case, where fewer cases ran than were found, and where none was found.
"""

import argparse
import contextlib
import io
import json
import os
import signal
import subprocess
import sys
import tempfile
import threading
import time
import unittest
from collections import Counter
from pathlib import Path
from typing import NamedTuple

import processes
import prove
from program import PROGRAM, what_lacks
from tests import ROOT
from unproved import UNPROVED

# What runs the program alone and looks at no time: as many side by side as there are processors, the longest first.
SIDE_BY_SIDE = (
    "tests.refused_memory.test_refused_memory",
    "tests.refused_memory.test_refused_runs",
    "tests.fuzzing.test_spoilt",
    "tests.models.test_worn_epochs",
    "tests.models.test_histories",
    "tests.models.test_group_histories",
    "tests.tools.test_run_tests",
    "tests.tools.test_build",
    "tests.tools.test_gate",
    "tests.tools.test_together",
    "tests.models.test_drawn_bindings",
    "tests.golden.test_answers",
    "tests.golden.test_plain_answers",
    "tests.golden.test_shown",
    "tests.golden.test_lines",
    "tests.golden.test_settings",
    "tests.golden.test_command_lines",
    "tests.abuse.test_kept",
    "tests.package.test_acl_model",
    "tests.package.test_broker",
    "tests.package.test_dist",
    "tests.package.test_misuse",
    "tests.package.test_pages",
    "tests.package.test_protocol",
    "tests.package.test_timeline",
    "tests.package.test_types",
    "tests.sources.test_edits",
    "tests.tools.test_ci",
    "tests.tools.test_kept_edits",
    "tests.tools.test_kit",
    "tests.tools.test_mutants",
    "tests.tools.test_needs",
    "tests.tools.test_processes",
    "tests.tools.test_prove",
)
# The folders whose cases need no program.
WITHOUT_PROGRAM = "tests.sources.", "tests.tools."
# What needs no program, and keeps processors busy for long.
ON_SOURCES = "tests.sources.test_failing_tests"
LIMIT = 7_200  # seconds of a module; the tests of the sources take long beside proofs


class Count(NamedTuple):
    """How many cases passed, failed and were skipped. What is no case and fails counts as one."""

    passed: int
    failed: int
    skipped: int


def total(counts):
    """The sum of counts."""
    return Count(*map(sum, zip(Count(0, 0, 0), *counts)))


# ---- what there is


class Found(NamedTuple):
    """The names of the cases by their modules, and why others can't be found."""

    modules: dict
    faults: list


def cases_of(suite):
    """The cases of a suite."""
    for it in suite:
        if isinstance(it, unittest.TestSuite):
            yield from cases_of(it)
        else:
            yield it


def files():
    """The modules by the names of their files."""
    paths = (it.relative_to(ROOT).with_suffix("") for it in sorted((ROOT / "tests").rglob("test_*.py")))
    return [".".join(it.parts) for it in paths]


def discover(patterns=None):
    """What unittest finds, of the cases that have these patterns in their names."""
    loader, modules = unittest.TestLoader(), {}
    loader.testNamePatterns = patterns
    for case in cases_of(loader.discover(str(ROOT / "tests"), top_level_dir=str(ROOT))):
        modules.setdefault(type(case).__module__, []).append(case.id())
    modules.pop("unittest.loader", None)  # its cases stand for modules that can't be imported
    faults = [*loader.errors]
    if not patterns:
        faults += [f"{it} is not found, or has no case" for it in files() if it not in modules]
        faults += [f"{it} is to run side by side, and there is no such module" for it in SIDE_BY_SIDE if it not in modules]
    return Found(modules, faults)


# ---- a module in a process of its own


class Result(unittest.TextTestResult):
    """A result that has the names of the cases that ran."""

    def __init__(self, *args, **options):
        super().__init__(*args, **options)
        self.ran = []

    def startTest(self, test):
        super().startTest(test)
        self.ran.append(test.id())

    def failed(self):
        """The names of the cases that failed, or of what stands in their place."""
        faults = [test for test, _ in (*self.failures, *self.errors)] + self.unexpectedSuccesses
        return {getattr(it, "test_case", it).id() for it in faults}


class Ended(KeyboardInterrupt):
    """A signal ends this process. Of what is raised in a case unittest catches all but its base."""

    def __init__(self, number):
        super().__init__(number)
        self.status = 128 + number


def end_children():
    """Tells each process that this one starts to end, once, also those that threads start meanwhile."""
    told = set()
    while True:
        for it in processes.children_of(processes.processes()).get(os.getpid(), []):
            if it not in told:
                told.add(it)
                with contextlib.suppress(ProcessLookupError):
                    os.kill(it, signal.SIGTERM)
        time.sleep(0.1)


def end_with_all(number, _):
    """Ends this process by way of its `finally` blocks, and all that it has started."""
    prove.pass_over_signals()
    threading.Thread(target=end_children, daemon=True).start()
    raise Ended(number)


def end_with_all_on_signals():
    """Has a signal end this process and all that it has started."""
    for it in prove.SIGNALS:
        signal.signal(it, end_with_all)


def run_module(name, report):
    """Runs a module, and writes what came of it to a file."""
    end_with_all_on_signals()
    text = io.StringIO()
    runner = unittest.TextTestRunner(stream=text, resultclass=Result)
    result = runner.run(unittest.defaultTestLoader.loadTestsFromName(name))
    skipped = {test.id(): why for test, why in result.skipped}
    came = {"ran": result.ran, "failed": sorted(result.failed()), "skipped": skipped, "text": text.getvalue()}
    with open(report, "w", encoding="utf-8") as it:
        json.dump(came, it)


class Worker:
    """A module that runs in a session of its own, with a folder of its own for temporary files. There a file tells it of proofs
    that run beside it. What it says is shown once it has ended."""

    def __init__(self, name, cases, nice=0, is_beside_proofs=False):
        self.name, self.cases, self.began = name, cases, time.monotonic()
        self.until = self.began + LIMIT
        self.said, self.report = tempfile.TemporaryFile(), tempfile.NamedTemporaryFile()
        self.folder = tempfile.mkdtemp(prefix="kbroker-tests-")
        os.chmod(self.folder, 0o711)  # as any room of the tools
        self.beside_proofs = Path(self.folder, processes.BESIDE_PROOFS)
        if is_beside_proofs:
            self.beside_proofs.touch()
        words = [*processes.BOUND, "nice", "-n", str(nice), sys.executable, "-m", "tests.harness"]
        words += ["--run", name, "--report", self.report.name]
        told = {"stdout": self.said, "stderr": subprocess.STDOUT, "stdin": subprocess.DEVNULL}
        told["env"] = {**os.environ, "TMPDIR": self.folder}
        self.process = subprocess.Popen(words, cwd=ROOT, start_new_session=True, **told)

    def tell_end_of_proofs(self):
        """Tells it that the proofs have ended that ran beside it."""
        self.beside_proofs.unlink(missing_ok=True)

    def has_ended(self):
        """Whether it has ended. One that takes too long is ended."""
        if time.monotonic() > self.until:
            self.end()
        return self.process.poll() is not None

    def end(self):
        """Ends it, and all that it has started, by SIGTERM, and by SIGKILL what is left then."""
        if self.process.poll() is None:
            those = processes.tree(self.process.pid)
            self.process.terminate()
            until = time.monotonic() + processes.GRACE
            ended = os.WEXITED | os.WNOHANG | os.WNOWAIT  # its number stays its own
            while os.waitid(os.P_PID, self.process.pid, ended) is None and time.monotonic() < until:
                time.sleep(0.05)
            with contextlib.suppress(ProcessLookupError):
                os.killpg(self.process.pid, signal.SIGKILL)
            self.process.wait()
            processes.kill_left(those)

    def close(self):
        """Puts away its files."""
        self.said.close()
        self.report.close()
        processes.remove(self.folder)

    def stop(self):
        """Ends it before it is done."""
        self.end()
        self.close()

    def wait(self):
        """Waits for its end, for the whole limit, since what ran beside it may have held it up; and gives what came of it."""
        self.until = time.monotonic() + LIMIT
        while not self.has_ended():
            time.sleep(0.05)
        return self.count()

    def count(self):
        """What came of it, which is shown."""
        with contextlib.closing(self):
            self.said.seek(0)
            print(self.said.read().decode(errors="replace"), end="")
            text = self.report.read().decode()
        if not text:
            print(f"tests: {self.name} FAILED: it ended with status {self.process.returncode} and told nothing", flush=True)
            return Count(0, len(self.cases), 0)
        count, faults = judged(self.cases, json.loads(text))
        for it in faults:
            print(f"tests: {self.name}: {it}")
        word = "FAILED" if count.failed else "SKIPPED" if count.skipped and not count.passed else "passed"
        numbers = f"{count.passed} passed, {count.failed} failed, {count.skipped} skipped"
        print(f"tests: {self.name} {word}: {numbers}, in {time.monotonic() - self.began:.1f} seconds", flush=True)
        return count


def judged(cases, came):
    """What came of a module's cases, and what is to be told: the faults, what was skipped, and cases that did not run."""
    failed, skipped, told = {*came["failed"]}, came["skipped"], []
    if failed:
        told.append(f"\n{came['text']}")
    told += [f"{name} is skipped: {why}" for name, why in skipped.items()]
    missing, more = Counter(cases) - Counter(came["ran"]), Counter(came["ran"]) - Counter(cases)
    told += [f"{name} did not run" for name in missing if name not in failed]
    told += [f"{name} ran and was not found" for name in more]
    failed |= {*missing, *more}
    passed = {*came["ran"]} - failed - {*skipped}
    return Count(len(passed), len(failed), len(skipped)), told


# ---- many modules


def run_side_by_side(modules, lanes):
    """Runs modules, so many at once, and gives each name and what came of it as they end."""
    left, running = [*modules.items()], []
    try:
        while left or running:
            while left and len(running) < lanes:
                running.append(Worker(*left.pop(0)))
            for it in [it for it in running if it.has_ended()]:
                running.remove(it)
                yield it.name, it.count()
            time.sleep(0.05)
    finally:
        for it in running:
            it.stop()


def run_modules(modules):
    """Runs modules, those that look at no time side by side, and gives what came of each, by its name."""
    beside = {it: modules[it] for it in SIDE_BY_SIDE if it in modules}
    alone = {name: cases for name, cases in modules.items() if name not in beside}
    counts = dict(run_side_by_side(beside, len(os.sched_getaffinity(0))))
    return {**counts, **dict(run_side_by_side(alone, 1))}


def tell_faults(found):
    """Shows what can't be found, and counts it."""
    for it in found.faults:
        print(f"tests: {it}", flush=True)
    return Count(0, len(found.faults), 0)


# ---- over a program


def need_none(modules):
    """Whether none of these modules needs a program."""
    return all(it.startswith(WITHOUT_PROGRAM) for it in modules)


def lacks_program(modules):
    """Tells where these modules need a program and there is none. Gives whether that is so."""
    program = os.environ["KBROKER"]
    lacks = not need_none(modules) and not os.access(program, os.X_OK)
    if lacks:
        print(f"tests: there is no program {program}: `make test` compiles one, and `make prove` proves and builds it")
    return lacks


def told_of_program(modules):
    """Over which program these modules ran."""
    program = os.environ["KBROKER"]
    if need_none(modules):
        return "no program is needed"
    if os.path.realpath(program) == str(UNPROVED.resolve()):
        return "not proved: make verify proves it"
    if os.path.realpath(program) != str(PROGRAM.resolve()):
        return f"over {program}"
    return "of other sources than these: make prove" if what_lacks() else "proved"


def run_named(name):
    """Runs the cases that have this in their names, in this process. Gives whether there are some, and all pass."""
    end_with_all_on_signals()
    found = discover([f"*{name}*"])
    faults = tell_faults(found).failed
    cases = [it for names in found.modules.values() for it in names]
    if not cases:
        print(f"tests: no case has {name} in its name")
        return False
    if lacks_program(found.modules):
        return False
    result = unittest.TextTestRunner(verbosity=2).run(unittest.defaultTestLoader.loadTestsFromNames(cases))
    is_well = result.wasSuccessful() and result.testsRun == len(cases) and not faults
    print(f"tests: {'passed' if is_well else 'FAILED'} ({told_of_program(found.modules)})")
    return is_well


def run_chosen(words):
    """Runs these folders and modules, or all. Gives whether there are some, and all pass."""
    prove.end_on_signals()
    began, found, begins = time.monotonic(), discover(), tuple(f"{it}." for it in words)
    chosen = {name: cases for name, cases in found.modules.items() if not words or f"{name}.".startswith(begins)}
    if lacks_program(chosen):
        return False
    count = total([tell_faults(found), *run_modules(chosen).values()])
    minutes = (time.monotonic() - began) / 60
    numbers = f"{count.passed} passed, {count.failed} failed, {count.skipped} skipped"
    print(f"{numbers}, in {minutes:.1f} minutes ({told_of_program(chosen)})")
    return count.failed == 0 and bool(chosen)


def main():
    parser = argparse.ArgumentParser(prog="python3 -m tests.harness", description="Runs the tests.")
    parser.add_argument("modules", nargs="*", help="folders or modules, as tests.golden; all, if none is named")
    parser.add_argument("-k", metavar="NAME", help="the cases that have this in their names")
    parser.add_argument("--needs-no-program", action="store_true", help=argparse.SUPPRESS)
    parser.add_argument("--run", metavar="MODULE", help=argparse.SUPPRESS)
    parser.add_argument("--report", metavar="FILE", help=argparse.SUPPRESS)
    given = parser.parse_args()
    try:
        if given.run:
            run_module(given.run, given.report)
        elif given.needs_no_program:
            sys.exit(0 if need_none(discover([f"*{given.k}*"]).modules) else 1)
        else:
            sys.exit(0 if (run_named(given.k) if given.k else run_chosen(given.modules)) else 1)
    except Ended as it:
        sys.exit(it.status)


if __name__ == "__main__":
    main()

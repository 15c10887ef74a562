#!/usr/bin/env python3
"""The gate, `make verify`: `rt ci`, and then the tests of tests/ over the program that it has built.

It proves every crate and its tests, but for what a run on this machine has passed, and runs all that there is to run. `rt ci`
gives a proof one processor for as long as mutants wait, and so holds up all that stands on it. So the proofs are done first, over
copies that have no mutants: that of the crate on which most others stand, those of the program's crates, and beside them those of
the crates that are tests and laws, as soon as what they stand on is proved. Beside them the mutants of the crates that are proved
are tried, over copies too, the more side by side the fewer proofs run. What all these passed is kept, and `rt ci` over the
repository does the rest: its word alone counts. The edits that tests have to fail need no proof. They are tried from the beginning
on, on what all this leaves: one at a time as long as proofs run, which need the memory.

`rt ci` passes where a mutant is bad, or refused for no more than a name in a proof file or a limit of the prover. Here each
mutant of must-fail/ of the crates that crates.txt lists has to be refused plainly by what `rt ci` over the repository says, and
each of gate-mutants/ by what tools/together.py has said of it.

The last line is 'N passed, M failed', with a crate, a mutant and a case of tests/ for one each, and in brackets how many there
were of each kind. The lines before it tell what failed. What rt said is kept in out/gate.log, and what each crate took, as seen
every two seconds, in out/gate.json: tools/gate_times.py makes a table of it.
"""

import json
import operator
import os
import platform
import re
import resource
import shutil
import signal
import subprocess
import sys
import tempfile
import threading
import time
from pathlib import Path

import edits
import kept
import packages
import processes
import prove
import refusals
from program import NAME, PROGRAM, ROOT, crates_list, crates_of
from together import Together

sys.path.insert(0, str(ROOT))

from tests import harness  # noqa: E402

LOG = ROOT / "out/gate.log"
TIMES = ROOT / "out/gate.json"
SEEN_EVERY = 2  # seconds
NICE_OF_MUTANTS = 10  # they take what the proofs leave
LEAST_MUTANTS = 2  # of a crate at once, however few processors are free as it begins
PROCESSORS = len(os.sched_getaffinity(0))
NICE_OF_OTHERS = 5  # the program's proofs go before them
MOST_OTHERS = 2  # calls that prove them side by side, each of 4 GB at most
NICE_OF_SOURCES = 19  # they take what all else leaves
OF_SOURCES = "edits of `failing-tests/`", "tests"
OF_TESTS = "tests of `tests/`"
LEAST_DISK = 20e9  # bytes; below it rt may drop what it keeps
TOTALS = re.compile(r"^(\d+) passed, (\d+) failed$", re.M)
PROVED = re.compile(r"^rt: (\w+) (?:proved$|is kept)", re.M)
NEWLY_PROVED = re.compile(r"^rt: (\w+) proved$", re.M)
FAULTS = re.compile(r"^(?:rt: FAILED: .+|test \S+ \.\.\. FAILED.*)$", re.M)
NAMED = re.compile(r"^rt: FAILED: (.+)$", re.M)


def work_of(process):
    """The crate that a process of the toolchain works at and the kind of its work, or None."""
    try:
        with open(f"/proc/{process}/cmdline", encoding="utf-8", errors="replace") as it:
            words = it.read().split("\0")
        folder = os.readlink(f"/proc/{process}/cwd")
    except OSError:
        return None
    if "--crate-name" not in words[:-1]:
        return None
    kind = "mutants" if "/rt-edit-" in folder else "tests" if "--test" in words else "proof"
    return words[words.index("--crate-name") + 1], kind


class Sampler:
    """Adds up what processes and those below them take. What one took after it was last seen is lost."""

    def __init__(self):
        self.peak = self.proofs = 0
        self.tops, self.works, self.seconds = {}, {}, {}

    def watch(self):
        """Takes samples for as long as this process runs."""
        while True:
            self.look()
            time.sleep(SEEN_EVERY)

    def look(self):
        """Takes one sample of the processes that are looked at and of those below them."""
        found, held, proofs = processes.processes(), 0, 0
        below = processes.children_of(found)
        stack = [*self.tops.items()]
        while stack:
            process, work = stack.pop()
            if process in found:
                _, started, seconds, memory = found[process]
                key = process, started
                if not self.works.get(key):
                    self.works[key] = work if work == OF_SOURCES else work_of(process) or work
                proofs += bool(self.works[key]) and self.works[key][1] != "mutants" and not work
                self.seconds[key] = seconds
                held += memory
                stack += [(it, self.works[key]) for it in below.get(process, [])]
        self.peak, self.proofs = max(self.peak, held), proofs

    def by_crate(self):
        """The processor seconds of each crate, by kind."""
        crates = {}
        for key, seconds in self.seconds.items():
            if self.works[key]:
                crate, kind = self.works[key]
                kinds = crates.setdefault(crate, {"proof": 0.0, "tests": 0.0, "mutants": 0.0})
                kinds[kind] += seconds
        return crates


class Runs:
    """Calls of `rt ci` and of other commands that may run side by side: what they say is shown and kept, and what they take is sampled."""

    def __init__(self, log):
        self.log, self.sampler, self.writing, self.starting = log, Sampler(), threading.Lock(), threading.Lock()
        self.running, self.threads, self.are_stopped = set(), [], False
        threading.Thread(target=self.sampler.watch, daemon=True).start()

    def start(self, does, **words):
        """Has a thread of its own do something, which ends when the runs are stopped."""
        self.threads.append(threading.Thread(target=does, kwargs=words, daemon=True))
        self.threads[-1].start()
        return self.threads[-1]

    def show(self, line):
        """Shows and keeps a line, and goes on where nobody reads what is shown."""
        with self.writing:
            self.log.write(line)
            self.log.flush()
            try:
                sys.stdout.write(line)
                sys.stdout.flush()
            except OSError:
                pass

    def started(self, words, folder, nice, environment):
        """A call of a command in a folder, or none where the runs are stopped."""
        streams = {"stdin": subprocess.DEVNULL, "stdout": subprocess.PIPE, "stderr": subprocess.STDOUT}
        words = [*processes.BOUND, "nice", "-n", str(nice), *words]
        with self.starting:
            if self.are_stopped:
                return None
            process = subprocess.Popen(words, cwd=folder, env=environment, text=True, errors="replace", **streams)
            self.running.add(process)
        self.sampler.tops[process.pid] = None
        return process

    def run(self, folder, nice=0, at_once=None, seen=lambda line: None, words=("rt", "ci")):
        """Runs `rt ci` in a folder, or another command, and hands each line on. Returns its status and what it said. Where it is
        said how many checks may run at once, `rt ci` doesn't look how much memory is free: beside other work it would take one
        after the other."""
        said, jobs = [], {"RT_JOBS": str(at_once)} if at_once else {}
        with processes.room("kbroker-files-") as files:
            process = self.started(words, folder, nice, {**os.environ, **jobs, "TMPDIR": str(files)})
            if process is None:
                return -signal.SIGTERM, ""
            try:
                for line in process.stdout:
                    said.append(line.replace(str(folder), str(ROOT)))
                    self.show(said[-1])
                    seen(said[-1])
            finally:
                status = processes.end(process)
                self.sampler.tops.pop(process.pid, None)
                self.running.discard(process)
        return status, "".join(said)

    def stop(self):
        """Ends those that run, and waits until what they left is put away. No other one begins."""
        with self.starting:
            self.are_stopped = True
        for it in [*self.running]:
            processes.end(it)
        for it in self.threads:
            it.join()


class Mutants:
    """Tries the mutants of crates that are proved, until no more are to be tried: as many at once as proofs leave processors. Those
    of all crates that wait are tried in one copy, since each call of `rt ci` looks through the libraries of all that it stands
    on. After those of must-fail/ come those that are tried together."""

    def __init__(self, runs, together):
        self.runs, self.together = runs, together
        self.proved, self.waiting, self.trying, self.is_over = set(), [], {}, False
        self.thread = runs.start(self.try_all)

    def see(self, line):
        """Notes the crate that a line of `rt ci` calls proved, once: each copy in which it stands says so. The mutants of one that
        is kept most likely are, too, so they are left to the end."""
        for name in NEWLY_PROVED.findall(line):
            if name not in self.proved and (mutants_of(name) or self.together.left_of(name)):
                self.proved.add(name)
                self.waiting.append(name)

    def try_all(self):
        """Tries those of the crates that wait as processors become free, and also where none are, unless others are being tried."""
        while not (self.is_over or self.runs.are_stopped):
            self.trying = {it: at_once for it, at_once in self.trying.items() if it.is_alive()}
            free = PROCESSORS - self.runs.sampler.proofs - sum(self.trying.values())
            if self.waiting and (free > 0 or not self.trying):
                names, self.waiting = self.waiting, []
                at_once = max(free, LEAST_MUTANTS)
                self.trying[self.runs.start(self.try_those_of, names=names, at_once=at_once)] = at_once
            time.sleep(1)

    def try_those_of(self, names, at_once):
        """Tries those of crates, in a copy, so many at once."""
        with processes.room("kbroker-mutants-") as room:
            prove.copy_crates(names, room)
            for it in edits.MUST_FAIL.edits(names):
                (room / it.relative_to(ROOT)).parent.mkdir(exist_ok=True)
                shutil.copy(it, room / it.relative_to(ROOT))
            if not self.is_over:
                self.runs.run(room, NICE_OF_MUTANTS, at_once)
            if not self.is_over:
                self.together.try_in(self.runs, room, names, at_once, NICE_OF_MUTANTS)

    def end(self):
        """Waits until those of the crates that are being tried are done, and tries those that are left of the ones that are tried
        together; what else is left is for others."""
        self.is_over = True
        self.thread.join()
        for it in self.trying:
            it.join()
        self.together.try_left(self.runs)


def mutants_of(name):
    """The mutants of a crate that `rt ci` tries."""
    return edits.MUST_FAIL.edits([name])


def prove_copy(runs, names, seen, nice=0, at_once=None):
    """Proves crates and what they stand on, in a copy without mutants."""
    with processes.room("kbroker-proofs-") as room:
        prove.copy_crates(names, room)
        runs.run(room, nice, at_once, seen)


def first_crate():
    """The crate on which most others stand."""
    listed = crates_list()
    return max(listed, key=lambda it: sum(it in crates_of([other]) for other in listed))


def prove_first(runs, seen):
    """Proves the crate for which most others wait, and beside it those that don't wait for it, whose end isn't waited for. `rt ci`
    gives a proof more processors where fewer are ready to be done, so it is proved by a call of its own."""
    first = first_crate()
    apart = [it for it in crates_list() if first not in crates_of([it])]
    beside = runs.start(prove_copy, runs=runs, names=apart, seen=seen, at_once=PROCESSORS // 2)
    prove_copy(runs, [first], seen)
    return beside


def prove_others(runs, left, seen):
    """Proves the crates that are tests and laws, each once all that it stands on of what is left of the program's crates is proved:
    those that are ready at once in one call, and no more calls side by side than memory is for. As long as something is left, they
    take what the program's proofs leave."""
    waiting, proving = [it for it in crates_list() if it not in crates_of([NAME])], []
    while waiting and not runs.are_stopped:
        ready = [it for it in waiting if not left & {*crates_of([it])}]
        proving = [it for it in proving if it.is_alive()]
        if ready and len(proving) < MOST_OTHERS:
            waiting = [it for it in waiting if it not in ready]
            beside = {"nice": NICE_OF_OTHERS, "at_once": 1} if left else {}
            proving.append(runs.start(prove_copy, runs=runs, names=ready, seen=seen, **beside))
        else:
            time.sleep(SEEN_EVERY)
    for it in proving:
        it.join()


def prove_all(runs, mutants):
    """Proves all crates and their tests, while mutants of those that are proved are tried."""
    left = {*crates_of([NAME])} - {NAME}

    def see(line):
        mutants.see(line)
        left.difference_update(PROVED.findall(line))

    beside = prove_first(runs, see)
    others = runs.start(prove_others, runs=runs, left=left, seen=mutants.see)
    prove_copy(runs, [NAME], see)
    left.clear()  # what can't be proved isn't waited for
    others.join()
    beside.join()


def run_checks(cases, runs, together):
    """Checks all that `rt ci` checks, and the mutants that are tried together. Returns what `rt ci` over the repository said, its
    status, and what came of the tests of the sources, which need nothing of that and begin with it."""
    mutants, beside = Mutants(runs, together), None
    try:
        if cases:
            beside = harness.Worker(harness.ON_SOURCES, cases, NICE_OF_SOURCES, is_beside_proofs=True)
            runs.sampler.tops[beside.process.pid] = OF_SOURCES
        prove_all(runs, mutants)
        if beside:
            beside.tell_end_of_proofs()
        mutants.end()
        status, last = runs.run(ROOT, at_once=PROCESSORS)
        return last, status, beside.wait() if beside else harness.Count(0, 0, 0)
    finally:
        if beside:
            beside.stop()
            runs.sampler.tops.pop(beside.process.pid, None)
        runs.stop()


def used():
    """The processor seconds of all that was started here and has ended."""
    it = resource.getrusage(resource.RUSAGE_CHILDREN)
    return it.ru_utime + it.ru_stime


def machine():
    """The model of this machine's processors."""
    found = re.search(r"^model name\s*: (.*)$", Path("/proc/cpuinfo").read_text(), re.M)
    return found[1] if found else platform.machine()


def commit():
    """The commit that is checked out, and whether something is changed in it."""
    git = ["git", "-C", str(ROOT), "describe", "--always", "--dirty=, with changes", "--exclude=*"]
    ran = subprocess.run(git, check=False, capture_output=True, text=True)
    return ran.stdout.strip() or "none"


def write_times(sampler, tests, wall, last):
    """Writes what all of it took, what of it the tests of tests/, and of what this was: sources, toolchain, machine, last line."""
    crates = {**sampler.by_crate(), OF_TESTS: {"proof": 0.0, "tests": tests, "mutants": 0.0}}
    taken = {"crates": crates, "total": used(), "wall": wall, "peak": sampler.peak, "last": last}
    made_of = {"date": time.strftime("%Y-%m-%d"), "commit": commit(), "kit": kit_id(), "processors": PROCESSORS, "machine": machine()}
    TIMES.write_text(json.dumps({**taken, **made_of}, indent=1) + "\n")


def kit_id():
    """By what the toolchain names itself."""
    folder = kept.kit()
    return (folder / "KIT-ID").read_text().strip() if folder else "no toolchain"


def run_tests(modules):
    """Runs the tests over the program, and returns what came of each module, by its name."""
    if not PROGRAM.exists():
        print("gate: the tests FAILED: there is no program")
        return {name: harness.Count(0, len(cases), 0) for name, cases in modules.items()}
    return harness.run_modules(modules)


def judged(last, status, wanted):
    """How many crates and mutants passed by what `rt ci` over the repository said, how many failed, and what is to be told of
    these. Each of the mutants that are wanted has to be refused plainly, though rt passes others too."""
    passed, failed = map(int, (TOTALS.findall(last) or [(0, 1)])[-1])
    faults = [*FAULTS.findall(last)] or [f"rt ci ended with status {status}"] * bool(status)
    named = {word for line in NAMED.findall(last) for word in line.split()}
    for name, text in refusals.faults_of(last, wanted).items():
        faults.append(f"must-fail {name}: {text}")
        passed -= text.startswith(refusals.REFUSED)
        failed += name not in named
    return passed, failed or int(bool(status)), faults


def judged_together(together):
    """The same of the mutants that are tried together, each of which has to be refused plainly."""
    faults = refusals.faults_of(together.lines(), together.wanted)
    return len(together.wanted) - len(faults), len(faults), [f"mutant {name}: {text}" for name, text in faults.items()]


def sums_of(text, last, wanted):
    """How many crates all said were proved, and how many mutants and tests of crates passed by the last."""
    crates = len({*NEWLY_PROVED.findall(text)})
    mutants = len(wanted) - len(refusals.faults_of(last, wanted).keys() & wanted)
    tests = sum(map(int, re.findall(r"^test result: ok\. (\d+) passed", last, re.M)))
    return f"{crates} crates proved, {mutants} mutants refused, {tests} tests of crates"


def tell_little_disk():
    """Tells where the disk may get so full that rt drops what it keeps."""
    places = {tempfile.gettempdir(), str(ROOT), os.path.dirname(os.path.realpath(shutil.which("rt") or ROOT))}
    free = min(shutil.disk_usage(it).free for it in places)
    if free < LEAST_DISK:
        drops = f"below {LEAST_DISK / 1e9:.0f} rt may drop what it has proved, and prove it twice"
        print(f"gate: {free / 1e9:.0f} GB of disk are free, and {drops}", flush=True)


def run_all(found, wanted):
    """Runs all, and tells all but the last line. Returns how much failed, and that line: what passed, what failed, and what of it is
    of which kind."""
    started, modules = time.monotonic(), {**found.modules}
    LOG.parent.mkdir(exist_ok=True)
    together = Together(crates_list())
    with LOG.open("w", encoding="utf-8") as log:
        runs = Runs(log)
        last, status, beside = run_checks(modules.pop(harness.ON_SOURCES, []), runs, together)
    not_found, before = harness.tell_faults(found), used()
    counts = {harness.ON_SOURCES: beside, **run_tests(modules)}
    of_tests = used() - before
    count = harness.total([not_found, *counts.values()])
    passed, failed, faults = map(operator.add, judged(last, status, wanted), judged_together(together))
    faults += [f"{name} FAILED: {it.failed} failed" for name, it in counts.items() if it.failed]
    for it in [*found.faults, *faults]:
        print(f"gate: {it}")
    print(f"gate: what was said is in {LOG.relative_to(ROOT)}")
    said = LOG.read_text(encoding="utf-8")
    sums = f"{sums_of(said, last + together.lines(), wanted | together.wanted)} and {count.passed} of tests/ passed"
    wall = time.monotonic() - started
    what = f"{sums}, {count.skipped} skipped, in {wall / 60:.1f} minutes"
    last = f"{passed + count.passed} passed, {failed + count.failed} failed ({what})"
    write_times(runs.sampler, of_tests, wall, last)
    return failed + count.failed, last


def main():
    prove.end_on_signals()
    prove.hold_alone()
    # What the environment asks of the tests, as fewer frames or another program, is not asked of the gate: it may ask for more.
    for variable in [it for it in os.environ if it.startswith("KBROKER") and it != kept.ANEW]:
        del os.environ[variable]
    os.environ.update(KBROKER=str(PROGRAM), KBROKER_RUN="verify")
    packages.demand("gate")
    tell_little_disk()
    wanted = {f"{name}/{it.name}" for name in crates_list() for it in mutants_of(name)}
    failed, last = run_all(harness.discover(), wanted)
    print(last, flush=True)
    sys.exit(1 if failed else 0)


if __name__ == "__main__":
    main()

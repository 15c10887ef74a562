"""The processes of this machine, as /proc tells of them, and how those that were started here are ended."""

import contextlib
import os
import re
import shutil
import signal
import subprocess
import tempfile
import time
from pathlib import Path

TICKS = os.sysconf("SC_CLK_TCK")
PAGE = os.sysconf("SC_PAGE_SIZE")
# What is started by these words is told to end when the thread that started it ends, however that ends.
BOUND = ("setpriv", "--pdeathsig", "TERM")
GRACE = 10  # seconds in which a process that is told to end puts away what it made
AFTER = 0.5  # seconds after its end in which those below it end by themselves
# A file in the folder for temporary files that stands there for as long as proofs run, to which memory is to be left.
BESIDE_PROOFS = "beside-proofs"


def processes():
    """Each process by its number: its parent, when it was started, its processor seconds and its memory."""
    found = {}
    for name in filter(str.isdigit, os.listdir("/proc")):
        try:
            with open(f"/proc/{name}/stat", encoding="utf-8", errors="replace") as it:
                fields = it.read().rpartition(")")[2].split()
        except OSError:
            continue  # it has ended
        seconds = (int(fields[11]) + int(fields[12])) / TICKS
        found[int(name)] = int(fields[1]), int(fields[19]), seconds, int(fields[21]) * PAGE
    return found


def children_of(found):
    """The processes right below each of these that has some."""
    children = {}
    for process, (parent, *_) in found.items():
        children.setdefault(parent, []).append(process)
    return children


def below(top):
    """The processes below one."""
    children, found, left = children_of(processes()), [], [top]
    while left:
        more = children.get(left.pop(), [])
        found, left = [*found, *more], [*left, *more]
    return found


def run_beside_proofs():
    """Whether those that are started here have to leave memory to proofs."""
    return os.path.exists(f"{tempfile.gettempdir()}/{BESIDE_PROOFS}")


def free_memory():
    """How many bytes of memory are free, or can be made so."""
    return 1024 * int(re.search(r"^MemAvailable:\s+(\d+)", Path("/proc/meminfo").read_text(), re.M)[1])


def at_once(memory):
    """How many processes of so much memory may run at a time below this one, as processors and memory allow, those that run now
    among them. Beside proofs it is one, since these take more memory from minute to minute."""
    if run_beside_proofs():
        return 1
    found = processes()
    held = sum(found[it][3] for it in below(os.getpid()) if it in found)
    return max(1, min(len(os.sched_getaffinity(0)), int((free_memory() + held) / memory)))


def tree(top):
    """The processes below one, each with when it was started, since numbers are given again."""
    found = processes()
    return {it: found[it][1] for it in below(top) if it in found}


def kill_left(those):
    """Kills those of a tree that are left a moment after the end of its top, as what runs in a session of its own. One that has
    ended and isn't waited for has no memory."""
    until = time.monotonic() + AFTER
    while left := [it for it, (_, started, _, memory) in processes().items() if those.get(it) == started and memory]:
        if time.monotonic() > until:
            for it in left:
                with contextlib.suppress(ProcessLookupError):
                    os.kill(it, signal.SIGKILL)
            return
        time.sleep(0.05)


def end(process):
    """Ends a process by SIGTERM, and by SIGKILL where it takes too long, and all that is below it. Gives its status."""
    those = tree(process.pid) if process.poll() is None else {}
    process.terminate()
    try:
        process.wait(GRACE)
    except subprocess.TimeoutExpired:
        process.kill()
    kill_left(those)
    return process.wait()


def remove(folder):
    """Removes a folder, also where processes that are about to end still write there for a moment."""
    until = time.monotonic() + GRACE
    while os.path.exists(folder) and time.monotonic() < until:
        shutil.rmtree(folder, ignore_errors=True)
        time.sleep(0.05 * os.path.exists(folder))


@contextlib.contextmanager
def room(prefix):
    """A folder below that for temporary files, which goes with all that processes left in it. Others can't read it, but pass
    through it: `rt ci` runs tests there as nobody."""
    folder = tempfile.mkdtemp(prefix=prefix)
    os.chmod(folder, 0o711)
    try:
        yield Path(folder)
    finally:
        remove(folder)

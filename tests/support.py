"""What several tests share: the program, settings, and connections that say nothing yet."""

import os
import socket
import struct
import subprocess
import sys
import tempfile
import unittest
from pathlib import Path

from kbroker_testing.broker import free_port
from kbroker_testing.protocol import in_partition, request_digits
from packages import IN_CI
from program import changed_since
from unproved import UNPROVED

PROGRAM = Path(os.environ["KBROKER"])
# Whether it was compiled without a proof, with the checks of `rt try`.
HAS_CHECKS = PROGRAM.resolve() == UNPROVED.resolve()
# Who runs the tests: `make test` ("quick"), `make verify` ("verify"), or whoever names cases.
RUN_BY = os.environ.get("KBROKER_RUN")

# With any eight characters after it a name has one and the same hash by the default hasher of the toolchain's tables, whose
# keys everybody knows.
COLLIDING = "2iebam06274dwt247n1-OgrT"
LONGEST_FRAME = 104_857_600
PATIENCE = 10  # seconds that a connection is waited for

# ---- what can't be run everywhere


def needs_proved_program(why):
    """Marks cases that show nothing over a program that is compiled without a proof, with its checks: there they are skipped."""
    return unittest.skipIf(HAS_CHECKS, f"it needs the proved program, since {why}: make verify runs it")


def needs_crate(made):
    """Marks cases that run a program which a crate makes beside kbroker, and which `make verify` alone builds. Where it isn't
    built from the sources as they stand they are skipped."""
    is_current = RUN_BY == "verify" or made.exists() and not changed_since(made.stat().st_mtime_ns, made.name)
    return unittest.skipUnless(is_current, f"it needs {made.name}, which make verify builds and runs")


def tries_edits(cls):
    """Marks cases that try edits of crates, which `make verify` does, and whoever names them."""
    return unittest.skipIf(RUN_BY == "quick", "it tries edits of crates: make verify runs it")(cls)


def without_package(case, package):
    """Skips a case that needs a package of Debian's, but in CI, where it has to be there, it fails."""
    if IN_CI:
        case.fail(f"{package} isn't installed")
    case.skipTest(f"{package} isn't installed")


# ---- settings

# The keys that must be there.
TOP = 'node_id = 1\nhost = "h"\nport = 9092\n'


def user(name="ann", password="p"):
    """The settings of a user."""
    return f'[[user]]\nname = "{name}"\npassword = "{password}"\n'


def topic(name="a", partitions=1):
    """The settings of a topic."""
    return f'[[topic]]\nname = "{name}"\npartitions = {partitions}\n'


def acl(kind="Topic", name="b", principal="User:ann", host="*", operation="READ", pattern="LITERAL"):
    """The settings of a binding that allows."""
    words = f'kind = "{kind}"\nname = "{name}"\npattern = "{pattern}"\nprincipal = "{principal}"\n'
    return f'[[acl]]\n{words}host = "{host}"\noperation = "{operation}"\npermission = "ALLOW"\n'


# Root is a super user, who may do everything.
OF_SUPER = TOP + 'supers = ["User:root"]\n'
# The settings of a broker whose one user is root.
OF_ROOT = OF_SUPER + user("root", "toor")

# ---- a server that ends by itself

LISTEN = ("--listen", "127.0.0.1:0")


def run_server(words, settings="", **streams):
    """The status of a server that serves nobody, and what it said on standard output and on standard error."""
    given = {"input": settings.encode(), "stdout": subprocess.PIPE, "stderr": subprocess.PIPE, "timeout": 30, **streams}
    ran = subprocess.run([PROGRAM, "serve", *words], **given)
    return ran.returncode, (ran.stdout or b"").decode(), ran.stderr.decode()


# ---- what is asked


def of_b(**fields):
    """The first partition of the topic `b`, with these fields."""
    return in_partition(("b", 0), **fields)


def script_line(api, **fields):
    """The line of a script in which root asks something."""
    return f"req root h {request_digits(api, **fields)}\n"


# ---- the memory of a run

# A process's peak of memory begins with that of the process that started it, so a small one does. It has no huge pages, each of
# which would count as a whole (prctl(2), PR_SET_THP_DISABLE).
STARTER = """
import ctypes, os, sys
ctypes.CDLL(None).prctl(41, 1, 0, 0, 0)
child = os.posix_spawn(sys.argv[1], sys.argv[1:], os.environ)
_, status, usage = os.wait4(child, 0)
sys.stderr.write(f"{os.waitstatus_to_exitcode(status)} {usage.ru_maxrss}")
"""


def peak_of(script, program=PROGRAM):
    """The peak of memory, in bytes, of a program that answers a script, of which no answer is looked at."""
    with tempfile.TemporaryFile("w+") as text:
        text.write(script)
        text.seek(0)
        words = [sys.executable, "-S", "-c", STARTER, program, "replay"]
        told = subprocess.run(words, stdin=text, stdout=subprocess.DEVNULL, stderr=subprocess.PIPE, check=True, text=True)
    status, peak = map(int, told.stderr.split())
    if status:
        raise AssertionError(f"the program ended with {status}")
    return peak * 1024


# ---- connections


def free_address():
    """An address at which nobody listened just now."""
    return f"127.0.0.1:{free_port('127.0.0.1')}"


def connect(address, timeout=PATIENCE):
    """A connection that says nothing yet."""
    host, _, port = address.rpartition(":")
    peer = socket.create_connection((host, int(port)), timeout)
    peer.setsockopt(socket.IPPROTO_TCP, socket.TCP_NODELAY, 1)
    return peer


def is_read(peer):
    """Whether the other end of a connection over IPv4 on this machine has read all that was sent, as /proc/net/tcp tells it."""
    ends = peer.getsockname(), peer.getpeername()
    here, there = (f"{struct.unpack('=I', socket.inet_aton(host))[0]:08X}:{port:04X}" for host, port in ends)
    with open("/proc/net/tcp", encoding="ascii") as table:
        queues = {(row[1], row[2]): row[4].split(":") for row in map(str.split, table)}
    unacknowledged, unread = queues.get((here, there), "?")[0], queues.get((there, here), "??")[1]
    return unacknowledged == unread == "00000000"

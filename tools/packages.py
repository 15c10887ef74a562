"""What the tests need beside Python and make, with the packages of Debian that have it."""

import os
import shutil
import subprocess
import sys

OLDEST = 3, 11
# Debian's packages install for the interpreter of the system, which may be another than this one.
OF_THE_SYSTEM = "/usr/bin/python3"
COMMANDS = {"cc": "gcc libc6-dev", "setpriv": "util-linux"}
CLIENTS = "kcat", "python3-confluent-kafka"
IN_CI = os.environ.get("CI") == "true"


def has_kafka(interpreter):
    """Whether an interpreter finds confluent-kafka."""
    if shutil.which(interpreter) is None:
        return False
    return subprocess.run([interpreter, "-c", "import confluent_kafka"], capture_output=True).returncode == 0


def lacking_clients():
    """The packages of clients that aren't installed."""
    has = shutil.which("kcat"), has_kafka(sys.executable) or has_kafka(OF_THE_SYSTEM)
    return [name for name, is_there in zip(CLIENTS, has) if not is_there]


def lacking():
    """The packages that aren't installed, without which tests fail. In CI the clients are among them."""
    found = [package for command, package in COMMANDS.items() if shutil.which(command) is None]
    return found + lacking_clients() * IN_CI


def demand_tools(who):
    """Ends with a sentence where no test can run."""
    if sys.version_info < OLDEST:
        sys.exit(f"{who}: the tests need Python {'.'.join(map(str, OLDEST))} or later")
    if shutil.which("rt") is None:
        sys.exit(f"{who}: the toolchain's command rt is not on the PATH")


def demand(who):
    """Ends with a sentence where not all tests can run, and tells which will be skipped."""
    demand_tools(who)
    found = lacking()
    if found:
        sys.exit(f"{who}: these packages of Debian are needed: apt-get install {' '.join(found)}")
    clients = lacking_clients()
    if clients:
        print(f"{who}: tests of clients are skipped without Debian's {' and '.join(clients)}", file=sys.stderr, flush=True)

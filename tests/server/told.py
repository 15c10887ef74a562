"""What an operator is told of sessions on standard error."""

import re
from collections import Counter

# A session of nobody in particular, or of a user, and why it ended.
OF_SESSION = "kbroker: session {} of {} from 127.0.0.1: {}"
NOBODY = "nobody"

# What a session's last frame asks, where the broker ends the session on it.
ASKED = re.compile(r"kbroker: session (\d+) (?!of )(.*)")
LOGS_IN = "logs in as {}: no user has this name and password"

# That something is told of a session; and the same of so many more, of which the latest is named.
OF_ONE = re.compile(r"kbroker: session (\d+) (.*)")
OF_MORE = re.compile(r"kbroker: (\d+) more sessions, up to session (\d+): (.*)")

# That connections wait for one of so many workers, and how many seconds the one had waited that is served then.
WAITING = "kbroker: connections wait for a worker, since all {} are taken; see --workers"
WAITED = "kbroker: a connection from 127.0.0.1 has waited {} s for a worker, and is served now"
# That the clock stops, and why; and that the trail is nearly full.
CLOCK_STOPS = "kbroker: the clock stops, so no transaction ends any more: {}"
NEARLY_FULL = (
    "kbroker: the trail has {} of at most {} events; once it is full, each session is closed at its next request"
)

# Lines that only tell of a wait for a worker: where a machine is slow or stands still, they may come at any time.
OF_WAITS = re.compile(r"kbroker: (?:connections wait for a worker, |a connection from \S+ has waited \d+ s for a worker, ).*")

# That a session's connection is closed, so many seconds after a stop.
CLOSED = "kbroker: session {} is closed, since it was still open {} s after the stop"

CUT = "the connection was closed inside a request"
BAD_FRAME = "a frame is shorter than a request can be, or longer than the limit"
MALFORMED = "a frame is no request that is served"
NO_LOGIN = "the login failed, or something was asked before it"
FULL = "the trail holds as many events as `trail_limit` allows"
ALLOCATION_FAILED = "there is not enough memory"
DOWN = "an earlier event put the broker down"
READ_FAILED = "a read failed"
WRITE_FAILED = "a write failed"


def counted(lines):
    """Of how many sessions each text is told. A line that tells of more than one counts so many; others are left out."""
    counts = Counter()
    for line in lines:
        if found := OF_ONE.fullmatch(line):
            counts[found[2]] += 1
        elif found := OF_MORE.fullmatch(line):
            counts[found[3]] += int(found[1])
    return counts


def without_waits(lines):
    """These lines, but for those which tell that connections wait for a worker, or that one has waited."""
    return [it for it in lines if not OF_WAITS.fullmatch(it)]


def text_of(line):
    """What a line tells of its session."""
    return OF_ONE.fullmatch(line)[2]


def asked(number, what):
    """The line of the frame on which a session is ended."""
    return f"kbroker: session {number} {what}"


def of_nobody(number, why):
    """The line of a session in which nobody logged in."""
    return OF_SESSION.format(number, NOBODY, why)


def of_user(number, name, why):
    """The line of a session whose user had logged in."""
    return OF_SESSION.format(number, f"User:{name}", why)

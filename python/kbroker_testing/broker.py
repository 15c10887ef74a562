"""A broker for tests: `kbroker serve` on a port of its own, as a context manager, and `kbroker replay` as a function.

`Kbroker` is steered. There is no clock, and nothing happens in the broker between two calls but what clients ask:

    with Kbroker(settings, program="kbroker") as broker:
        client_of(broker.address)      # "127.0.0.1:PORT", which is also what Metadata tells
        broker.tick(60_001)            # the clock shows so many milliseconds, and only now
        broker.advance(1_000)          # it goes on by a second
        broker.mark()                  # one marker is written, and `marks` writes all that are pending

With `clock=True` its time goes on and its markers are written by themselves, but where a test takes that over:

    with Kbroker(settings, clock=True) as broker:
        with broker.steered():
            broker.mark()

`ClockedKbroker` keeps its time itself, takes so many connections, and can't be steered. The settings are a TOML text, or parts of
one (`kbroker_testing.settings`). Each of `node_id`, `host` and `port` that they don't have is put before them; where that is all
three, Metadata tells `broker.address`. All calls may come from several threads at once.

The program is the one that is named, or the one of the environment's KBROKER, or `kbroker` on the path.
"""

import contextlib
import os
import re
import socket
import subprocess
import tempfile
import threading
import time
from collections.abc import Iterable, Iterator, Sequence
from types import TracebackType
from typing import IO, Any, NamedTuple, TypeVar, Union
from urllib.parse import unquote

from kbroker_testing.settings import Settings, joined

ATTEMPTS = 5
PORT_TAKEN = "listen failed\n"  # by somebody else, since it was found free
STARTS_WITHIN = ANSWERS_WITHIN = 60  # seconds, until it says its first line, and the next one of an answer
LISTENING = re.compile(r"listening on (\S+)\n")
LAST = re.compile(r"sessions (\d+) events (\d+) refusals (\d+)\n")
GRACE = 5  # seconds, for which a client is waited for at the end
# What a line of standard error may begin with: when it was told, and how much it matters.
STAMP = re.compile(r"^(?:\d{4}-\d\d-\d\dT\d\d:\d\d:\d\d(?:\.\d+)?Z|-) (?:INFO|WARN) ", re.M)
# What is told first: what is served, and where clients are told another port.
STARTED = re.compile(r"kbroker: (?:version \S+ as node \d+: |warning: clients are told port ).*")
# What is told last: how many requests, ticks and marks were answered, and of each api how many.
REQUESTS = re.compile(r"kbroker: requests (\d+), ticks (\d+), marks (\d+)(?:; (.+))?")
# A connection that was open for so long after the end that it was closed.
CLOSED_LATE = re.compile(r"kbroker: session (\d+) is closed, since it was still open \d+ s after the stop")
# The first line of a table of the settings, after which no key stands outside a table.
TABLE = re.compile(r"^[ \t]*\[", re.M)
AT_LINE = re.compile(r"(kbroker: settings: TOML parse error at line )(\d+)")
# The properties of librdkafka, and of confluent-kafka, that have underscores themselves.
UNDERSCORED = re.compile(r"log_level|on_[a-z]+|[a-z_]+_cb")
# What is told where as many connections were taken as are served.
USED_UP = "kbroker: no more connections are taken, since --connections is {}"
TICKS = os.sysconf("SC_CLK_TCK")
TICK_EVERY, MARKS_EVERY = 0.1, 0.01  # seconds, of a steered broker whose time goes on by itself
LAST_MOMENT = (1 << 62) - 1  # milliseconds, at which the clock stays

Program = Union[str, "os.PathLike[str]"]
# A standard stream: a file, or `subprocess.PIPE` or the like.
Stream = Union[int, IO[Any]]
Started = TypeVar("Started", bound="BrokerProcess")
SteeredBroker = TypeVar("SteeredBroker", bound="Kbroker")
Part = TypeVar("Part")


class Moment(NamedTuple):
    """What came of a tick: the broker's moment in milliseconds, the transactional ids whose time was over, and how many markers
    are pending."""

    moment: int
    aborted: tuple[str, ...]
    owed: int


class Marker(NamedTuple):
    """A marker that was written: its outcome, `commit` or `abort`, its pair, the kind of what it was written to, `topic` or `group`,
    with its name, and of a topic the partition; and how many markers are pending."""

    outcome: str
    producer: int
    epoch: int
    kind: str
    name: str
    partition: int | None
    owed: int


class Partition(NamedTuple):
    """A partition's log end offset and its last stable offset."""

    end: int
    stable: int


class Transaction(NamedTuple):
    """An open or a prepared transaction: its state by its name in KIP-98, its pair, when it began and how long it may take in
    milliseconds, and the partitions and the groups that were added to it."""

    state: str
    producer: int
    epoch: int
    began: int
    timeout: int
    partitions: tuple[tuple[str, int], ...]
    groups: tuple[str, ...]


class Group(NamedTuple):
    """A group's generation, its member if it has one, and its committed offsets by topic and partition."""

    generation: int
    member: str | None
    committed: dict[tuple[str, int], int]


class State(NamedTuple):
    """How things stand: the moment in milliseconds, how many markers are pending, partitions by topic and index, transactions by
    id, groups by name, and the length of the trail."""

    moment: int
    owed: int
    partitions: dict[tuple[str, int], Partition]
    transactions: dict[str, Transaction]
    groups: dict[str, Group]
    events: int


class Settled(NamedTuple):
    """What the settled broker did."""

    sessions: int
    events: int
    refusals: int


class BrokerFailed(Exception):
    """The broker isn't started or didn't start, didn't answer a line in time, or didn't end as it should."""


class NotTaken(Exception):
    """The broker didn't take a step: it has no memory (`stop 1`), its trail is full (`stop 2`), or it is down (`stop 3`)."""


def program_of_environment() -> str:
    """The program that is run where none is named."""
    return os.environ.get("KBROKER", "kbroker")


def program_fault(program: Program, fault: OSError) -> BrokerFailed:
    """That a program can't be run, and what to do."""
    names = "name one by `program`, or by KBROKER in the environment; in a checkout ./kbroker is one, which `make build` builds"
    return BrokerFailed(f"the program {program} can't be run ({fault.strerror}): {names}")


def milliseconds(number: int, name: str) -> int:
    """A number of milliseconds that the clock can show. ValueError where it isn't one."""
    if isinstance(number, bool) or not isinstance(number, int) or not 0 <= number <= LAST_MOMENT:
        raise ValueError(f"{name} is {number!r}, and not a whole number of milliseconds from 0 to {LAST_MOMENT}")
    return int(number)


def free_port(host: str) -> int:
    """A port of an IPv4 address that was free just now."""
    with socket.socket() as it:
        try:
            it.bind((host, 0))
        except OSError as fault:
            raise BrokerFailed(f"the host {host} can't be listened on ({fault.strerror}): it is no IPv4 address of this machine") from None
        port: int = it.getsockname()[1]
        return port


def without_stamps(errors: str) -> str:
    """What was told on standard error, without the time and the level that its lines may begin with."""
    return STAMP.sub("", errors)


def has_key(settings: str, key: str) -> bool:
    """Whether settings have a key outside their tables."""
    return bool(re.search(rf"^[ \t]*{key}[ \t]*=", TABLE.split(settings, 1)[0], re.M))


def report(lines: Iterable[str]) -> str:
    """Lines of standard error as the end of a sentence, which names the sessions that the broker had to close, if there are some."""
    closed = [found[1] for found in map(CLOSED_LATE.fullmatch, lines) if found]
    return f"and tells {[*lines]}" + f"; clients held open session {', session '.join(closed)}" * bool(closed)


def marker_of(line: str) -> Marker | None:
    """The marker of a line, or None where none was pending."""
    words = line.split(" ")
    if words[:2] == ["marker", "none"]:
        return None
    outcome, producer, epoch, kind, name = words[1], int(words[3]), int(words[5]), words[6], unquote(words[7])
    partition = int(words[8]) if kind == "topic" else None
    return Marker(outcome, producer, epoch, kind, name, partition, int(words[-1]))


def transaction_of(words: Sequence[str]) -> Transaction:
    """The transaction of a line, to which nothing is added yet."""
    producer, epoch, began, timeout = map(int, words[3::2])
    return Transaction(words[1], producer, epoch, began, timeout, (), ())


def state_of(lines: Iterable[str]) -> State:
    """What the lines after `state` tell."""
    numbers: dict[str, int] = {}
    partitions: dict[tuple[str, int], Partition] = {}
    transactions: dict[str, Transaction] = {}
    groups: dict[str, Group] = {}
    for kind, *words in (line.split(" ") for line in lines):
        name = unquote(words[0])
        if kind in ("moment", "owed", "events"):
            numbers[kind] = int(words[0])
        elif kind == "partition":
            partitions[name, int(words[1])] = Partition(int(words[3]), int(words[5]))
        elif kind == "transaction":
            transactions[name] = transaction_of(words)
        elif kind == "added" and words[1] == "topic":
            had = transactions[name]
            transactions[name] = had._replace(partitions=(*had.partitions, (unquote(words[2]), int(words[3]))))
        elif kind == "added":
            had = transactions[name]
            transactions[name] = had._replace(groups=(*had.groups, unquote(words[2])))
        elif kind == "group":
            groups[name] = Group(int(words[2]), unquote(words[4]) if len(words) > 3 else None, {})
        elif kind == "committed":
            groups[name].committed[unquote(words[1]), int(words[2])] = int(words[3])
    return State(numbers["moment"], numbers["owed"], partitions, transactions, groups, numbers["events"])


class BrokerProcess:
    """`kbroker serve` with settings, as a context manager that leaves no process and no file."""

    connections: int | None = None  # after which it ends, where that is said

    def __init__(
        self,
        settings: Settings,
        program: Program | None = None,
        host: str = "127.0.0.1",
        workers: int = 4,
        more: Sequence[str] = (),
        errors: Stream | None = None,
    ) -> None:
        """It listens at an IPv4 address. Its standard error goes to a file, or to `errors`: a pipe, `subprocess.PIPE`, is read once
        its end is waited for."""
        self.settings, self.program, self.host, self.workers = joined(settings), program or program_of_environment(), host, workers
        self.more, self.errors = more, errors
        self.running: subprocess.Popen[str] | None = None
        self.folder: tempfile.TemporaryDirectory[str] | None = None
        self.file: IO[bytes] | None = None
        self.listens: str | None = None
        self.added, self.lock = 0, threading.RLock()
        self.was_ended = False  # by whoever started it, who knows then what came of it

    def __enter__(self: Started) -> Started:
        self.folder = tempfile.TemporaryDirectory()
        try:
            self.listens = self.listen()
        except BaseException:
            self.close()
            raise
        return self

    def __exit__(self, kind: type[BaseException] | None, fault: BaseException | None, trace: TracebackType | None) -> None:
        self.close()

    def require(self, part: Part | None) -> Part:
        """What it has once it is started."""
        if part is None:
            raise BrokerFailed(f"the broker isn't started: `with {type(self).__name__}(..) as broker:` starts it")
        return part

    @property
    def process(self) -> "subprocess.Popen[str]":
        """Its process."""
        return self.require(self.running)

    @property
    def address(self) -> str:
        """Where it listens, `127.0.0.1:PORT`, which is also what Metadata tells."""
        return self.require(self.listens)

    def words(self, settings: IO[str]) -> tuple[list[str], Stream]:
        """What stands after `serve`, but for where it listens, with the settings in this file; and its standard input."""
        raise NotImplementedError

    def listen(self) -> str:
        """Starts it, and gives where it listens."""
        for _ in range(ATTEMPTS):
            first = self.start()
            if found := LISTENING.fullmatch(first):
                return found[1]
            status, _, errors = self.wait()
            self.kill()
            if first != PORT_TAKEN:
                break
        says = f"says {first!r}" if first else f"ends with status {status} before it says where it listens"
        raise BrokerFailed(f"the program {self.program} {says}, {report(self.lines_of(errors))}")

    def start(self) -> str:
        """Starts it, and gives its first line."""
        self.was_ended = False
        port = 0 if has_key(self.settings, "port") else free_port(self.host)
        own = {"node_id": 1, "host": f'"{self.host}"', "port": port}
        added = [f"{key} = {value}\n" for key, value in own.items() if not has_key(self.settings, key)]
        self.added, listens = len(added), f"{self.host}:{port}"
        path = os.path.join(self.require(self.folder).name, "settings.toml")
        with open(path, "w", encoding="utf-8") as it:
            it.write("".join(added) + self.settings)
        self.file = None if self.errors else tempfile.TemporaryFile()
        with open(path, encoding="utf-8") as given:
            words, stdin = self.words(given)
            words = ["serve", "--listen", listens, "--workers", str(self.workers), *words, *self.more]
            self.running = self.run([str(self.program), *words], stdin)
        return self.read_line(STARTS_WITHIN)

    def run(self, words: list[str], stdin: Stream) -> "subprocess.Popen[str]":
        """Runs these words, with this standard input."""
        stdout, stderr = subprocess.PIPE, self.errors or self.file
        try:
            return subprocess.Popen(words, stdin=stdin, stdout=stdout, stderr=stderr, encoding="utf-8", errors="surrogateescape")
        except OSError as fault:
            raise program_fault(self.program, fault) from None

    def read_line(self, within: float) -> str:
        """The next line of standard output, or what of it came before the output's end. A broker that says no line within so many
        seconds is killed."""
        is_late, process = threading.Event(), self.process

        def give_up() -> None:
            is_late.set()
            process.kill()

        timer = threading.Timer(within, give_up)
        timer.start()
        try:
            line = process.stdout.readline() if process.stdout else ""
        finally:
            timer.cancel()
        if is_late.is_set():
            raise BrokerFailed(f"the broker says nothing within {within} seconds, {report(self.told())}")
        return line

    def kill(self) -> None:
        """Ends it at once, whatever it does."""
        self.was_ended = True
        streams: list[IO[Any] | None] = [self.file]
        if self.running is not None:
            if self.running.poll() is None:
                self.running.kill()
            self.running.wait()
            streams += [self.running.stdin, self.running.stdout, self.running.stderr]
        for it in filter(None, streams):
            with contextlib.suppress(OSError):
                it.close()

    def close(self) -> None:
        """Leaves nothing of it."""
        self.kill()
        if self.folder:
            self.folder.cleanup()

    def lines_of(self, errors: str) -> list[str]:
        """The lines of standard error, without times and levels, but for those that come each time: the first, of what is served
        on which port, the last, of how much was asked, and the one that no more connections are taken. A line of the settings is
        told by its number in those that were given."""
        errors = AT_LINE.sub(lambda it: f"{it[1]}{int(it[2]) - self.added}", without_stamps(errors))
        return [it for it in errors.splitlines() if it != self.used_up and not (STARTED.fullmatch(it) or REQUESTS.fullmatch(it))]

    @property
    def used_up(self) -> str:
        """The line which tells that no more connections are taken."""
        return USED_UP.format(self.connections)

    def told(self) -> list[str]:
        """The whole lines of standard error so far, where it is a file."""
        if not self.file or self.file.closed:
            return []
        size = os.fstat(self.file.fileno()).st_size
        so_far = os.pread(self.file.fileno(), size, 0).decode(errors="replace")
        return self.lines_of(so_far[: so_far.rfind("\n") + 1])

    def hand_in(self, line: str) -> None:
        """Hands in a line of standard input. That the broker has ended is told by the answer, which doesn't come."""
        stdin = self.process.stdin
        if stdin is None:
            raise BrokerFailed(f"a {type(self).__name__} takes no lines: a `Kbroker` is steered")
        with contextlib.suppress(BrokenPipeError):
            os.write(stdin.fileno(), f"{line}\n".encode(errors="surrogateescape"))

    def next_line(self) -> str:
        """The next line of an answer."""
        line = "" if self.was_ended else self.read_line(ANSWERS_WITHIN)
        if not line.endswith("\n"):
            raise EOFError(f"the broker has ended, {report(self.told())}")
        line = line.rstrip("\n")
        if line.startswith("stop "):
            raise NotTaken(line)
        return line

    def say(self, line: str) -> str:
        """Hands in a line, and gives the first line of the answer."""
        with self.lock:
            if not self.was_ended:
                self.hand_in(line)
            return self.next_line()

    def lines(self, said: str, last: str) -> tuple[list[str], int]:
        """Hands in a line, and gives the lines of the answer up to the last, which begins with a word, and that word's number."""
        with self.lock:
            found: list[str] = []
            line = self.say(said)
            while not line.startswith(last + " "):
                found.append(line)
                line = self.next_line()
            return found, int(line.rpartition(" ")[2])

    def wait(self, line: str | None = None, timeout: float = 30) -> tuple[int, str, str]:
        """Waits so many seconds for its end, after a last line if there is one, and gives its status, what it said last, and what it
        said on standard error, if that comes here."""
        with self.lock:
            process, self.was_ended = self.process, True
            said, told = process.communicate(line, timeout=timeout)
            if self.file:
                self.file.seek(0)
                told = self.file.read().decode()
            return process.returncode, said, told or ""

    def settled(self, line: str | None = None, timeout: float = 30) -> tuple[Settled, list[str]]:
        """Waits for its end as `wait` does, and gives what it did, and the lines of standard error."""
        try:
            status, said, errors = self.wait(line, timeout)
        except subprocess.TimeoutExpired:
            raise BrokerFailed(f"the broker hasn't ended after {timeout} seconds, {report(self.told())}") from None
        found, told = LAST.fullmatch(said), self.lines_of(errors)
        if status or not found:
            raise BrokerFailed(f"the broker ends with status {status} and says {said!r}, {report(told)}")
        return Settled(*map(int, found.groups())), told

    def memory(self, of: str = "VmRSS") -> int:
        """How many bytes of its memory are resident."""
        with open(f"/proc/{self.process.pid}/status", encoding="ascii") as status:
            return next(int(line.split()[1]) << 10 for line in status if line.startswith(f"{of}:"))

    def peak_memory(self) -> int:
        """How many were resident at once, at most, since it began."""
        return self.memory("VmHWM")

    def processor_seconds(self) -> float:
        """The processor time that it has taken since it began."""
        with open(f"/proc/{self.process.pid}/stat", encoding="utf-8") as stat:
            fields = stat.read().rpartition(")")[2].split()
        return (int(fields[11]) + int(fields[12])) / TICKS


class ClockedKbroker(BrokerProcess):
    """A broker that keeps its time itself, until it has served so many connections (None: that isn't said), or more words
    end it."""

    def __init__(
        self,
        settings: Settings,
        program: Program | None = None,
        connections: int | None = 1,
        host: str = "127.0.0.1",
        workers: int = 4,
        more: Sequence[str] = (),
        errors: Stream | None = None,
    ) -> None:
        super().__init__(settings, program, host, workers, more, errors)
        self.connections = connections

    def words(self, settings: IO[str]) -> tuple[list[str], Stream]:
        counted = [] if self.connections is None else ["--connections", str(self.connections)]
        return counted, settings


class Clock(threading.Thread):
    """Has the time of a steered broker go on, and its markers written, as a clock of its own would, while nobody steers it."""

    def __init__(self, broker: "Kbroker") -> None:
        super().__init__(daemon=True)
        self.broker, self.steering, self.ended = broker, 0, threading.Event()
        self.told = time.monotonic()  # when the broker's moment was last set on, or taken over

    def run(self) -> None:
        try:
            while not self.ended.wait(MARKS_EVERY):
                with self.broker.lock:
                    if not (self.steering or self.ended.is_set()):
                        self.step()
        except (NotTaken, EOFError, OSError, ValueError):
            pass  # whoever asks the broker next is told

    def step(self) -> None:
        """Writes the pending markers, and tells the moment if it is time."""
        self.broker.marks()
        passed = time.monotonic() - self.told
        if passed >= TICK_EVERY:
            self.told += passed
            self.broker.advance(int(1000 * passed))

    def end(self) -> None:
        """It does nothing more."""
        self.ended.set()
        self.join()


class Kbroker(BrokerProcess):
    """A broker that is steered, or with `clock` one whose time goes on by itself, but within `steered`. It ends with the `with`, and
    its books have to be settled then."""

    def __init__(
        self,
        settings: Settings,
        program: Program | None = None,
        host: str = "127.0.0.1",
        workers: int = 16,
        more: Sequence[str] = ("--librdkafka",),
        errors: Stream | None = None,
        clock: bool = False,
    ) -> None:
        super().__init__(settings, program, host, workers, more, errors)
        self.clock = Clock(self) if clock else None

    def __enter__(self: SteeredBroker) -> SteeredBroker:
        super().__enter__()
        if self.clock:
            self.clock.start()
        return self

    def close(self) -> None:
        """Leaves nothing of it."""
        if self.clock and self.clock.is_alive():
            self.clock.end()
        super().close()

    @property
    def bootstrap_servers(self) -> str:
        """Where clients begin: `broker.address`, by the name that they have for it."""
        return self.address

    def client_config(self, user: str, password: str, **more: Any) -> dict[str, Any]:
        """The properties by which a user's client on librdkafka connects, as confluent-kafka takes them, with more of them: their dots
        are underscores here. `log_level` and callbacks are themselves."""
        own: dict[str, Any] = {
            "bootstrap.servers": self.address,
            "security.protocol": "SASL_PLAINTEXT",
            "sasl.mechanism": "PLAIN",
            "sasl.username": user,
            "sasl.password": password,
        }
        return own | {name if UNDERSCORED.fullmatch(name) else name.replace("_", "."): it for name, it in more.items()}

    @contextlib.contextmanager
    def steered(self: SteeredBroker) -> Iterator[SteeredBroker]:
        """Meanwhile the clock stands, and no marker is written, but where the test says so. Then both go on from there."""
        with self.lock:
            if self.clock:
                self.clock.steering += 1
        try:
            yield self
        finally:
            with self.lock:
                if self.clock:
                    self.clock.steering -= 1
                    self.clock.told = time.monotonic()

    def __exit__(self, kind: type[BaseException] | None, fault: BaseException | None, trace: TracebackType | None) -> None:
        try:
            if kind is None and not self.was_ended:
                self.end()
        finally:
            self.close()

    def words(self, settings: IO[str]) -> tuple[list[str], Stream]:
        return ["--control", "--grace", str(GRACE), "--settings", settings.name], subprocess.PIPE

    def tick(self, moment: int) -> Moment:
        """The clock shows this moment, in milliseconds: a group's members and transactions whose time is over go. One before the
        present moment changes nothing."""
        words = self.say(f"tick {milliseconds(moment, 'the moment')}").split(" ")
        aborted = tuple(map(unquote, words[3:-2:2]))
        return Moment(int(words[1]), aborted, int(words[-1]))

    def advance(self, passed: int) -> Moment:
        """The clock goes on by so many milliseconds."""
        return self.tick(min(self.state().moment + milliseconds(passed, "what has passed"), LAST_MOMENT))

    def mark(self) -> Marker | None:
        """Writes the oldest pending marker, and gives it; None where none is pending."""
        return marker_of(self.say("mark"))

    def marks(self) -> list[Marker]:
        """Writes all pending markers, and gives them."""
        return [it for it in map(marker_of, self.lines("marks", "markers")[0]) if it]

    def audit(self) -> list[str]:
        """The refusals since the last time, each as the line that `replay` prints."""
        return self.lines("audit", "refusals")[0]

    def state(self) -> State:
        """How things stand."""
        lines, events = self.lines("state", "events")
        return state_of([*lines, f"events {events}"])

    def end(self, timeout: float = 30) -> Settled:
        """Takes no more connections, closes those that are open once what they have asked is answered, and gives what the settled
        broker did. A client that reads no answers is waited for five seconds. Where the broker doesn't end as it should, or not
        within so many seconds, the exception names the sessions that it had to close so."""
        if self.clock and self.clock.is_alive():
            self.clock.end()
        return self.settled("end\n", timeout)[0]


class Answered(NamedTuple):
    """What `kbroker replay` prints for a line: the answer, or what stands in its place, and the lines of what is refused."""

    answer: str
    refused: list[str]


def answers_in(printed: str) -> list[Answered]:
    """What `kbroker replay` printed, line by line of the script."""
    answers: list[Answered] = []
    for line in printed.splitlines():
        if line.startswith(("denied ", "unmatched ")):
            answers[-1].refused.append(line)
        else:
            answers.append(Answered(line, []))
    return answers


def replay(script: str, program: Program | None = None, timeout: float = 60) -> list[Answered]:
    """What is printed, within so many seconds, for each line of a script, which stands after its settings and a line `---`."""
    program = program or program_of_environment()
    try:
        ran = subprocess.run([program, "replay"], input=script.encode(), capture_output=True, timeout=timeout)
    except OSError as fault:
        raise program_fault(program, fault) from None
    if ran.returncode:
        raise BrokerFailed(f"the replay ends with status {ran.returncode}: {ran.stderr.decode(errors='replace')[:500]}")
    return answers_in(ran.stdout.decode())

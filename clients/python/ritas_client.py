"""A client of ritas nodes: it hands in commands and follows the log, and trusts no single node.

n nodes keep one log of commands although up to f of them lie in any way; n is at least 3f + 1. This module needs nothing but Python (3.10 or later)
and the nodes' addresses for clients:

    with Cluster(["10.0.0.1:25100", "10.0.0.2:25100", "10.0.0.3:25100", "10.0.0.4:25100"], f=1) as cluster:
        position = cluster.submit(client=7, request=1, payload=b"hi")
        for row in cluster.follow():
            print(row.position, row.client, row.payload)

A position is believed once f + 1 nodes replied it, and a row once f + 1 nodes gave the same row at its position: at least one of them is correct. So
what is told here is true as long as no more than f nodes lie. That something is told at all takes f + 1 correct nodes that can be reached.

Nothing in the log says who a client is, but for its number, which anybody may use. Sign a payload if that matters, with its client and its request.

All waits are those of one selector in the calling thread. A `Cluster` and what it gives are for one thread at a time.
"""
from __future__ import annotations

import collections
import dataclasses
import enum
import errno
import math
import random
import selectors
import socket
import time
from collections.abc import Iterator, Sequence
from types import TracebackType
from typing import NamedTuple

__all__ = ["Ahead", "Changed", "Cluster", "Follower", "Malformed", "Observer", "PieceFault", "QueriesRefused", "Refused", "RitasError", "Row",
           "TimedOut"]

MOST_NODES = 31
MOST_PAYLOAD = 4088
MOST_PIECE = 16384
MOST_ROWS = 8
# A row's number among those of its origin is below this.
NUMBERS = 1_000_000
LAST = 2**32 - 1
# So many positions from the next one on are kept for each node.
WINDOW = 64

QUERY, POSITION, REFUSAL, PIECE = b"\x4c", 1, 2, 3
REPLY_BYTES = 13
WINDOW_FULL = 7

# Seconds. A connection that is being made is given up, and so is one by which an answer is overdue.
CONNECT, ANSWER = 5.0, 5.0
# The pause before a connection is made again: it doubles, and is short again after one that stood for so long.
FIRST_PAUSE, LAST_PAUSE, STEADY = 0.05, 2.0, 2.0
# How long a request waits for replies before it is handed to further nodes.
PATIENCE = 0.25
# The pause before a node whose window was full gets the request again: it doubles.
FIRST_RETRY, LAST_RETRY = 0.02, 0.32
# The rest before a node that had no row is asked again: it doubles, and is short again once the node gave a row.
FIRST_REST, LAST_REST = 0.002, 0.05
READ = 1 << 16


class RitasError(Exception):
    """What this module raises, but for `ValueError` if an argument is wrong."""


class TimedOut(RitasError, TimeoutError):
    """The time was over. A command may have its row later on: hand the very same one in again, and the log still has it once."""


class Refused(RitasError):
    """More than f nodes refused the command, so a correct one did. `numbers` has the fault that each of them gave: 7 if its window was full."""

    def __init__(self, numbers: dict[int, int]):
        super().__init__("refused by " + ", ".join(f"node {node} with {number}" for node, number in sorted(numbers.items())))
        self.numbers = numbers


class QueriesRefused(RitasError):
    """So many nodes refuse queries that f + 1 can't answer: their program is too old to have its log followed."""


class PieceFault(RitasError):
    """What is wrong with a piece of the log. No correct node gives such a piece."""


class Malformed(PieceFault):
    """The bytes are no piece. `offset` is that of the first byte that is wrong, missing or too much."""

    def __init__(self, offset: int):
        super().__init__(f"wrong at byte {offset}")
        self.offset = offset


class Ahead(PieceFault):
    """The piece has a row that lies too far ahead of the next position, `length`."""

    def __init__(self, length: int):
        super().__init__(f"{WINDOW} positions or more ahead of {length}")
        self.length = length


class Changed(PieceFault):
    """The node gave another row at this position before."""

    def __init__(self, position: int):
        super().__init__(f"another row than before at {position}")
        self.position = position


class Row(NamedTuple):
    """A row of the log. Its command was the `number`-th of the node `origin`, which submitted it for the client."""

    position: int
    origin: int
    number: int
    client: int
    request: int
    payload: bytes


class Reply(NamedTuple):
    """What a node replies to a request: a position (form 1), or the number of a fault (form 2)."""

    form: int
    client: int
    request: int
    number: int


class Fields:
    """Reads the fields of a message from the left."""

    def __init__(self, text: bytes):
        self.text, self.at = text, 0

    def take(self, size: int) -> bytes:
        if len(self.text) - self.at < size:
            raise Malformed(len(self.text))
        self.at += size
        return self.text[self.at - size : self.at]

    def number(self, size: int, most: int = LAST, least: int = 0) -> int:
        start = self.at
        value = int.from_bytes(self.take(size), "big")
        if not least <= value <= most:
            raise Malformed(start)
        return value

    def row(self, position: int, n: int) -> Row:
        origin, number = self.number(1, n - 1), self.number(4, NUMBERS - 1)
        client, request = self.number(4), self.number(4)
        return Row(position, origin, number, client, request, self.take(self.number(2, MOST_PAYLOAD)))

    def end(self) -> None:
        if self.at < len(self.text):
            raise Malformed(self.at)


def read_piece(n: int, message: bytes) -> tuple[int, list[Row]]:
    """The position of a piece of the log of n nodes, and its rows. Raises `Malformed` if the bytes are none."""
    fields = Fields(message[:MOST_PIECE])
    fields.number(1, PIECE, PIECE)
    position = fields.number(4)
    count = fields.number(1, min(MOST_ROWS, LAST - position))
    rows = [fields.row(position + place, n) for place in range(count)]
    fields.end()
    if len(message) > MOST_PIECE:
        raise Malformed(MOST_PIECE)
    return position, rows


def read_reply(message: bytes) -> Reply:
    """A node's reply to a request. Raises `Malformed` if the bytes are none."""
    fields = Fields(message)
    reply = Reply(fields.number(1, REFUSAL, POSITION), fields.number(4), fields.number(4), fields.number(4))
    fields.end()
    return reply


def word(name: str, value: int) -> bytes:
    """A number as four bytes."""
    if not 0 <= value <= LAST:
        raise ValueError(f"{name} {value}: it is 0 to {LAST}")
    return value.to_bytes(4, "big")


def query_message(position: int) -> bytes:
    return QUERY + word("position", position)


def request_message(client: int, request: int, payload: bytes) -> bytes:
    if len(payload) > MOST_PAYLOAD:
        raise ValueError(f"a payload of {len(payload)} bytes: it has at most {MOST_PAYLOAD}")
    return word("client", client) + word("request", request) + bytes(payload)


class Observer:
    """The log as it comes of pieces that nodes gave, with no connection: a row is entered once f + 1 nodes gave an equal one at its position.

    `length` is the next position. For each node the first row that it gave counts, at each of the 64 positions from there on; nothing else is kept.
    """

    def __init__(self, n: int, f: int, length: int = 0):
        self.n, self.f, self.length = n, f, length
        self._kept: list[dict[int, Row]] = [{} for _ in range(n)]

    def piece(self, node: int, message: bytes) -> list[Row]:
        """Takes a piece that this node gave, and answers the rows that are entered now. After a `PieceFault` all is as before."""
        _, rows = read_piece(self.n, message)
        kept = self._kept[node]
        if rows and rows[-1].position >= self.length + WINDOW:
            raise Ahead(self.length)
        for row in rows:
            if kept.get(row.position, row) != row:
                raise Changed(row.position)
        kept.update((row.position, row) for row in rows if row.position >= self.length)
        return self._enter()

    def kept(self, node: int) -> int:
        """How many rows of this node are kept."""
        return len(self._kept[node])

    def _enter(self) -> list[Row]:
        entered = []
        while (row := self._backed()) is not None:
            entered.append(row)
            for kept in self._kept:
                kept.pop(self.length, None)
            self.length += 1
        return entered

    def _backed(self) -> Row | None:
        """The row that f + 1 nodes gave at the next position."""
        given = [kept[self.length] for kept in self._kept if self.length in kept]
        return next((row for row in given if given.count(row) > self.f), None)


Place = tuple[socket.AddressFamily, tuple[str, int]]


def place_of(node: str | tuple[str, int]) -> Place:
    """Where a node is, of `host:port` or of a pair."""
    if isinstance(node, str):
        name, _, digits = node.rpartition(":")
        node = name, int(digits)
    host, port = node
    family, _, _, _, found = socket.getaddrinfo(host, port, type=socket.SOCK_STREAM)[0]
    return family, (str(found[0]), int(found[1]))


class Kind(enum.Enum):
    """What happened to a connection: it stands, it ended, or a message came."""

    UP = enum.auto()
    DOWN = enum.auto()
    CAME = enum.auto()


class Event(NamedTuple):
    node: int
    kind: Kind
    message: bytes = b""


@dataclasses.dataclass
class Line:
    """A connection with one node. It stands since `since`. `due` is when it is given up, and `again` when it is made again."""

    place: Place
    socket: socket.socket | None = None
    is_wanted: bool = False
    is_up: bool = False
    came: bytearray = dataclasses.field(default_factory=bytearray)
    going: bytearray = dataclasses.field(default_factory=bytearray)
    since: float = math.inf
    due: float = math.inf
    again: float = 0.0
    pause: float = FIRST_PAUSE

    def moment(self) -> float:
        """When something is to be done."""
        if self.socket is not None:
            return self.due
        return self.again if self.is_wanted else math.inf


class Lines:
    """Connections with nodes, one with each that is wanted. One that ends is made again after a pause.

    `faults` counts for each node how often what it sent was wrong.
    """

    def __init__(self, places: Sequence[Place], longest: int, faults: list[int]):
        self.lines = [Line(place) for place in places]
        self.longest, self.faults = longest, faults
        self._selector = selectors.DefaultSelector()
        self._events: collections.deque[Event] = collections.deque()

    def is_up(self, node: int) -> bool:
        return self.lines[node].is_up

    def want(self, node: int) -> None:
        self.lines[node].is_wanted = True

    def send(self, node: int, message: bytes) -> None:
        """Sends a message by a connection that stands. If no answer comes in time, the connection is given up."""
        line = self.lines[node]
        line.going += len(message).to_bytes(2, "big") + message
        line.due = min(line.due, time.monotonic() + ANSWER)
        self._write(node)

    def answered(self, node: int) -> None:
        """Says that the node answered, and that no answer is due any more."""
        self.lines[node].due = math.inf

    def fault(self, node: int) -> None:
        """Ends the connection with a node, since what came is wrong; what came after it isn't looked at."""
        self.faults[node] += 1
        self._events = collections.deque(event for event in self._events if event.node != node)
        self._end(node)

    def step(self, until: float) -> Iterator[Event]:
        """Waits until something is to be done, or until this moment, and gives what happened."""
        if not self._events:
            moment = min(until, *(line.moment() for line in self.lines))
            wait = None if moment == math.inf else max(0.0, moment - time.monotonic())
            ready = self._selector.select(wait)
            for key, mask in ready:
                self._serve(key.data, mask)
            self._do_what_is_due({key.data for key, _ in ready})
        while self._events:
            yield self._events.popleft()

    def close(self) -> None:
        for line in self.lines:
            if line.socket is not None:
                line.socket.close()
                line.socket, line.is_up = None, False
        self._selector.close()

    def _do_what_is_due(self, but: set[int]) -> None:
        """Makes connections, and gives up those that take too long, but for these, by which something came just now."""
        now = time.monotonic()
        for node, line in enumerate(self.lines):
            if line.moment() > now or node in but:
                continue
            if line.socket is None:
                self._dial(node)
            else:
                self._end(node)

    def _dial(self, node: int) -> None:
        line = self.lines[node]
        family, address = line.place
        line.due = time.monotonic() + CONNECT
        line.socket = socket.socket(family, socket.SOCK_STREAM)
        line.socket.setblocking(False)
        line.socket.setsockopt(socket.IPPROTO_TCP, socket.TCP_NODELAY, 1)
        self._selector.register(line.socket, selectors.EVENT_WRITE, node)
        if line.socket.connect_ex(address) not in (0, errno.EINPROGRESS):
            self._end(node)

    def _end(self, node: int) -> None:
        """Ends a connection, and notes when it is made again."""
        line = self.lines[node]
        if line.socket is None:
            return
        now = time.monotonic()
        self._selector.unregister(line.socket)
        line.socket.close()
        pause = FIRST_PAUSE if now - line.since >= STEADY else line.pause
        line.socket, line.is_up, line.since, line.due = None, False, math.inf, math.inf
        line.came.clear()
        line.going.clear()
        line.again, line.pause = now + pause * random.uniform(0.75, 1), min(2 * pause, LAST_PAUSE)
        self._events.append(Event(node, Kind.DOWN))

    def _serve(self, node: int, mask: int) -> None:
        line = self.lines[node]
        if not line.is_up:
            self._stand(node)
            return
        if mask & selectors.EVENT_READ:
            self._read(node)
        if line.is_up and mask & selectors.EVENT_WRITE:
            self._write(node)

    def _stand(self, node: int) -> None:
        """Looks what came of a connection that was being made."""
        line = self.lines[node]
        if line.socket is None or line.socket.getsockopt(socket.SOL_SOCKET, socket.SO_ERROR) != 0:
            self._end(node)
            return
        line.is_up, line.since, line.due = True, time.monotonic(), math.inf
        self._selector.modify(line.socket, selectors.EVENT_READ, node)
        self._events.append(Event(node, Kind.UP))

    def _read(self, node: int) -> None:
        line = self.lines[node]
        assert line.socket is not None
        try:
            text = line.socket.recv(READ)
        except BlockingIOError:
            return
        except OSError:
            text = b""
        line.came += text
        if not self._split(node):
            self.fault(node)
        elif not text:
            self._end(node)

    def _split(self, node: int) -> bool:
        """Takes the whole messages of what came, and says whether what is left may still become one."""
        came, at = self.lines[node].came, 0
        while len(came) - at >= 2:
            size = int.from_bytes(came[at : at + 2], "big")
            if size > self.longest:
                return False
            if len(came) - at - 2 < size:
                break
            self._events.append(Event(node, Kind.CAME, bytes(came[at + 2 : at + 2 + size])))
            at += 2 + size
        del came[:at]
        return True

    def _write(self, node: int) -> None:
        line = self.lines[node]
        assert line.socket is not None
        try:
            del line.going[: line.socket.send(line.going)]
        except BlockingIOError:
            pass
        except OSError:
            self._end(node)
            return
        events = selectors.EVENT_READ | (selectors.EVENT_WRITE if line.going else 0)
        self._selector.modify(line.socket, events, node)


class Handing:
    """A request on its way: which nodes it was handed to, and what they replied."""

    def __init__(self, lines: Lines, f: int, message: bytes, order: Sequence[int]):
        self.lines, self.f, self.message = lines, f, message
        self.name = int.from_bytes(message[:4], "big"), int.from_bytes(message[4:8], "big")
        # The nodes that don't have it yet, the best first; those that have it; and those of them in whose place another one got it.
        self.further, self.handed, self.passed = collections.deque(order), set[int](), set[int]()
        self.positions: dict[int, int] = {}
        self.refusals: dict[int, int] = {}
        self.retries: dict[int, float] = {}
        self.retry = FIRST_RETRY
        self.spread_at = time.monotonic() + PATIENCE
        self.spread(f + 1)

    def spread(self, count: int) -> None:
        """Hands it to so many further nodes, as far as there are any."""
        for _ in range(min(count, len(self.further))):
            node = self.further.popleft()
            self.handed.add(node)
            self.lines.want(node)
            self.send(node)

    def send(self, node: int) -> None:
        """Sends it, or leaves that to the moment when the connection stands."""
        if self.lines.is_up(node):
            self.lines.send(node, self.message)

    def position(self) -> int | None:
        """The position that f + 1 nodes replied."""
        return next((position for position, count in self.counts() if count > self.f), None)

    def counts(self) -> list[tuple[int, int]]:
        """How many nodes replied each position, the most first."""
        return collections.Counter(self.positions.values()).most_common()

    def moment(self) -> float:
        """When something is to be done."""
        return min([self.spread_at, *self.retries.values()])

    def go_on(self) -> None:
        """Hands it out as it is due: again to nodes that had no room, and to further nodes if replies are missing."""
        now = time.monotonic()
        for node in [node for node, moment in self.retries.items() if moment <= now]:
            del self.retries[node]
            self.send(node)
        waited_for = self.handed - self.passed - set(self.positions)
        if self.spread_at <= now or not waited_for:
            self.spread_at = now + PATIENCE
            self.passed |= waited_for
            self.spread(self.f + 1 - max((count for _, count in self.counts()), default=0))

    def take(self, event: Event) -> None:
        if event.kind is Kind.UP:
            if event.node in self.handed and event.node not in self.positions:
                self.send(event.node)
        elif event.kind is Kind.DOWN:
            self.pass_over(event.node)
        else:
            self.hear(event.node, event.message)

    def pass_over(self, node: int) -> None:
        """Hands it to another node, once, in place of one that has it and gives no position."""
        if node in self.handed - self.passed - set(self.positions):
            self.passed.add(node)
            self.spread(1)

    def hear(self, node: int, message: bytes) -> None:
        try:
            reply = read_reply(message)
        except Malformed:
            self.lines.fault(node)
            return
        if reply[1:3] != self.name or node not in self.handed:
            return
        self.lines.answered(node)
        if reply.form == POSITION:
            self.positions.setdefault(node, reply.number)
            self.refusals.pop(node, None)
        elif node not in self.positions:
            self.refuse(node, reply.number)

    def refuse(self, node: int, number: int) -> None:
        self.refusals[node] = number
        if number == WINDOW_FULL:
            self.retries[node] = time.monotonic() + self.retry
            self.retry = min(2 * self.retry, LAST_RETRY)
        self.pass_over(node)

    def check(self) -> None:
        """Raises `Refused` if more than f nodes refused for good."""
        if sum(number != WINDOW_FULL for number in self.refusals.values()) > self.f:
            raise Refused(self.refusals)

    def end(self, seconds: float) -> RitasError:
        """What is to be raised when the time is over."""
        if len(self.refusals) > self.f:
            return Refused(self.refusals)
        standing = sum(map(self.lines.is_up, self.handed))
        return TimedOut(f"no position that {self.f + 1} nodes replied in {seconds} s: of {len(self.handed)} nodes that it was handed to, "
                        f"{standing} can be reached, {len(self.positions)} replied a position and {len(self.refusals)} refused")


@dataclasses.dataclass
class Asking:
    """How a node is asked for rows: for `following` next, once `rest_until` is over; `asked` is what it was asked for and hasn't answered yet."""

    following: int
    asked: int | None = None
    rest: float = FIRST_REST
    rest_until: float = 0.0

    def begin(self, position: int) -> None:
        self.following, self.asked, self.rest, self.rest_until = position, None, FIRST_REST, 0.0

    def take(self, count: int) -> None:
        """Notes that it answered with so many rows. A node that had none is left alone for a while."""
        if count:
            self.begin(self.following + count)
        else:
            self.asked, self.rest_until = None, time.monotonic() + self.rest
            self.rest = min(2 * self.rest, LAST_REST)


class Follower:
    """Follows the log from a position on, by a connection with each node. It is a context manager, and an iterator over rows that never ends.

    As long as nobody asks it for rows it asks no node. It keeps at most 64 rows for each node, and as many that it may give.
    """

    def __init__(self, places: Sequence[Place], f: int, from_position: int, faults: list[int]):
        word("position", from_position)
        self._observer = Observer(len(places), f, from_position)
        self._lines = Lines(places, MOST_PIECE, faults)
        self._asking = [Asking(from_position) for _ in places]
        self._refusing: set[int] = set()
        self._entered: collections.deque[Row] = collections.deque()
        for node in range(len(places)):
            self._lines.want(node)

    def next_row(self, timeout: float | None = None) -> Row | None:
        """The next row, once f + 1 nodes gave it; None if that takes more seconds than this."""
        until = math.inf if timeout is None else time.monotonic() + timeout
        while not self._entered:
            self._ask()
            for event in self._lines.step(min(until, self._moment())):
                self._take(event)
            if not self._entered and time.monotonic() >= until:
                return None
        return self._entered.popleft()

    def close(self) -> None:
        self._lines.close()

    def __iter__(self) -> Iterator[Row]:
        while (row := self.next_row()) is not None:
            yield row

    def __enter__(self) -> Follower:
        return self

    def __exit__(self, kind: type[BaseException] | None, error: BaseException | None, trace: TracebackType | None) -> None:
        self.close()

    def _may_ask(self, node: int) -> bool:
        """Whether a node can be asked, but for its rest: all rows that it may answer must be such as are kept."""
        asking = self._asking[node]
        asking.following = max(asking.following, self._observer.length) if asking.asked is None else asking.following
        is_near = asking.following + MOST_ROWS <= self._observer.length + WINDOW
        return self._lines.is_up(node) and asking.asked is None and is_near and asking.following <= LAST

    def _ask(self) -> None:
        """Asks each node that may be asked and has had its rest."""
        now = time.monotonic()
        for node, asking in enumerate(self._asking):
            if self._may_ask(node) and asking.rest_until <= now:
                asking.asked = asking.following
                self._lines.send(node, query_message(asking.asked))

    def _moment(self) -> float:
        """When the next node has had its rest."""
        return min((asking.rest_until for node, asking in enumerate(self._asking) if self._may_ask(node)), default=math.inf)

    def _take(self, event: Event) -> None:
        if event.kind is Kind.CAME:
            self._hear(event.node, event.message)
        else:
            self._asking[event.node].begin(self._observer.length)

    def _hear(self, node: int, message: bytes) -> None:
        asked = self._asking[node].asked
        if len(message) == REPLY_BYTES and message[0] == REFUSAL:
            self._refuse(node)
        elif asked is None or message[1:5] != word("position", asked):
            self._lines.fault(node)
        else:
            self._hear_piece(node, message)

    def _hear_piece(self, node: int, message: bytes) -> None:
        try:
            entered = self._observer.piece(node, message)
        except PieceFault:
            self._lines.fault(node)
            return
        self._refusing.discard(node)
        self._lines.answered(node)
        self._entered.extend(entered)
        self._asking[node].take(message[5])
        if message[5]:
            self._wake(self._asking[node].following)

    def _wake(self, end: int) -> None:
        """Ends the rest of all nodes that may have rows before this position, since a node gave some."""
        for asking in self._asking:
            if asking.following < end:
                asking.rest_until = 0.0

    def _refuse(self, node: int) -> None:
        """A node refused a query, which no correct one does that knows of queries."""
        self._lines.fault(node)
        self._refusing.add(node)
        if len(self._refusing) >= self._observer.n - self._observer.f:
            raise QueriesRefused(f"{len(self._refusing)} nodes refuse queries")


class Cluster:
    """The nodes of a session, by their addresses for clients, of which at most f lie. It is a context manager.

    `nodes` has the address of each node, node 0 first, as `host:port` or as a pair. `timeout` is how many seconds a command may take.
    `faults` counts for each node how often it sent what no correct node sends; each time its connection was ended, and made again after a pause.
    """

    def __init__(self, nodes: Sequence[str | tuple[str, int]], f: int, timeout: float = 30.0):
        if not 0 <= f or not 3 * f + 1 <= len(nodes) <= MOST_NODES:
            raise ValueError(f"{len(nodes)} nodes with f = {f}: they are at least 3f + 1, and at most {MOST_NODES}")
        self.n, self.f, self.timeout = len(nodes), f, timeout
        self.faults = [0] * self.n
        self._places = [place_of(node) for node in nodes]
        self._lines = Lines(self._places, REPLY_BYTES, self.faults)
        self._turn = random.randrange(self.n)
        # How often in a row a node wasn't of use.
        self._useless = [0] * self.n

    def submit(self, client: int, request: int, payload: bytes, timeout: float | None = None) -> int:
        """Hands a command in and answers the position of its row, once f + 1 nodes replied the same.

        It goes to f + 1 nodes at first, and to others if some of these are down, refuse it, or are silent for a while. The log has one row for each
        client and request, so the same command may be handed in again. A client that has another command takes another number for its request: under
        an old one it is told the old position. Raises `TimedOut` or `Refused`.
        """
        seconds = self.timeout if timeout is None else timeout
        until = time.monotonic() + seconds
        handing = Handing(self._lines, self.f, request_message(client, request, payload), self._order())
        while (position := handing.position()) is None:
            handing.check()
            if time.monotonic() >= until:
                raise handing.end(seconds)
            handing.go_on()
            for event in self._lines.step(min(until, handing.moment())):
                handing.take(event)
        self._learn(handing, position)
        return position

    def follower(self, from_position: int = 0) -> Follower:
        """Follows the log from this position on. It has connections of its own, until it is closed."""
        return Follower(self._places, self.f, from_position, self.faults)

    def follow(self, from_position: int = 0, timeout: float | None = None) -> Iterator[Row]:
        """The rows of the log from this position on, in order, each once f + 1 nodes gave it.

        At the end of the log it waits for more. If no row comes for `timeout` seconds, it raises `TimedOut` and ends; a `follower` goes on after such
        a wait. It raises `QueriesRefused` if so many nodes don't know of queries that f + 1 can't answer.
        """
        with self.follower(from_position) as follower:
            while (row := follower.next_row(timeout)) is not None:
                yield row
        raise TimedOut(f"no row that {self.f + 1} nodes gave in {timeout} s")

    def close(self) -> None:
        """Ends the connections by which commands are handed in."""
        self._lines.close()

    def __enter__(self) -> Cluster:
        return self

    def __exit__(self, kind: type[BaseException] | None, error: BaseException | None, trace: TracebackType | None) -> None:
        self.close()

    def _order(self) -> list[int]:
        """The nodes, the most useful ones first, and those that are alike in turns."""
        self._turn = (self._turn + 1) % self.n
        return sorted(range(self.n), key=lambda node: (self._useless[node], (node - self._turn) % self.n))

    def _learn(self, handing: Handing, position: int) -> None:
        """Notes which nodes gave the position, and which ones others had to stand in for."""
        for node in handing.handed:
            if handing.positions.get(node) == position:
                self._useless[node] = 0
            elif node in handing.passed or node in handing.positions:
                self._useless[node] += 1

"""Schedule files: a session with its correct replicas and their keys, and events. docs/FORMATS.md has the fields, and which fault comes first."""
from __future__ import annotations

import struct
from dataclasses import dataclass
from typing import Optional

from .keys import Keys, deal
from .session import DIRECT, MOST_REPLICAS, NEWEST_VERSION, Session, members
from .world import Event, Frame, Input, Pass, Sealed, Turn

MOST_BYTES = 67_108_864
MAGIC = b"RITS"
ROOT_OFFSET = 15
END, FRAME, INPUT, TURN, PASS, SEALED = range(6)


class FileFault(Exception):
    def __init__(self, name: str, place: int) -> None:
        super().__init__(name, place)
        self.name, self.place = name, place


class TooLong(Exception):
    pass


@dataclass(frozen=True)
class Header:
    session: Session
    correct: int  # a mask
    master: bytes  # of key form 0
    row: Optional[Keys] = None  # of key form 1

    def keys(self) -> dict[int, Keys]:
        """The keys of each correct replica."""
        if self.row is not None:
            return {self.row.me: self.row}
        return {i: deal(self.master, self.session.number, self.session.n, i) for i in members(self.correct)}


class Reader:
    def __init__(self, data: bytes) -> None:
        self.data, self.at = data, 0

    def bytes(self, count: int) -> bytes:
        end = self.at + count
        if end > MOST_BYTES and len(self.data) > MOST_BYTES:
            raise TooLong
        if end > len(self.data):
            raise FileFault("truncated", len(self.data))
        self.at = end
        return self.data[end - count:end]

    def number(self, count: int) -> int:
        return int.from_bytes(self.bytes(count), "big")

    def header_field(self, count: int, rule, offset: Optional[int] = None) -> int:
        """A field of the header that a rule holds of; the fault is at the field, or at another that it shows to be wrong."""
        at = self.at if offset is None else offset
        value = self.number(count)
        if not rule(value):
            raise FileFault("header", at)
        return value

    def header(self) -> Header:
        if self.bytes(4) != MAGIC:
            raise FileFault("magic", 0)
        version = self.number(1)
        if not 1 <= version <= NEWEST_VERSION:
            raise FileFault("version", 4)
        number = self.number(8)
        n = self.header_field(1, lambda n: 1 <= n <= MOST_REPLICAS)
        f = self.header_field(1, lambda f: n >= 3 * f + 1)
        root = self.header_field(1, lambda root: 1 <= root <= DIRECT)
        vect = self.header_field(1, lambda vect: vect in (1, 2))
        correct = self.header_field(4, lambda mask: mask < 1 << n)
        session = Session(number, n, f, root, vect == 1, version)
        if self.header_field(1, lambda form: form <= 1) == 0:
            return Header(session, correct, self.bytes(32))
        me = self.header_field(1, lambda me: me < n)
        if correct != 1 << me:
            raise FileFault("header", 17)
        shared = tuple(self.bytes(32) for _ in range(n))
        return Header(session, correct, b"", Keys(number, me, shared, self.bytes(32)))

    def event(self, header: Header) -> Optional[Event]:
        """The next event, or nothing at the end mark."""
        start = self.at
        form = self.number(1)
        if form > (SEALED if header.row is None else TURN):
            raise FileFault("event", start)
        if form == END:
            return None
        if form in (FRAME, INPUT, TURN):
            return self.event_at_one(form, self.replica(start, header))
        sender = self.replica(start, header)
        to = self.replica(start, header)
        if sender == to:
            raise FileFault("event", start)
        return Pass(sender, to, self.number(4)) if form == PASS else Sealed(sender, to, self.bytes(self.number(2)))

    def event_at_one(self, form: int, at: int) -> Event:
        if form == TURN:
            return Turn(at)
        value = self.bytes(self.number(2))
        return Frame(at, value) if form == FRAME else Input(at, value)

    def replica(self, start: int, header: Header) -> int:
        k = self.number(1)
        if k >= header.session.n or (header.row is not None and k != header.row.me):
            raise FileFault("event", start)
        return k

    def at_end(self) -> None:
        if self.at < len(self.data):
            if self.at >= MOST_BYTES:
                raise TooLong
            raise FileFault("trailing", self.at)


def read_schedule(data: bytes) -> tuple[Header, list[Event]]:
    reader = Reader(data)
    header, events = reader.header(), []
    while (event := reader.event(header)) is not None:
        events.append(event)
    reader.at_end()
    return header, events


def write_header(header: Header) -> bytes:
    """Of key form 0."""
    session = header.session
    numbers = session.number, session.n, session.f, session.root, 1 if session.echo_vects else 2, header.correct, 0
    return MAGIC + struct.pack(">BQBBBBIB", session.version, *numbers) + header.master


def write_event(event: Frame | Input | Turn | Pass) -> bytes:
    """Of those that a plan's schedule has."""
    if isinstance(event, Turn):
        return struct.pack(">BB", TURN, event.at)
    if isinstance(event, Pass):
        return struct.pack(">BBBI", PASS, *event)
    return struct.pack(">BBH", FRAME if isinstance(event, Frame) else INPUT, event[0], len(event[1])) + event[1]

"""A replica: frames, inputs and turns in, frames out."""
from __future__ import annotations

from typing import NamedTuple, Optional

from . import core
from .bodies import read_body, write_body
from .core import Core
from .frames import Opened, open_frame, seal
from .keys import Keys
from .session import ALL, HASHES, Item, Message, Session, Slot

UNOPENED, UNREAD = "open", "body"  # a frame that doesn't open, and one whose body spells no item


class Made(NamedTuple):
    """A frame that a replica made for another."""

    to: int
    number: int
    frame: bytes


class Replica:
    def __init__(self, session: Session, keys: Keys) -> None:
        self.session, self.keys = session, keys
        self.core = Core(session, keys)
        self.made: list[list[bytes]] = [[] for _ in range(session.n)]
        self.made_now: list[Made] = []  # by the last call
        self.opened: Optional[Opened] = None  # by the last call
        self.rows_made: dict[Slot, bytes] = {}  # the HASHES that it made, also those for itself

    def sent(self) -> int:
        return sum(len(frames) for frames in self.made)

    def on_frame(self, frame: bytes) -> str:
        self.core.taken, self.made_now = None, []
        self.opened = open_frame(self.keys, self.session.version, frame)
        if self.opened is None:
            return UNOPENED
        body = read_body(self.session, self.opened.body)
        if body is None:
            return UNREAD
        return self.seal_all(self.core.give(Item(self.opened.sender, *body)))

    def on_input(self, value: bytes) -> str:
        self.opened = None
        return self.seal_all(self.core.input(value))

    def on_turn(self) -> str:
        self.opened = None
        return self.seal_all(self.core.turn())

    def seal_all(self, answer: str) -> str:
        self.made_now = []
        if answer == core.TOOK:
            for message in self.core.out:
                self.send(message)
        return answer

    def send(self, message: Message) -> None:
        if message.kind == HASHES:
            self.rows_made[message.slot] = message.value
        body = write_body(message.kind, message.slot, self.value_sent(message))
        for to in range(self.session.n) if message.to == ALL else [message.to]:
            if to != self.keys.me:
                number = len(self.made[to])
                frame = seal(self.keys.shared[to], self.session.version, self.keys.me, to, number, body)
                self.made[to].append(frame)
                self.made_now.append(Made(to, number, frame))

    def value_sent(self, message: Message) -> bytes:
        """The value that goes to others; what goes to the replica itself isn't changed."""
        return message.value

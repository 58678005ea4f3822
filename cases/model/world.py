"""A world: correct replicas, and the events that happen to them."""
from __future__ import annotations

from collections import Counter
from typing import NamedTuple, Optional

from .audit import Audit
from .frames import seal
from .keys import Keys
from .replica import Replica
from .session import Session

MISSED = "missed"


class Frame(NamedTuple):
    to: int
    frame: bytes


class Input(NamedTuple):
    at: int
    value: bytes


class Turn(NamedTuple):
    at: int


class Pass(NamedTuple):
    sender: int
    to: int
    number: int


class Sealed(NamedTuple):
    sender: int
    to: int
    body: bytes


Event = Frame | Input | Turn | Pass | Sealed


class World:
    """The replicas of `keys` are the correct ones."""

    def __init__(self, session: Session, keys: dict[int, Keys]) -> None:
        self.session = session
        self.replicas = {i: Replica(session, its_keys) for i, its_keys in sorted(keys.items())}
        self.audit = Audit(session, self.replicas)
        self.events = 0
        self.answers: Counter[str] = Counter()

    def event(self, event: Event) -> Optional[Replica]:
        """Lets an event happen. The result is the replica that it happened to, or nothing where it is missed."""
        replica = self.replicas.get(event.at if isinstance(event, (Input, Turn)) else event.to)
        answer = MISSED if replica is None else self.call(replica, event)
        if answer == MISSED:
            replica = None
        else:
            self.audit.look(self.events, replica)
        self.answers[answer] += 1
        self.events += 1
        return replica

    def call(self, replica: Replica, event: Event) -> str:
        if isinstance(event, Input):
            return replica.on_input(event.value)
        if isinstance(event, Turn):
            return replica.on_turn()
        frame = self.frame_of(event, replica)
        return MISSED if frame is None else replica.on_frame(frame)

    def frame_of(self, event: Frame | Pass | Sealed, replica: Replica) -> Optional[bytes]:
        if isinstance(event, Frame):
            return event.frame
        if isinstance(event, Sealed):
            return seal(replica.keys.shared[event.sender], self.session.version, event.sender, event.to, 0, event.body)
        sender = self.replicas.get(event.sender)
        if sender is None or event.number >= len(sender.made[event.to]):
            return None
        return sender.made[event.to][event.number]

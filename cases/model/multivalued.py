"""Multi-valued consensus over one instance of binary consensus.

Correia, Neves, Veríssimo, From Consensus to Atomic Broadcast (2006), in the form of Moniz, Neves, Correia, Veríssimo, RITAS (IEEE TDSC 2011).
"""
from __future__ import annotations

import struct
from collections import Counter
from typing import NamedTuple, Optional

from .binary import Binary
from .keys import Keys
from .session import PROPOSAL, VECT, Say, Session, Slot, mask_of, members


class Decision(NamedTuple):
    value: Optional[bytes]  # none where it decided that no value is


class Vect(NamedTuple):
    """A value with the places that proposed it, or no value."""

    value: Optional[bytes]
    places: list[int]


def read_vect(value: bytes) -> Vect:
    if value == b"":
        return Vect(None, [])
    return Vect(value[4:], members(int.from_bytes(value[:4], "big")))


class Multivalued:
    def __init__(self, session: Session, keys: Keys, number: int = 0, attempt: int = 0) -> None:
        self.session, self.keys, self.number, self.attempt = session, keys, number, attempt
        self.binary = Binary(session, keys, number, attempt)
        self.proposals: dict[int, bytes] = {}
        self.vects: dict[int, Vect] = {}
        self.valid: dict[int, Vect] = {}
        self.has_proposed = self.has_said_vect = False
        self.decision: Optional[Decision] = None

    def is_open(self, slot: Slot) -> bool:
        return self.has_proposed if slot.class_ in (PROPOSAL, VECT) else self.binary.is_open(slot)

    def propose(self, value: bytes) -> list[Say]:
        self.has_proposed = True
        return [Say(self.slot(PROPOSAL), value), *self.go_on()]

    def heard(self, slot: Slot, value: bytes) -> list[Say]:
        says = []
        if slot.class_ == PROPOSAL:
            self.proposals[slot.origin] = value
        elif slot.class_ == VECT:
            self.vects[slot.origin] = read_vect(value)
        else:
            says = self.binary.heard(slot, value)
        if slot.class_ in (PROPOSAL, VECT):
            self.valid = {k: vect for k, vect in self.vects.items() if self.is_valid(vect)}
        return says + self.go_on()

    def is_valid(self, vect: Vect) -> bool:
        agreeing = [k for k in vect.places if self.proposals.get(k) == vect.value]
        return vect.value is None or len(agreeing) >= self.session.support

    def go_on(self) -> list[Say]:
        says = []
        if self.has_proposed and not self.has_said_vect and len(self.proposals) >= self.session.wait:
            self.has_said_vect = True
            says.append(Say(self.slot(VECT), self.vect()))
        if self.has_said_vect and not self.binary.has_proposed and len(self.valid) >= self.session.wait:
            says += self.binary.propose(self.bit())
        if self.decision is None:
            self.decide()
        return says

    def supported(self, values) -> list[bytes]:
        """The values that at least `support` places have, in order."""
        counts = Counter(value for value in values if value is not None)
        return sorted(value for value, count in counts.items() if count >= self.session.support)

    def vect(self) -> bytes:
        found = self.supported(self.proposals.values())
        if not found:
            return b""
        return struct.pack(">I", mask_of(k for k, value in self.proposals.items() if value == found[0])) + found[0]

    def bit(self) -> int:
        values = [vect.value for vect in self.valid.values()]
        said = {value for value in values if value is not None}
        return 1 if len(said) == 1 and self.supported(values) else 0

    def decide(self) -> None:
        if self.binary.decision == 0:
            self.decision = Decision(None)
        elif self.binary.decision == 1:
            found = self.supported(vect.value for vect in self.valid.values())
            self.decision = Decision(found[0]) if found else None

    def slot(self, class_: int) -> Slot:
        return Slot(class_, self.number, self.attempt, 0, 0, self.keys.me)

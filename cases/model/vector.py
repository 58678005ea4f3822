"""Vector consensus by up to f + 1 tries of multi-valued consensus.

Correia, Neves, Veríssimo, From Consensus to Atomic Broadcast (2006).
"""
from __future__ import annotations

from typing import Optional

from .bodies import Identifier, read_vector, write_vector
from .direct import in_enough
from .keys import Keys
from .multivalued import Decision, Multivalued
from .session import VECTOR_PROPOSAL, Say, Session, Slot


class Vector:
    def __init__(self, session: Session, keys: Keys, number: int = 0) -> None:
        self.session, self.keys, self.number = session, keys, number
        self.proposals: dict[int, bytes] = {}
        self.tries: list[Multivalued] = []
        self.has_proposed = False

    def is_open(self, slot: Slot) -> bool:
        if slot.class_ == VECTOR_PROPOSAL:
            return self.has_proposed
        return slot.attempt < len(self.tries) and self.tries[slot.attempt].is_open(slot)

    def propose(self, value: bytes) -> list[Say]:
        self.has_proposed = True
        return [Say(Slot(VECTOR_PROPOSAL, self.number, 0, 0, 0, self.keys.me), value), *self.go_on()]

    def heard(self, slot: Slot, value: bytes) -> list[Say]:
        says = []
        if slot.class_ == VECTOR_PROPOSAL:
            self.proposals[slot.origin] = value
        else:
            says = self.tries[slot.attempt].heard(slot, value)
        return says + self.go_on()

    def go_on(self) -> list[Say]:
        says = []
        while self.wants_a_try() and len(self.proposals) >= self.session.wait + len(self.tries):
            self.tries.append(Multivalued(self.session, self.keys, self.number, len(self.tries)))
            says += self.tries[-1].propose(write_vector(self.proposals))
        return says

    def wants_a_try(self) -> bool:
        none_so_far = all(attempt.decision == Decision(None) for attempt in self.tries)
        return self.has_proposed and none_so_far and len(self.tries) <= self.session.f

    @property
    def decided_try(self) -> Optional[int]:
        return next((k for k, attempt in enumerate(self.tries) if attempt.decision and attempt.decision.value is not None), None)

    @property
    def decision(self) -> Optional[bytes]:
        return None if self.decided_try is None else self.tries[self.decided_try].decision.value

    def wanted(self) -> Optional[list[Identifier]]:
        """In root service 6 the identifiers that the vector wants in the log."""
        return None if self.decision is None else in_enough(self.session, read_vector(self.decision).values())

    @property
    def is_spent(self) -> bool:
        return len(self.tries) > self.session.f and self.tries[-1].decision == Decision(None)

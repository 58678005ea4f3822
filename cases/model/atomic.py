"""Atomic broadcast: rounds of consensus on lists of identifiers, and the log of these.

Correia, Neves, Veríssimo, From Consensus to Atomic Broadcast (2006), in the form of Moniz, Neves, Correia, Veríssimo, RITAS (IEEE TDSC 2011). The
f + 1 lists that an identifier has to stand in, and the rounds straight on multi-valued consensus, are this repository's own choice.
"""
from __future__ import annotations

from typing import Optional

from .bodies import MOST_IDENTIFIERS, Identifier, write_identifiers
from .direct import Lists
from .keys import Keys
from .session import COMMAND, DIRECT, NUMBERS, Say, Session, Slot
from .vector import Vector


class Atomic:
    def __init__(self, session: Session, keys: Keys) -> None:
        self.session, self.keys = session, keys
        self.commands: dict[Identifier, bytes] = {}  # those that are delivered
        self.pending: set[Identifier] = set()
        self.log: list[Identifier] = []
        self.logged: set[Identifier] = set()
        self.bases = [0] * session.n
        self.completed = 0
        self.rounds: list[Vector | Lists] = []  # those that began

    def is_open(self, slot: Slot) -> bool:
        return slot.number < len(self.rounds) and self.rounds[slot.number].is_open(slot)

    def heard(self, slot: Slot, value: bytes) -> list[Say]:
        says = []
        if slot.class_ == COMMAND:
            self.commands[slot.origin, slot.number] = value
            self.pending.add((slot.origin, slot.number))
        else:
            says = self.rounds[slot.number].heard(slot, value)
        return says + self.go_on()

    def go_on(self) -> list[Say]:
        says = []
        while self.complete_round() or self.may_begin():
            if self.may_begin():
                says += self.begin()
        return says

    def complete_round(self) -> bool:
        """Completes the current round where it may be; the answer is whether it was."""
        wanted = self.rounds[self.completed].wanted() if len(self.rounds) > self.completed else None
        if wanted is None or not all(identifier in self.commands for identifier in wanted):
            return False
        self.append([identifier for identifier in wanted if identifier not in self.logged])
        self.completed += 1
        return True

    def append(self, identifiers: list[Identifier]) -> None:
        self.log += identifiers
        self.logged.update(identifiers)
        self.pending -= set(identifiers)
        for origin in range(self.session.n):
            while (origin, self.bases[origin]) in self.logged:
                self.bases[origin] += 1

    def may_begin(self) -> bool:
        return len(self.rounds) == self.completed < NUMBERS and len(self.pending) > 0

    def begin(self) -> list[Say]:
        self.rounds.append((Lists if self.session.root == DIRECT else Vector)(self.session, self.keys, self.completed))
        return self.rounds[-1].propose(write_identifiers(self.proposal()))

    def proposal(self) -> list[Identifier]:
        share, chosen = MOST_IDENTIFIERS // self.session.n, []
        for origin in range(self.session.n):
            chosen += sorted(identifier for identifier in self.pending if identifier[0] == origin)[:share]
        return chosen

    @property
    def is_spent(self) -> bool:
        return len(self.rounds) > self.completed and self.rounds[self.completed].is_spent

    def last_vector(self) -> Optional[tuple[int, int, bytes]]:
        """The round, the try and the bytes of the last vector that was decided."""
        for number in range(len(self.rounds) - 1, -1, -1):
            if self.rounds[number].decision is not None:
                return number, self.rounds[number].decided_try, self.rounds[number].decision
        return None

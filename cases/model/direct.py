"""A round of the direct atomic broadcast: lists of identifiers are broadcast, and multi-valued consensus is on those that f + 1 lists have.

Moniz, Neves, Correia, Veríssimo, RITAS (IEEE TDSC 2011) has an atomic broadcast straight on multi-valued consensus; which lists are waited for,
and how many identifiers are proposed, is this repository's own choice.
"""
from __future__ import annotations

from collections import Counter
from typing import Iterable, Optional

from .bodies import MOST_IDENTIFIERS, Identifier, read_identifiers, write_identifiers
from .keys import Keys
from .multivalued import Multivalued
from .session import VECTOR_PROPOSAL, Say, Session, Slot


def in_enough(session: Session, lists: Iterable[bytes]) -> list[Identifier]:
    """Those that stand in f + 1 of the lists at least, ascending."""
    counts = Counter(identifier for entry in lists for identifier in read_identifiers(entry))
    return sorted(identifier for identifier, count in counts.items() if count >= session.f + 1)


class Lists:
    decision, decided_try, is_spent = None, None, False  # no vector is decided

    def __init__(self, session: Session, keys: Keys, number: int) -> None:
        self.session, self.keys, self.number = session, keys, number
        self.lists: dict[int, bytes] = {}
        self.inner = Multivalued(session, keys, number)
        self.has_proposed = False

    def is_open(self, slot: Slot) -> bool:
        return self.has_proposed if slot.class_ == VECTOR_PROPOSAL else self.inner.is_open(slot)

    def propose(self, value: bytes) -> list[Say]:
        self.has_proposed = True
        return [Say(Slot(VECTOR_PROPOSAL, self.number, 0, 0, 0, self.keys.me), value), *self.go_on()]

    def heard(self, slot: Slot, value: bytes) -> list[Say]:
        if slot.class_ != VECTOR_PROPOSAL:
            return self.inner.heard(slot, value)
        self.lists[slot.origin] = value
        return self.go_on()

    def go_on(self) -> list[Say]:
        if self.inner.has_proposed or not self.has_proposed or len(self.lists) < self.session.wait:
            return []
        return self.inner.propose(write_identifiers(in_enough(self.session, self.lists.values())[:MOST_IDENTIFIERS]))

    def wanted(self) -> Optional[list[Identifier]]:
        """The identifiers of the list that is decided, and none where it is decided that no list is."""
        decided = self.inner.decision
        return None if decided is None else sorted(read_identifiers(decided.value or b""))

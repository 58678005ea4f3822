"""Binary consensus by validated votes and local coins.

Bracha, Asynchronous Byzantine Agreement Protocols (1987), in the form of Moniz, Neves, Correia, Veríssimo, RITAS (IEEE TDSC 2011). What a vote may
say is looked for among all sets of `wait` votes, as the rule says it.
"""
from __future__ import annotations

from functools import lru_cache
from typing import Optional

from .keys import Keys
from .session import MOST_BINARY_ROUNDS, STEP, Say, Session, Slot

UNMARKED = 2
Place = tuple[int, int]  # a round and a step
Counts = tuple[int, int, int]  # how many votes say 0, 1 and unmarked


def given(session: Session, step: int, votes: Counts) -> frozenset[int]:
    """What the rule of a step gives to these votes: two bits where the coin is tossed."""
    zeros, ones, _ = votes
    if step == 1:
        return frozenset({1 if ones > zeros else 0})
    if step == 2:
        return frozenset({0 if 2 * zeros > session.n else 1 if 2 * ones > session.n else UNMARKED})
    if zeros >= session.f + 1:
        return frozenset({0})
    return frozenset({1} if ones >= session.f + 1 else {0, 1})


@lru_cache(maxsize=1 << 16)
def may_follow(session: Session, step: int, votes: Counts) -> frozenset[int]:
    """What the rule of a step gives to some `wait` of these votes."""
    found: set[int] = set()
    for zeros in range(min(votes[0], session.wait) + 1):
        for ones in range(min(votes[1], session.wait - zeros) + 1):
            unmarked = session.wait - zeros - ones
            if unmarked <= votes[2]:
                found |= given(session, step, (zeros, ones, unmarked))
    return frozenset(found)


def after(place: Place) -> Place:
    bround, step = place
    return (bround, step + 1) if step < 3 else (bround + 1, 1)


def before(place: Place) -> Place:
    bround, step = place
    return (bround, step - 1) if step > 1 else (bround - 1, 3)


class Binary:
    def __init__(self, session: Session, keys: Keys, number: int = 0, attempt: int = 0) -> None:
        self.session, self.keys, self.number, self.attempt = session, keys, number, attempt
        self.heard_votes: dict[Place, dict[int, int]] = {}
        self.accepted: dict[Place, dict[int, int]] = {}
        self.place: Optional[Place] = None  # the step that it said last and waits in
        self.round = 0  # the greatest one whose first step it has said
        self.last_round = MOST_BINARY_ROUNDS
        self.decision: Optional[int] = None
        self.over = False

    @property
    def has_proposed(self) -> bool:
        return self.round > 0

    def is_open(self, slot: Slot) -> bool:
        return self.has_proposed and slot.round <= self.round + 1

    def propose(self, bit: int) -> list[Say]:
        return [self.say((1, 1), bit), *self.go_on()]

    def heard(self, slot: Slot, value: bytes) -> list[Say]:
        self.heard_votes.setdefault((slot.round, slot.step), {})[slot.origin] = value[0]
        self.accept((slot.round, slot.step))
        return self.go_on()

    def accept(self, place: Place) -> None:
        """Accepts votes of this step, and then of those behind it, as long as one brings another."""
        while True:
            accepted = self.accepted.setdefault(place, {})
            new = {k: v for k, v in self.heard_votes.get(place, {}).items() if k not in accepted and self.is_acceptable(place, v)}
            if not new:
                return
            accepted.update(new)
            place = after(place)

    def is_acceptable(self, place: Place, value: int) -> bool:
        if place == (1, 1):
            return True
        return value in may_follow(self.session, before(place)[1], self.votes(before(place)))

    def votes(self, place: Place) -> Counts:
        values = list(self.accepted.get(place, {}).values())
        return values.count(0), values.count(1), values.count(UNMARKED)

    def go_on(self) -> list[Say]:
        says = []
        while self.place is not None and len(self.accepted.get(self.place, {})) >= self.session.wait:
            says += self.leave(self.place)
        return says

    def leave(self, place: Place) -> list[Say]:
        bround, step = place
        votes = self.votes(place)
        if step == 3:
            self.decide(bround, votes)
            if bround == self.last_round:
                self.place = None
                self.over = self.decision is None
                return []
        values = given(self.session, step, votes)
        value = self.keys.toss(self.slot(bround, 3)) if len(values) > 1 else min(values)
        return [self.say(after(place), value)]

    def decide(self, bround: int, votes: Counts) -> None:
        for bit in (0, 1):
            if self.decision is None and votes[bit] >= self.session.deliver:
                self.decision = bit
                self.last_round = min(bround + 1, MOST_BINARY_ROUNDS)

    def say(self, place: Place, value: int) -> Say:
        self.place = place
        self.round = max(self.round, place[0])
        return Say(self.slot(*place), bytes([value]))

    def slot(self, bround: int, step: int) -> Slot:
        return Slot(STEP, self.number, self.attempt, bround, step, self.keys.me)

"""Reliable broadcast, in which ECHO and READY carry the SHA-256 of the value: version 2, and version 3 but for steps.

Bracha, Asynchronous Byzantine Agreement Protocols (1987), with votes on digests: WANT asks for the value of one, and VALUE gives it.
"""
from __future__ import annotations

from typing import Optional

from .keys import Keys, digest
from .session import ALL, ECHO, INIT, READY, VALUE, WANT, Item, Message, Session, Slot


class DigestBroadcast:
    def __init__(self, session: Session, keys: Keys, slot: Slot) -> None:
        self.session, self.slot, self.me = session, slot, keys.me
        self.first: set[tuple[int, int]] = set()  # the kinds and senders of items that were taken
        self.voters: dict[tuple[int, bytes], int] = {}  # how many senders have first said this kind with this digest
        self.known: dict[bytes, bytes] = {}  # the first value of each digest
        self.wanted: dict[bytes, list[int]] = {}  # who asked for the value of this digest, and wasn't given it yet
        self.is_ready = False
        self.full: Optional[bytes] = None

    @property
    def delivered(self) -> Optional[bytes]:
        return None if self.full is None else self.known.get(self.full)

    def repeats(self, item: Item) -> bool:
        return (item.kind, item.sender) in self.first

    def take(self, item: Item) -> list[Message]:
        self.first.add((item.kind, item.sender))
        if item.kind in (INIT, VALUE):
            return self.learn(item)
        if item.kind == WANT:
            return self.answer(item)
        return self.count(item)

    def learn(self, item: Item) -> list[Message]:
        its_digest = digest(item.value)
        value = self.known.setdefault(its_digest, item.value)
        out = [Message(self.slot, VALUE, k, value) for k in self.wanted.pop(its_digest, [])]
        if item.kind == INIT:
            out.append(Message(self.slot, ECHO, ALL, its_digest))
        return out

    def answer(self, item: Item) -> list[Message]:
        if item.sender == self.me:
            return []
        if item.value in self.known:
            return [Message(self.slot, VALUE, item.sender, self.known[item.value])]
        self.wanted.setdefault(item.value, []).append(item.sender)
        return []

    def count(self, item: Item) -> list[Message]:
        vote, out = (item.kind, item.value), []
        self.voters[vote] = self.voters.get(vote, 0) + 1
        needed = self.session.quorum if item.kind == ECHO else self.session.ready
        if not self.is_ready and self.voters[vote] >= needed:
            self.is_ready = True
            out.append(Message(self.slot, READY, ALL, item.value))
        if item.kind == READY and self.full is None and self.voters[vote] >= self.session.deliver:
            self.full = item.value
            if item.value not in self.known:
                out.append(Message(self.slot, WANT, ALL, item.value))
        return out

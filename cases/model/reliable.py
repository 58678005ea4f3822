"""Reliable broadcast, in which ECHO and READY carry the value: version 1, and the steps of version 3.

Bracha, Asynchronous Byzantine Agreement Protocols (1987), in the form of Moniz, Neves, Correia, Veríssimo, RITAS (IEEE TDSC 2011): a replica echoes
on INIT alone.
"""
from __future__ import annotations

from typing import Optional

from .keys import Keys
from .session import ALL, ECHO, INIT, READY, Item, Message, Session, Slot


class ReliableBroadcast:
    def __init__(self, session: Session, keys: Keys, slot: Slot) -> None:
        self.session, self.slot = session, slot
        self.first: set[tuple[int, int]] = set()  # the kinds and senders of items that were taken
        self.voters: dict[tuple[int, bytes], int] = {}  # how many senders have first said this kind with this value
        self.is_ready = False
        self.delivered: Optional[bytes] = None

    def repeats(self, item: Item) -> bool:
        return (item.kind, item.sender) in self.first

    def take(self, item: Item) -> list[Message]:
        self.first.add((item.kind, item.sender))
        if item.kind == INIT:
            return [Message(self.slot, ECHO, ALL, item.value)]
        vote = item.kind, item.value
        self.voters[vote] = self.voters.get(vote, 0) + 1
        if item.kind == READY and self.delivered is None and self.voters[vote] >= self.session.deliver:
            self.delivered = item.value
        needed = self.session.quorum if item.kind == ECHO else self.session.ready
        if self.is_ready or self.voters[vote] < needed:
            return []
        self.is_ready = True
        return [Message(self.slot, READY, ALL, item.value)]

"""The audit of a world: whether enough replicas are correct, nothing is forged, and nothing that was hashed collides."""
from __future__ import annotations

from typing import Optional

from .echo import ENTRY
from .keys import digest
from .replica import Replica
from .session import COLUMN, INIT, SEND, VALUE, Item, Session

HOLDS = "holds"


class Audit:
    def __init__(self, session: Session, replicas: dict[int, Replica]) -> None:
        self.session, self.replicas = session, replicas
        self.broken: Optional[str] = None  # by the first event that breaks a premise
        self.messages: dict[bytes, bytes] = {}  # what was hashed, by digests
        self.entry_inputs: dict[bytes, tuple] = {}  # what was tagged as an entry, by entries

    def result(self) -> str:
        if len(self.replicas) < self.session.wait:
            return "too many faulty"
        return self.broken or HOLDS

    def look(self, event: int, replica: Replica) -> None:
        """Looks at an event of this number, which was a call of this replica."""
        item = replica.core.taken
        forges = self.is_forged(replica) or (item is not None and item.kind == COLUMN and self.has_forged_entry(replica, item))
        collides = item is not None and self.collides(replica, item)
        if self.broken is None and (forges or collides):
            self.broken = f"{'forged' if forges else 'collision'} at {event}"

    def is_forged(self, replica: Replica) -> bool:
        """Whether the frame opened as from a correct replica that hadn't made it. A frame's number is its place among those made for a receiver."""
        opened = replica.opened
        if opened is None or opened.sender not in self.replicas:
            return False
        made = self.replicas[opened.sender].made[replica.keys.me]
        return opened.number >= len(made) or made[opened.number] != opened.frame

    def has_forged_entry(self, replica: Replica, column: Item) -> bool:
        """Whether a column has a valid entry of a correct echoer that is in no HASHES which this one made."""
        broadcast, at = replica.core.broadcast(column.slot), ENTRY * replica.keys.me
        for echoer in broadcast.valid(column.value) & self.replicas.keys():
            row = self.replicas[echoer].rows_made.get(column.slot, b"")
            if not broadcast.is_entry(echoer, row[at:at + ENTRY]):
                return True
        return False

    def collides(self, replica: Replica, item: Item) -> bool:
        """Whether an item brings a second message of a digest, or a second input of an entry."""
        if item.kind not in ((INIT, VALUE) if self.session.goes_by_digests(item.slot) else (SEND,)):
            return False
        its_digest = digest(item.value)
        found = self.messages.setdefault(its_digest, item.value) != item.value
        if item.kind == SEND:
            me, everyone = replica.keys.me, range(self.session.n)
            for echoer, verifier in [(me, k) for k in everyone] + [(k, me) for k in everyone]:
                tagged = item.slot, echoer, verifier, its_digest
                found |= self.entry_inputs.setdefault(replica.keys.entry(*tagged), tagged) != tagged
        return found

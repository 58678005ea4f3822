"""One replica's step: the checks that an item meets, the inbox, and the items that are held. docs/PROTOCOL.md has their order."""
from __future__ import annotations

from collections import deque
from typing import Optional

from .bodies import SLOT_END, is_input
from .digests import DigestBroadcast
from .echo import EchoBroadcast
from .keys import Keys
from .reliable import ReliableBroadcast
from .services import service_of
from .session import ALL, COLUMN, HASHES, INIT, SEND, Item, Message, Say, Session, Slot

TOOK, HELD, REPEAT, IDLE, REFUSED = "took", "held", "repeat", "idle", "core"
MOST_HELD_BYTES = 1_048_576

Broadcast = ReliableBroadcast | DigestBroadcast | EchoBroadcast


def body_length(item: Item) -> int:
    return SLOT_END + len(item.value)


def held_name(item: Item) -> tuple:
    """Two items of one name aren't held together."""
    return item if item.kind == COLUMN else item[:3]


class Core:
    def __init__(self, session: Session, keys: Keys) -> None:
        self.session, self.keys = session, keys
        self.service = service_of(session, keys)
        self.broadcasts: dict[Slot, Broadcast] = {}
        self.inbox: deque[Item] = deque()
        self.held: list[list[Item]] = [[] for _ in range(session.n)]
        self.held_bytes = [0] * session.n
        self.held_names: set[tuple] = set()
        self.taken: Optional[Item] = None  # by the last call
        self.out: list[Message] = []  # what the last call sends, in order

    def input(self, value: bytes) -> str:
        self.taken, self.out = None, []
        if not is_input(self.session, value) or not self.service.takes_input():
            return REFUSED
        self.finish([], self.service.input(value))
        self.release()
        return TOOK

    def turn(self) -> str:
        if not self.inbox:
            self.taken, self.out = None, []
            return IDLE
        return self.give(self.inbox.popleft())

    def give(self, item: Item) -> str:
        self.taken, self.out = None, []
        if self.is_refused(item):
            return REFUSED
        is_open = self.is_open(item)
        if self.repeats(item, is_open):
            return REPEAT
        if not is_open:
            return self.hold(item)
        self.take(item)
        return TOOK

    def is_refused(self, item: Item) -> bool:
        if item.kind in (INIT, SEND, COLUMN) and item.sender != item.slot.origin:
            return True
        if item.kind == HASHES and item.slot.origin != self.keys.me:
            return True
        return self.is_past(item.slot) or self.service.is_ahead(item.slot)

    def is_past(self, slot: Slot) -> bool:
        return self.session.has_past and self.service.is_past(slot)

    def is_open(self, item: Item) -> bool:
        return self.service.is_open(item.slot) and (item.kind != COLUMN or self.broadcast(item.slot).is_ready_for(item))

    def repeats(self, item: Item, is_open: bool) -> bool:
        if item.kind == COLUMN and is_open:
            return self.broadcast(item.slot).repeats(item)
        if held_name(item) in self.held_names:
            return True
        return item.kind != COLUMN and self.broadcast(item.slot).repeats(item)

    def broadcast(self, slot: Slot) -> Broadcast:
        if slot not in self.broadcasts:
            self.broadcasts[slot] = self.form(slot)(self.session, self.keys, slot)
        return self.broadcasts[slot]

    def form(self, slot: Slot) -> type[Broadcast]:
        if self.session.goes_by_echo(slot):
            return EchoBroadcast
        return DigestBroadcast if self.session.goes_by_digests(slot) else ReliableBroadcast

    def hold(self, item: Item) -> str:
        bytes_then = self.held_bytes[item.sender] + body_length(item)
        if bytes_then > MOST_HELD_BYTES:
            return REFUSED
        self.held_bytes[item.sender] = bytes_then
        self.held[item.sender].append(item)
        self.held_names.add(held_name(item))
        return HELD

    def take(self, item: Item) -> None:
        self.taken = item
        broadcast = self.broadcast(item.slot)
        was_delivered = broadcast.delivered is not None
        messages, says = broadcast.take(item), []
        delivers = not was_delivered and broadcast.delivered is not None
        if delivers:
            says = self.service.heard(item.slot, broadcast.delivered)
        self.finish(messages, says)
        # windows move and slots open by what is delivered alone, and columns by the origin's SEND
        if delivers or item.kind == SEND:
            self.release()

    def finish(self, messages: list[Message], says: list[Say]) -> None:
        """Puts the call's messages in order; those to this replica itself go into its inbox."""
        started = [Message(slot, SEND if self.session.goes_by_echo(slot) else INIT, ALL, value) for slot, value in says]
        self.out = sorted(messages + started, key=lambda message: message[:3])
        for slot, kind, to, value in self.out:
            if to in (ALL, self.keys.me):
                self.inbox.append(Item(self.keys.me, kind, slot, value))

    def release(self) -> None:
        """Moves held items that are open now to the inbox, and drops those that are past."""
        for peer in range(self.session.n):
            kept = []
            for item in self.held[peer]:
                if self.is_past(item.slot):
                    self.let_go(item)
                elif self.is_open(item):
                    self.let_go(item)
                    self.inbox.append(item)
                else:
                    kept.append(item)
            self.held[peer] = kept

    def let_go(self, item: Item) -> None:
        self.held_bytes[item.sender] -= body_length(item)
        self.held_names.remove(held_name(item))

"""The root services: what each makes of inputs and of delivered values, and the windows of its slots."""
from __future__ import annotations

from typing import Optional, Protocol

from .atomic import Atomic
from .binary import Binary
from .keys import Keys
from .log import CommandLog
from .multivalued import Multivalued
from .session import (BINARY, COMMAND, COMMAND_WINDOW, ECHO_BROADCAST, MULTIVALUED, NUMBERS, RELIABLE, ROUNDS_AHEAD, ROUNDS_BEHIND, VECTOR, Say,
                      Session, Slot)
from .vector import Vector


class Service(Protocol):
    def takes_input(self) -> bool: ...

    def input(self, value: bytes) -> list[Say]: ...

    def heard(self, slot: Slot, value: bytes) -> list[Say]: ...

    def is_open(self, slot: Slot) -> bool: ...

    def is_past(self, slot: Slot) -> bool: ...

    def is_ahead(self, slot: Slot) -> bool: ...


class Numbered:
    """What services have in common that broadcast each input at the replica's next command number."""

    bases: list[int]  # of each origin the least number that isn't finished

    def __init__(self, keys: Keys) -> None:
        self.me = keys.me
        self.next_number = 0

    def takes_input(self) -> bool:
        return self.next_number < min(self.bases[self.me] + COMMAND_WINDOW, NUMBERS)

    def input(self, value: bytes) -> list[Say]:
        self.next_number += 1
        return [Say(Slot(COMMAND, self.next_number - 1, 0, 0, 0, self.me), value)]

    def is_past(self, slot: Slot) -> bool:
        return slot.number + COMMAND_WINDOW < self.bases[slot.origin]

    def is_ahead(self, slot: Slot) -> bool:
        return slot.number >= self.bases[slot.origin] + COMMAND_WINDOW


class Broadcasts(Numbered):
    """Root services 1 and 2: commands are broadcast, and a number is finished where it is delivered."""

    def __init__(self, session: Session, keys: Keys) -> None:
        super().__init__(keys)
        self.bases = [0] * session.n
        self.delivered: dict[tuple[int, int], bytes] = {}

    def heard(self, slot: Slot, value: bytes) -> list[Say]:
        self.delivered[slot.origin, slot.number] = value
        while (slot.origin, self.bases[slot.origin]) in self.delivered:
            self.bases[slot.origin] += 1
        return []

    def is_open(self, slot: Slot) -> bool:
        return True


class AtomicBroadcast(Numbered):
    """Root services 6 and 7: a number is finished where it is in the log of identifiers."""

    def __init__(self, session: Session, keys: Keys) -> None:
        super().__init__(keys)
        self.atomic = Atomic(session, keys)
        self.bases = self.atomic.bases
        self.log = CommandLog(session.f)
        self.entered = 0  # how many identifiers the command log has seen

    def heard(self, slot: Slot, value: bytes) -> list[Say]:
        says = self.atomic.heard(slot, value)
        for identifier in self.atomic.log[self.entered:]:
            self.log.append(identifier, self.atomic.commands[identifier])
        self.entered = len(self.atomic.log)
        return says

    def is_open(self, slot: Slot) -> bool:
        return slot.class_ == COMMAND or self.atomic.is_open(slot)

    def is_past(self, slot: Slot) -> bool:
        if slot.class_ == COMMAND:
            return super().is_past(slot)
        return slot.number + ROUNDS_BEHIND < self.atomic.completed

    def is_ahead(self, slot: Slot) -> bool:
        if slot.class_ == COMMAND:
            return super().is_ahead(slot)
        return slot.number > self.atomic.completed + ROUNDS_AHEAD


class Single:
    """Root services 3 to 5: one instance of a consensus, to which the one input is the proposal."""

    def __init__(self, instance: Binary | Multivalued | Vector) -> None:
        self.instance = instance

    def takes_input(self) -> bool:
        return not self.instance.has_proposed

    def input(self, value: bytes) -> list[Say]:
        return self.instance.propose(value[0] if isinstance(self.instance, Binary) else value)

    def heard(self, slot: Slot, value: bytes) -> list[Say]:
        return self.instance.heard(slot, value)

    def is_open(self, slot: Slot) -> bool:
        return self.instance.is_open(slot)

    def is_past(self, slot: Slot) -> bool:
        return False

    def is_ahead(self, slot: Slot) -> bool:
        return False


SINGLES: dict[int, type] = {BINARY: Binary, MULTIVALUED: Multivalued, VECTOR: Vector}


def service_of(session: Session, keys: Keys) -> Service:
    if session.root in (RELIABLE, ECHO_BROADCAST):
        return Broadcasts(session, keys)
    if session.root in SINGLES:
        return Single(SINGLES[session.root](session, keys))
    return AtomicBroadcast(session, keys)


def last_vector(service: Service) -> Optional[tuple[int, int, bytes]]:
    """Of root services 5 and 6 the round, the try and the bytes of the last vector that was decided."""
    if isinstance(service, AtomicBroadcast):
        return service.atomic.last_vector()
    vector = service.instance
    return None if vector.decision is None else (0, vector.decided_try, vector.decision)

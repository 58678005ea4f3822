"""What a session is: its numbers, its slots, and the kinds of its messages.

The quorums are those of Bracha, Asynchronous Byzantine Agreement Protocols (1987), and of Correia, Neves, Veríssimo, From Consensus to Atomic
Broadcast (2006). docs/PROTOCOL.md has the rest.
"""
from __future__ import annotations

import struct
from dataclasses import dataclass
from functools import cached_property
from typing import Iterable, NamedTuple

MOST_REPLICAS = 31
NUMBERS = 1_000_000  # command numbers and rounds are below it
MOST_BINARY_ROUNDS = 200
COMMAND_WINDOW = 64
ROUNDS_BEHIND, ROUNDS_AHEAD = 2, 4
NEWEST_VERSION = 3

RELIABLE, ECHO_BROADCAST, BINARY, MULTIVALUED, VECTOR, ATOMIC, DIRECT = range(1, 8)  # root services
ORDERED = ATOMIC, DIRECT  # those that put commands in one order
COMMAND, VECTOR_PROPOSAL, PROPOSAL, VECT, STEP = range(1, 6)  # classes of slots
INIT, ECHO, READY, SEND, HASHES, COLUMN, WANT, VALUE = range(1, 9)  # kinds of messages

ALL = -1  # the receiver of a message to all


@dataclass(frozen=True)
class Session:
    number: int
    n: int
    f: int
    root: int
    echo_vects: bool
    version: int

    @cached_property
    def quorum(self) -> int:
        """ECHOs that make a value ready, and valid entries that deliver one."""
        return (self.n + self.f) // 2 + 1

    @cached_property
    def ready(self) -> int:
        """READYs that make a value ready."""
        return self.f + 1

    @cached_property
    def deliver(self) -> int:
        """READYs that deliver a value, and votes that decide a bit."""
        return 2 * self.f + 1

    @cached_property
    def wait(self) -> int:
        """What every wait of a consensus is for."""
        return self.n - self.f

    @cached_property
    def support(self) -> int:
        """How many places agree on a multi-valued value."""
        return self.n - 2 * self.f

    @property
    def has_commands(self) -> bool:
        """Whether an input is a command, of which there may be many."""
        return self.root in (RELIABLE, ECHO_BROADCAST, *ORDERED)

    def goes_by_echo(self, slot: Slot) -> bool:
        """Whether the slot's broadcast is echo broadcast."""
        if slot.class_ == COMMAND:
            return self.root == ECHO_BROADCAST
        return slot.class_ == VECT and self.echo_vects

    def goes_by_digests(self, slot: Slot) -> bool:
        """Whether the slot's broadcast is reliable broadcast by digests. A bit is shorter than its digest, so in version 3 it goes by itself."""
        has_digests = self.version == 2 or (self.version == 3 and slot.class_ != STEP)
        return has_digests and not self.goes_by_echo(slot)

    @property
    def has_past(self) -> bool:
        """Whether what lies far enough behind is past."""
        return self.version < 3


class Slot(NamedTuple):
    """The name of one broadcast. Slots are in the order of their bytes."""

    class_: int
    number: int
    attempt: int
    round: int
    step: int
    origin: int

    def to_bytes(self) -> bytes:
        return struct.pack(">BIBBBB", *self)


class Item(NamedTuple):
    """What a frame's body says, with its sender."""

    sender: int
    kind: int
    slot: Slot
    value: bytes


class Message(NamedTuple):
    """What a replica sends, to one or to all. A call's messages go out in this order."""

    slot: Slot
    kind: int
    to: int
    value: bytes


class Say(NamedTuple):
    """A broadcast that is to be started."""

    slot: Slot
    value: bytes


def members(mask: int) -> list[int]:
    return [k for k in range(32) if mask >> k & 1]


def mask_of(places: Iterable[int]) -> int:
    return sum(1 << k for k in places)

"""Echo broadcast: each replica sends the origin a row of entries, one for each replica, and the origin gives each replica its column.

The matrix of hashes is that of Moniz, Neves, Correia, Veríssimo, RITAS (IEEE TDSC 2011). That a message is delivered by a quorum of valid entries,
counted over all columns, and that columns are sent again, is this repository's own choice.
"""
from __future__ import annotations

import struct
from typing import Optional

from .keys import Keys, digest
from .session import COLUMN, HASHES, SEND, Item, Message, Session, Slot, mask_of, members

ENTRY = 32


def column_entries(column: bytes) -> dict[int, bytes]:
    echoers = members(int.from_bytes(column[:4], "big"))
    return {j: column[4 + ENTRY * at:4 + ENTRY * (at + 1)] for at, j in enumerate(echoers)}


class EchoBroadcast:
    def __init__(self, session: Session, keys: Keys, slot: Slot) -> None:
        self.session, self.keys, self.slot = session, keys, slot
        self.message: Optional[bytes] = None  # of the origin's first SEND
        self.message_digest = b""
        self.rows: dict[int, bytes] = {}  # the first HASHES of each sender
        self.expected: dict[int, bytes] = {}  # the entry that is valid here, of echoers that were looked at
        self.echoers: set[int] = set()  # those with a valid entry in a column that was taken
        self.delivered: Optional[bytes] = None

    def is_ready_for(self, item: Item) -> bool:
        return item.kind != COLUMN or self.message is not None

    def repeats(self, item: Item) -> bool:
        """Of a column: one that this broadcast is ready for."""
        if item.kind == SEND:
            return self.message is not None
        if item.kind == HASHES:
            return item.sender in self.rows
        return self.valid(item.value) <= self.echoers

    def valid(self, column: bytes) -> set[int]:
        """The echoers whose entry in this column is valid."""
        return {j for j, entry in column_entries(column).items() if self.is_entry(j, entry)}

    def is_entry(self, echoer: int, entry: bytes) -> bool:
        if echoer not in self.expected:
            self.expected[echoer] = self.keys.entry(self.slot, echoer, self.keys.me, self.message_digest)
        return entry == self.expected[echoer]

    def take(self, item: Item) -> list[Message]:
        if item.kind == SEND:
            return self.echo(item.value)
        if item.kind == HASHES:
            return self.collect(item)
        self.echoers |= self.valid(item.value)
        if len(self.echoers) >= self.session.quorum:
            self.delivered = self.message
        return []

    def echo(self, message: bytes) -> list[Message]:
        self.message, self.message_digest = message, digest(message)
        verifiers = range(self.session.n)
        row = b"".join(self.keys.entry(self.slot, self.keys.me, k, self.message_digest) for k in verifiers)
        return [Message(self.slot, HASHES, self.slot.origin, row)]

    def collect(self, item: Item) -> list[Message]:
        self.rows[item.sender] = item.value
        if len(self.rows) < self.session.wait:
            return []
        return [Message(self.slot, COLUMN, k, self.column(k)) for k in range(self.session.n)]

    def column(self, verifier: int) -> bytes:
        entries = [row[ENTRY * verifier:ENTRY * (verifier + 1)] for _, row in sorted(self.rows.items())]
        return struct.pack(">I", mask_of(self.rows)) + b"".join(entries)

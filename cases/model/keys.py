"""The keys of a replica, and what they tag: frames, entries of echo broadcast, and coins.

HMAC is RFC 2104 and SHA-256 is FIPS 180-4, both by Python's library.
"""
from __future__ import annotations

import hashlib
import hmac
import struct
from dataclasses import dataclass

from .session import Slot


def tag(key: bytes, text: bytes) -> bytes:
    return hmac.digest(key, text, "sha256")


def digest(text: bytes) -> bytes:
    return hashlib.sha256(text).digest()


def pair_key(master: bytes, session: int, i: int, j: int) -> bytes:
    return tag(master, b"\x4b" + struct.pack(">QBB", session, min(i, j), max(i, j)))


def coin_key(master: bytes, session: int, i: int) -> bytes:
    return tag(master, b"\x53" + struct.pack(">QB", session, i))


@dataclass(frozen=True)
class Keys:
    """The keys that replica `me` shares with each replica, and that of its coin."""

    session: int
    me: int
    shared: tuple[bytes, ...]
    coin: bytes

    def entry(self, slot: Slot, echoer: int, verifier: int, message_digest: bytes) -> bytes:
        key = self.shared[verifier if echoer == self.me else echoer]
        return tag(key, struct.pack(">BQ", 0x45, self.session) + slot.to_bytes() + bytes([echoer, verifier]) + message_digest)

    def toss(self, slot: Slot) -> int:
        return tag(self.coin, struct.pack(">BQ", 0x43, self.session) + slot.to_bytes())[0] & 1


def deal(master: bytes, session: int, n: int, me: int) -> Keys:
    return Keys(session, me, tuple(pair_key(master, session, me, j) for j in range(n)), coin_key(master, session, me))

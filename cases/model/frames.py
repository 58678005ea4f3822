"""Sealed frames: a body between its head and its tag, which is an HMAC (RFC 2104). docs/FORMATS.md has the fields."""
from __future__ import annotations

import struct
from typing import NamedTuple, Optional

from .keys import Keys, tag

HEAD, TAG = 11, 32
LEAST, MOST = HEAD + TAG, 16_384


class Opened(NamedTuple):
    sender: int
    number: int
    body: bytes
    frame: bytes


def seal(key: bytes, version: int, sender: int, to: int, number: int, body: bytes) -> bytes:
    text = struct.pack(">BBBQ", version, sender, to, number % 2**64) + body
    return text + tag(key, text)


def open_frame(keys: Keys, version: int, frame: bytes) -> Optional[Opened]:
    """The frame with its sender, number and body, or nothing where it doesn't open."""
    if not LEAST <= len(frame) <= MOST:
        return None
    first, sender, to, number = struct.unpack(">BBBQ", frame[:HEAD])
    if first != version or to != keys.me or sender >= len(keys.shared) or sender == keys.me:
        return None
    if tag(keys.shared[sender], frame[:-TAG]) != frame[-TAG:]:
        return None
    return Opened(sender, number, frame[HEAD:-TAG], frame)

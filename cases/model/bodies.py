"""The grammar of bodies: a kind, a slot, and the payload that the two allow. And that of inputs, which are values too."""
from __future__ import annotations

import struct
from functools import lru_cache
from typing import NamedTuple, Optional

from .session import (ATOMIC, BINARY, COLUMN, COMMAND, DIRECT, ECHO, ECHO_BROADCAST, HASHES, INIT, MOST_BINARY_ROUNDS, MULTIVALUED, NUMBERS,
                      ORDERED, PROPOSAL, READY, RELIABLE, SEND, STEP, VALUE, VECT, VECTOR, VECTOR_PROPOSAL, WANT, Session, Slot, mask_of, members)

SLOT_END = 10  # a payload begins behind the kind and the slot
DIGEST = 32
MOST_VALUE, MOST_VECTOR_PROPOSAL, LEAST_COMMAND = 4_096, 512, 8
IDENTIFIER, MOST_IDENTIFIERS = 5, 64

CLASSES = {
    RELIABLE: (COMMAND,), ECHO_BROADCAST: (COMMAND,), BINARY: (STEP,), MULTIVALUED: (PROPOSAL, VECT, STEP),
    VECTOR: (VECTOR_PROPOSAL, PROPOSAL, VECT, STEP), **dict.fromkeys(ORDERED, (COMMAND, VECTOR_PROPOSAL, PROPOSAL, VECT, STEP)),
}
VALUE_KINDS, DIGEST_KINDS, ECHO_KINDS = (INIT, ECHO, READY), (INIT, ECHO, READY, WANT, VALUE), (SEND, HASHES, COLUMN)

Identifier = tuple[int, int]


class Body(NamedTuple):
    kind: int
    slot: Slot
    value: bytes


def write_body(kind: int, slot: Slot, value: bytes) -> bytes:
    return bytes([kind]) + slot.to_bytes() + value


@lru_cache(maxsize=1 << 12)
def read_body(session: Session, body: bytes) -> Optional[Body]:
    """The kind, slot and value that a body spells, or nothing where it spells none."""
    if len(body) < SLOT_END:
        return None
    kind, slot, value = body[0], Slot(*struct.unpack(">BIBBBB", body[1:SLOT_END])), body[SLOT_END:]
    if not is_slot(session, slot):
        return None
    if kind not in kinds_at(session, slot) or not is_payload(session, kind, slot, value):
        return None
    return Body(kind, slot, value)


def kinds_at(session: Session, slot: Slot) -> tuple[int, ...]:
    if session.goes_by_echo(slot):
        return ECHO_KINDS
    return DIGEST_KINDS if session.goes_by_digests(slot) else VALUE_KINDS


def is_slot(session: Session, slot: Slot) -> bool:
    if slot.class_ not in CLASSES[session.root]:
        return False
    if slot.number >= NUMBERS or (slot.number != 0 and session.root in (BINARY, MULTIVALUED, VECTOR)):
        return False
    tries = session.root in (VECTOR, ATOMIC) and slot.class_ in (PROPOSAL, VECT, STEP)
    if slot.attempt > (session.f if tries else 0):
        return False
    if slot.class_ == STEP:
        in_steps = 1 <= slot.round <= MOST_BINARY_ROUNDS and 1 <= slot.step <= 3
    else:
        in_steps = slot.round == 0 and slot.step == 0
    return in_steps and slot.origin < session.n


def is_payload(session: Session, kind: int, slot: Slot, payload: bytes) -> bool:
    if kind == HASHES:
        return len(payload) == 32 * session.n
    if kind == COLUMN:
        return is_column(session, payload)
    if session.goes_by_digests(slot) and kind in (ECHO, READY, WANT):
        return len(payload) == DIGEST
    return is_value(session, slot, payload)


def is_column(session: Session, payload: bytes) -> bool:
    if len(payload) < 4:
        return False
    mask = int.from_bytes(payload[:4], "big")
    return 0 < mask < 1 << session.n and len(payload) == 4 + 32 * mask.bit_count()


def is_value(session: Session, slot: Slot, value: bytes) -> bool:
    if slot.class_ == COMMAND:
        return (LEAST_COMMAND if session.root in ORDERED else 1) <= len(value) <= MOST_VALUE
    if slot.class_ == VECTOR_PROPOSAL:
        return is_vector_proposal(session, value)
    if slot.class_ == PROPOSAL:
        return is_proposal(session, value)
    if slot.class_ == VECT:
        return is_vect(session, value)
    return len(value) == 1 and value[0] <= (2 if slot.step == 3 else 1)


def is_vector_proposal(session: Session, value: bytes) -> bool:
    if session.root == VECTOR:
        return 1 <= len(value) <= MOST_VECTOR_PROPOSAL
    return is_identifier_list(session, value, 1, MOST_IDENTIFIERS // session.n)


def is_identifier_list(session: Session, value: bytes, least: int, share: int) -> bool:
    """Whether it has so many identifiers at least, and so many of one origin at most."""
    if len(value) % IDENTIFIER != 0 or not least <= len(value) // IDENTIFIER <= MOST_IDENTIFIERS:
        return False
    found = read_identifiers(value)
    counts = [0] * 256
    for origin, number in found:
        counts[origin] += 1
        if origin >= session.n or number >= NUMBERS or counts[origin] > share:
            return False
    return all(x < y for x, y in zip(found, found[1:]))


def is_proposal(session: Session, value: bytes) -> bool:
    if session.root == MULTIVALUED:
        return 1 <= len(value) <= MOST_VALUE
    if session.root == DIRECT:
        return is_identifier_list(session, value, 0, MOST_IDENTIFIERS)
    return is_vector(session, value)


def is_vector(session: Session, value: bytes) -> bool:
    if len(value) < 4:
        return False
    mask, at = int.from_bytes(value[:4], "big"), 4
    if mask >= 1 << session.n or mask.bit_count() < session.wait:
        return False
    for _ in members(mask):
        if at + 2 > len(value):
            return False
        end = at + 2 + int.from_bytes(value[at:at + 2], "big")
        if end > len(value) or not is_vector_proposal(session, value[at + 2:end]):
            return False
        at = end
    return at == len(value)


def is_vect(session: Session, value: bytes) -> bool:
    if value == b"":
        return True
    if len(value) < 4:
        return False
    mask = int.from_bytes(value[:4], "big")
    return mask < 1 << session.n and mask.bit_count() >= session.support and is_proposal(session, value[4:])


def is_input(session: Session, value: bytes) -> bool:
    if session.root == BINARY:
        return len(value) == 1 and value[0] <= 1
    if session.root == VECTOR:
        return 1 <= len(value) <= MOST_VECTOR_PROPOSAL
    return (LEAST_COMMAND if session.root in ORDERED else 1) <= len(value) <= MOST_VALUE


def write_identifiers(identifiers: list[Identifier]) -> bytes:
    return b"".join(struct.pack(">BI", *identifier) for identifier in identifiers)


def read_identifiers(value: bytes) -> list[Identifier]:
    return list(struct.iter_unpack(">BI", value))


def write_vector(proposals: dict[int, bytes]) -> bytes:
    parts = [struct.pack(">I", mask_of(proposals))]
    for _, value in sorted(proposals.items()):
        parts += [struct.pack(">H", len(value)), value]
    return b"".join(parts)


def read_vector(vector: bytes) -> dict[int, bytes]:
    entries, at = {}, 4
    for k in members(int.from_bytes(vector[:4], "big")):
        end = at + 2 + int.from_bytes(vector[at:at + 2], "big")
        entries[k] = vector[at + 2:end]
        at = end
    return entries

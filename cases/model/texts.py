"""What is written of a world: the report, the frames text and the vectors text, as docs/FORMATS.md has them."""
from __future__ import annotations

from typing import Iterable

from .services import AtomicBroadcast, Broadcasts, Service, last_vector
from .session import BINARY, MULTIVALUED, VECTOR, Session
from .world import Event, World

COUNTS = "took", "held", "repeat", "idle", "missed", "open", "body", "core"


def hexadecimal(value: bytes) -> str:
    return value.hex() or "-"


def text_of(world: World, lines: Iterable[str]) -> bytes:
    """These lines, and the audit's."""
    return "".join(line + "\n" for line in [*lines, f"audit {world.audit.result()}"]).encode()


def report(world: World) -> bytes:
    session = world.session
    vect = "echo" if session.echo_vects else "reliable"
    lines = [f"ritas n={session.n} f={session.f} root={session.root} vect={vect} session={session.number}"]
    lines.append(" ".join([f"events {world.events}"] + [f"{name} {world.answers[name]}" for name in COUNTS]))
    for i, replica in world.replicas.items():
        core = replica.core
        lines.append(f"replica {i} sent {replica.sent()} inbox {len(core.inbox)} held {sum(core.held_bytes)}")
        lines += service_lines(session, core.service)
    return text_of(world, lines)


def service_lines(session: Session, service: Service) -> list[str]:
    if isinstance(service, Broadcasts):
        return [f"out {origin}.{number} {hexadecimal(value)}" for (origin, number), value in sorted(service.delivered.items())]
    if isinstance(service, AtomicBroadcast):
        return log_lines(service)
    return [decision_line(session, service.instance)]


def log_lines(service: AtomicBroadcast) -> list[str]:
    rows = service.log.rows
    lines = [f"rounds {service.atomic.completed} rows {len(rows)}"]
    for position, row in enumerate(rows):
        origin, number = row.identifier
        lines.append(f"row {position} {origin}.{number} {row.client} {row.request} {hexadecimal(row.payload)}")
    return lines


def decision_line(session: Session, instance) -> str:
    decision = instance.decision
    if session.root == BINARY:
        return "over" if instance.over else "undecided" if decision is None else f"decision {decision}"
    if session.root == VECTOR and instance.is_spent:
        return "spent"
    if session.root == MULTIVALUED and decision is not None:
        decision = decision.value
        if decision is None:
            return "none"
    return "undecided" if decision is None else f"decision {hexadecimal(decision)}"


def frames_text(world: World, events: list[Event]) -> bytes:
    """Lets the events happen, and has a line for each frame that they made."""
    lines = []
    for k, event in enumerate(events):
        replica = world.event(event)
        if replica is not None:
            lines += [f"{k} {replica.keys.me} {to} {frame.hex()}" for to, _, frame in replica.made_now]
    return text_of(world, lines)


def vectors_text(world: World) -> bytes:
    """Of root services 5 and 6."""
    lines = []
    for i, replica in world.replicas.items():
        service = replica.core.service
        vector = last_vector(service)
        if (service.atomic if isinstance(service, AtomicBroadcast) else service.instance).is_spent:
            lines.append(f"vector {i} spent")
        elif vector is None:
            lines.append(f"vector {i} undecided")
        else:
            lines.append(f"vector {i} {vector[0]} {vector[1]} {hexadecimal(vector[2])}")
    return text_of(world, lines)

"""What the program writes of its words and its input, and its exit status."""
from __future__ import annotations

from . import configuration, schedule
from .audit import HOLDS
from .configuration import Configuration, WrongLine, read_configuration
from .drive import Limit, Plan, drive
from .keys import deal
from .schedule import FileFault, TooLong, read_schedule
from .session import ATOMIC, VECTOR
from .texts import frames_text, report, vectors_text
from .words import USAGE, read_words
from .world import World

DONE, BROKEN, USAGE_FAULT, FAULT, LIMIT = 0, 1, 2, 3, 7  # exit statuses

Result = tuple[int, bytes]


class Unmodelled(Exception):
    """The job serves, which takes a link."""


def limit(number: int) -> Result:
    return LIMIT, b"limit %d\n" % number


def run(words: list[str], data: bytes) -> Result:
    """The status and the output, for the words behind the program's name."""
    job = read_words(words)
    if job is None:
        return USAGE_FAULT, USAGE
    name, what = job
    if name == "replay":
        return replay(what, data)
    if len(data) > configuration.MOST_BYTES:
        return limit(configuration.MOST_BYTES)
    try:
        read = read_configuration(name, data)
    except WrongLine as fault:
        return FAULT, b"input line %d\n" % fault.number
    return configured(what, read)


def replay(what: str, data: bytes) -> Result:
    try:
        header, events = read_schedule(data)
        if what == "vectors" and header.session.root not in (VECTOR, ATOMIC):
            raise FileFault("header", schedule.ROOT_OFFSET)
    except FileFault as fault:
        return FAULT, f"input {fault.name} at {fault.place}\n".encode()
    except TooLong:
        return limit(schedule.MOST_BYTES)
    world = World(header.session, header.keys())
    if what == "frames":
        output = frames_text(world, events)
        return status_of(world), output
    for event in events:
        world.event(event)
    return status_of(world), report(world) if what == "report" else vectors_text(world)


def status_of(world: World) -> int:
    return DONE if world.audit.result() == HOLDS else BROKEN


def configured(what: str, read: Configuration) -> Result:
    if read.job == "keys":
        return DONE, rows_of_keys(read)
    if read.job != "drive":
        raise Unmodelled(f"`{read.job}` serves, which this model doesn't")
    try:
        world, file = drive(Plan.of(read))
    except Limit as fault:
        return limit(fault.number)
    return status_of(world), report(world) if what == "report" else file


def rows_of_keys(read: Configuration) -> bytes:
    n, lines = read["n"], []
    for i in range(n):
        keys = deal(read["master"], read["session"], n, i)
        lines.append(f"row {i} {b''.join(keys.shared).hex()} {keys.coin.hex()}\n")
    return "".join(lines).encode()

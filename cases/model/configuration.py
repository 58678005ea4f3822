"""Configurations: lists of lines, each a name and a value, in an order that the job says. docs/FORMATS.md has the table of lines."""
from __future__ import annotations

import re
from dataclasses import dataclass
from typing import Any

from .session import ATOMIC, DIRECT, MOST_REPLICAS, NEWEST_VERSION

MOST_BYTES = 1_048_576
MOST_U32, MOST_U64 = 2**32 - 1, 2**64 - 1
MOST_COMMANDS, MOST_REQUESTS, MOST_REQUEST_DIGITS = 10_000, 64, 8_176
ORDERS = "sweep", "random"
ATTACKS = "none", "silent", "twoface", "flip", "garbage"

NUMBER = "0|[1-9][0-9]{0,19}"  # of at most 64 bits
FIGURES = "[0-9a-fA-F]"

# The lines of each job, in order. A name with ? may be missing, one with * stands there once for each replica, and one with + any number of times.
LINES = {
    "drive": "ritas session n f root vect master order attack start commands copies?",
    "keys": "ritas session n f master",
    "node": "ritas session n f root vect me row coin peer* client limit until journal?",
    "cluster": "ritas session n f root vect master peer* limit until request+",
    "submit": "ritas n f peer* request",
    "watch": "ritas n f peer* until",
}


class WrongLine(Exception):
    def __init__(self, number: int) -> None:
        super().__init__(number)
        self.number = number


class Wrong(Exception):
    """A value that its line can't have."""


@dataclass
class Configuration:
    """The values of its lines by their names; a list of them for a line that may repeat."""

    job: str
    values: dict[str, Any]

    def __getitem__(self, name: str) -> Any:
        return self.values[name]


def number(text: str, least: int, most: int) -> int:
    if not re.fullmatch(NUMBER, text) or not least <= int(text) <= most:
        raise Wrong
    return int(text)


def one_of(text: str, words: tuple[str, ...]) -> str:
    if text not in words:
        raise Wrong
    return text


def hexadecimal(text: str, least: int, most: int) -> bytes:
    """Of an even number of digits."""
    if not re.fullmatch(f"({FIGURES}{FIGURES})*", text) or not least <= len(text) <= most:
        raise Wrong
    return bytes.fromhex(text)


def address(text: str) -> str:
    host, colon, port = text.partition(":")
    numbers = host.split(".")
    if not colon or len(numbers) != 4:
        raise Wrong
    for part in numbers:
        number(part, 0, 255)
    number(port, 1, 65_535)
    return text


def request(text: str, n: int) -> tuple[int, int, int, bytes]:
    parts = text.split(" ")
    if len(parts) != 4:
        raise Wrong
    at, client, its_number = number(parts[0], 0, n - 1), number(parts[1], 0, MOST_U32), number(parts[2], 0, MOST_U32)
    return at, client, its_number, b"" if parts[3] == "-" else hexadecimal(parts[3], 2, MOST_REQUEST_DIGITS)


def value_of(job: str, name: str, text: str, values: dict[str, Any]) -> Any:
    n = values.get("n", 0)
    ranges = {
        "ritas": (1, NEWEST_VERSION), "session": (0, MOST_U64), "n": (1, MOST_REPLICAS), "f": (0, (n - 1) // 3), "me": (0, n - 1),
        "root": (1 if job == "drive" else ATOMIC, DIRECT), "start": (0, MOST_U64), "commands": (0, MOST_COMMANDS), "copies": (1, n),
        "limit": (1, MOST_U64), "until": (1 if job == "watch" else 0, MOST_U32),
    }
    words = {"vect": ("echo", "reliable"), "order": ORDERS, "attack": ATTACKS, "journal": ("yes", "no")}
    digits = {"master": 64, "coin": 64, "row": 64 * n}
    if name in ranges:
        return number(text, *ranges[name])
    if name in words:
        return one_of(text, words[name])
    if name in digits:
        return hexadecimal(text, digits[name], digits[name])
    return request(text, n) if name == "request" else address(text)


class Lines:
    """The lines that are left of a text."""

    def __init__(self, text: bytes) -> None:
        self.left = text.decode("latin-1")
        self.number = 1  # of the first one that is left

    def take(self, job: str, name: str, values: dict[str, Any]) -> Any:
        """The value of the next line, which is to have this name."""
        line, end, rest = self.left.partition("\n")
        front = name + " "
        if not end or not line.startswith(front):
            raise WrongLine(self.number)
        try:
            value = value_of(job, name, line[len(front):], values)
        except Wrong:
            raise WrongLine(self.number) from None
        self.left, self.number = rest, self.number + 1
        return value

    def has(self, name: str) -> bool:
        return self.left.startswith(name + " ")


def counts_of(name: str, n: int) -> tuple[int, int]:
    """How often a line stands there at least and at most."""
    return {"?": (0, 1), "*": (n, n), "+": (0, MOST_REQUESTS)}.get(name[-1], (1, 1))


def read_configuration(job: str, text: bytes) -> Configuration:
    lines, values = Lines(text), {}
    for name in LINES[job].split():
        least, most = counts_of(name, values.get("n", 0))
        plain, found = name.rstrip("?*+"), []
        while len(found) < least or (len(found) < most and lines.has(plain)):
            found.append(lines.take(job, plain, values))
        values[plain] = found if name[-1] in "*+" else found[0] if found else None
    if lines.left:
        raise WrongLine(lines.number)
    return Configuration(job, values)

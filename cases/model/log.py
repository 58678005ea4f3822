"""The command log: a command has its row once identifiers of f + 1 origins with it stand in the log of identifiers."""
from __future__ import annotations

import struct
from typing import NamedTuple

from .bodies import Identifier


class Row(NamedTuple):
    identifier: Identifier
    client: int
    request: int
    payload: bytes


class CommandLog:
    def __init__(self, f: int) -> None:
        self.f = f
        self.origins: dict[bytes, set[int]] = {}
        self.entered: set[tuple[int, int]] = set()
        self.rows: list[Row] = []

    def append(self, identifier: Identifier, command: bytes) -> None:
        client, request = struct.unpack(">II", command[:8])
        origins = self.origins.setdefault(command, set())
        origins.add(identifier[0])
        if len(origins) > self.f and (client, request) not in self.entered:
            self.entered.add((client, request))
            self.rows.append(Row(identifier, client, request, command[8:]))

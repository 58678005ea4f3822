"""Plans: which session, players and inputs a configuration of `drive` means."""
from __future__ import annotations

import struct
from dataclasses import dataclass
from typing import Iterator

from .configuration import Configuration
from .keys import deal
from .replica import Replica
from .schedule import Header
from .session import BINARY, INIT, ORDERED, STEP, Message, Session, mask_of
from .world import World

CORRECT, FLIPPING, FACE_A, FACE_B = "", "flip", "A", "B"  # what a player is
FACES = {"flip": (FLIPPING,), "twoface": (FACE_A, FACE_B)}


class FlippingReplica(Replica):
    """One whose votes of binary consensus are sent with the other bit."""

    def value_sent(self, message: Message) -> bytes:
        if message.kind == INIT and message.slot.class_ == STEP and message.value in (b"\0", b"\1"):
            return bytes([1 - message.value[0]])
        return message.value


@dataclass(eq=False)
class Player:
    number: int
    face: str
    replica: Replica


@dataclass(frozen=True)
class Plan:
    session: Session
    master: bytes
    order: str
    attack: str
    start: int
    commands: int
    copies: int

    @staticmethod
    def of(read: Configuration) -> Plan:
        session = Session(read["session"], read["n"], read["f"], read["root"], read["vect"] == "echo", read["ritas"])
        return Plan(session, read["master"], read["order"], read["attack"], read["start"], read["commands"], read["copies"] or 1)

    @property
    def correct(self) -> range:
        return range(self.session.n - (self.session.f if self.attack != "none" else 0))

    @property
    def faulty(self) -> range:
        return range(len(self.correct), self.session.n)

    def header(self) -> Header:
        return Header(self.session, mask_of(self.correct), self.master)

    def players(self, world: World) -> list[Player]:
        """In order; the correct ones are those of the world."""
        found = [Player(i, CORRECT, replica) for i, replica in world.replicas.items()]
        for i in self.faulty:
            for face in FACES.get(self.attack, ()):
                form = FlippingReplica if face == FLIPPING else Replica
                found.append(Player(i, face, form(self.session, deal(self.master, self.session.number, self.session.n, i))))
        return found

    def are_linked(self, x: Player, y: Player) -> bool:
        if self.attack != "twoface" or (x.face == CORRECT and y.face == CORRECT):
            return x is not y
        return x is not y and self.side(x) == self.side(y)

    def side(self, player: Player) -> str:
        """The letter of the faces with which a player is linked."""
        if player.face != CORRECT:
            return player.face
        return FACE_A if player.number < (self.session.n - self.session.f + 1) // 2 else FACE_B

    def inputs(self, players: list[Player]) -> Iterator[tuple[Player, bytes]]:
        """Who gets which input, in order."""
        m = len(self.correct)
        if self.session.has_commands:
            for k in range(self.commands):
                for t in range(min(self.copies, m) if self.session.root in ORDERED else 1):
                    yield players[(k + t) % m], self.input(k, k % m, k)
        for player in players:
            if player.face in (FACE_A, FACE_B):
                v = 2 * player.number + (player.face == FACE_B)
                yield player, self.input(v, v, 0)
            elif not self.session.has_commands and self.commands > 0:
                yield player, self.input(player.number % self.commands, 0, 0)

    def input(self, value: int, client: int, request: int) -> bytes:
        if self.session.root == BINARY:
            return bytes([value % 2])
        command = struct.pack(">II", client, request) if self.session.root in ORDERED else b""
        return command + struct.pack(">I", value)

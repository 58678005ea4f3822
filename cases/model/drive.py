"""The schedules that plans mean: steps of players, in sweeps or in a drawn order, under an attack."""
from __future__ import annotations

import struct
from collections import deque
from typing import Optional

from .pcg import Pcg32
from .plan import CORRECT, Plan, Player
from .schedule import END, MOST_BYTES, write_event, write_header
from .world import Frame, Input, Pass, Turn, World

MOST_STEPS = 4_000_000
PICKS_BETWEEN_GARBAGE = 256
OLDEST, AGAIN_OF = 8, 16  # of so many oldest frames one is drawn, and one of so many may come again


class Limit(Exception):
    def __init__(self, number: int) -> None:
        super().__init__(number)
        self.number = number


class Drive:
    def __init__(self, plan: Plan) -> None:
        self.plan, self.session = plan, plan.session
        header = plan.header()
        self.world = World(plan.session, header.keys())
        self.players = plan.players(self.world)
        self.links = [(x, y) for x in self.players for y in self.players if plan.are_linked(x, y)]
        self.unpassed: dict[tuple[Player, Player], deque[int]] = {link: deque() for link in self.links}
        self.linked_by_number = {(x, y.number): y for x, y in self.links}
        self.words = Pcg32(plan.start)
        self.file = bytearray(write_header(header))
        self.steps = 0

    def run(self) -> None:
        for player, value in self.plan.inputs(self.players):
            self.input(player, value)
        if self.plan.order == "sweep":
            while self.has_choice():
                self.sweep()
        else:
            self.pick_all()
        self.file.append(END)

    def has_choice(self) -> bool:
        return any(player.replica.core.inbox for player in self.players) or any(self.unpassed.values())

    def sweep(self) -> None:
        turns = {y: len(y.replica.core.inbox) for y in self.players}
        frames = {link: len(unpassed) for link, unpassed in self.unpassed.items()}
        self.garbage()
        for y in self.players:
            for _ in range(turns[y]):
                self.turn(y)
            for x in self.players:
                for _ in range(frames.get((x, y), 0)):
                    self.hand(x, y, self.unpassed[x, y].popleft())

    def pick_all(self) -> None:
        pick = 0
        while choices := self.choices():
            if pick % PICKS_BETWEEN_GARBAGE == 0:
                self.garbage()
            self.pick(choices[self.words.next_word() % len(choices)])
            pick += 1

    def choices(self) -> list[tuple[Optional[Player], Player]]:
        """Turns, which have no sender, and links with a frame that is unpassed."""
        turns = [(None, player) for player in self.players if player.replica.core.inbox]
        return turns + [link for link in self.links if self.unpassed[link]]

    def pick(self, choice: tuple[Optional[Player], Player]) -> None:
        x, y = choice
        if x is None:
            self.turn(y)
            return
        unpassed, word = self.unpassed[x, y], self.words.next_word()
        place = word % min(OLDEST, len(unpassed))
        number = unpassed[place]
        if word // 256 % AGAIN_OF != 0:
            del unpassed[place]
        self.hand(x, y, number)

    def garbage(self) -> None:
        if self.plan.attack != "garbage":
            return
        for i in self.plan.faulty:
            for j in self.plan.correct:
                body = struct.pack(">BII", 0xFF, self.words.next_word(), self.words.next_word())
                self.step(Frame(j, struct.pack(">BBBQ", self.session.version, i, j, 0) + body + bytes(32)))

    def input(self, player: Player, value: bytes) -> None:
        if player.face == CORRECT:
            self.step(Input(player.number, value))
        else:
            self.step()
            player.replica.on_input(value)
        self.note_frames(player)

    def turn(self, player: Player) -> None:
        if player.face == CORRECT:
            self.step(Turn(player.number))
        else:
            self.step()
            player.replica.on_turn()
        self.note_frames(player)

    def hand(self, x: Player, y: Player, number: int) -> None:
        frame = x.replica.made[y.number][number]
        if y.face == CORRECT:
            self.step(Pass(x.number, y.number, number) if x.face == CORRECT else Frame(y.number, frame))
        else:
            self.step()
            y.replica.on_frame(frame)
        self.note_frames(y)

    def step(self, event: Frame | Input | Turn | Pass | None = None) -> None:
        """Counts a step, and lets it happen where it is an event."""
        if self.steps == MOST_STEPS:
            raise Limit(MOST_STEPS)
        self.steps += 1
        if event is None:
            return
        written = write_event(event)
        if len(self.file) + len(written) + 1 > MOST_BYTES:
            raise Limit(MOST_BYTES)
        self.file += written
        self.world.event(event)

    def note_frames(self, x: Player) -> None:
        """Frames that a player made now wait for those with which it is linked."""
        for to, number, _ in x.replica.made_now:
            if (x, to) in self.linked_by_number:
                self.unpassed[x, self.linked_by_number[x, to]].append(number)


def drive(plan: Plan) -> tuple[World, bytes]:
    """The world and the file of the schedule that a plan means."""
    it = Drive(plan)
    it.run()
    return it.world, bytes(it.file)

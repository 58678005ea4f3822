"""Commands that are handed in at all nodes, so that f + 1 correct ones have each, and what each node replied."""
import select
import time

from clients import Command, Desk, check

MOST_WAITING = 24
POSITION, WINDOW_FULL = 1, 7
PAUSE = 0.1


def listed(commands: list) -> str:
    """The clients and requests of the first of these commands."""
    return " ".join(f"{one.client}.{one.request}" for one in commands[:8]) + (" .." if commands[8:] else "")


class Counter(Desk):
    """A client's connection with one node. What the node has no room for yet is handed in again."""

    def __init__(self, port: int):
        super().__init__(port)
        self.positions, self.rests_until, self.refused = {}, 0, 0
        # Whether it has no connection, as its node isn't there.
        self.is_away = False

    def hand_in(self) -> None:
        if time.monotonic() < self.rests_until:
            return
        while self.ahead and len(self.waiting) < MOST_WAITING:
            one = self.ahead.popleft()
            self.waiting[one[:2]] = one
            self.link.send(one.client.to_bytes(4, "big") + one.request.to_bytes(4, "big") + one.payload)

    def listen(self) -> bool:
        """Notes the positions that came, and says whether more may come."""
        goes_on = self.link.read()
        for form, client, request, number in self.replies():
            one = self.waiting.pop((client, request), None)
            check(one is not None, f"reply {form} to {client} {request}, which doesn't wait")
            if form == POSITION:
                told = self.positions.setdefault(one, number)
                check(told == number, f"{client} {request} was told {told}, and then {number}")
            else:
                check(number == WINDOW_FULL, f"refusal {number} of {client} {request}")
                self.ahead.append(one)
                self.refused, self.rests_until = self.refused + 1, time.monotonic() + PAUSE
        return goes_on


class Load:
    """A client at each of these nodes, all of which hand in the same commands."""

    DESK = Counter

    def __init__(self, ports: dict, is_moving, patience: float, quiet: float):
        self.desks = {me: self.DESK(port) for me, port in ports.items()}
        self.commands, self.is_moving, self.patience, self.quiet = [], is_moving, patience, quiet
        # Commands that no client hands in yet, for each node.
        self.later = {me: [] for me in ports}

    @staticmethod
    def payload(place: int) -> bytes:
        return b"x" * (place % 50)

    def add(self, count: int, nodes=None) -> list:
        """So many new commands, for each node; where some nodes are named, for these now and for the others later."""
        start = len(self.commands)
        added = [Command(1 + place % 5, place, self.payload(place)) for place in range(start, start + count)]
        self.commands += added
        for me, desk in self.desks.items():
            (desk.ahead if nodes is None or me in nodes else self.later[me]).extend(added)
        return added

    def hand_in_later(self) -> None:
        """What was kept for later is handed in now."""
        for me, desk in self.desks.items():
            desk.ahead.extend(self.later[me])
            self.later[me].clear()

    def leave_out(self, me: int) -> None:
        """A node is gone for good, and its client with it."""
        self.desks.pop(me).link.socket.close()

    def step(self) -> None:
        for desk in self.desks.values():
            desk.hand_in()
        links = {desk.link.socket: me for me, desk in self.desks.items() if not desk.is_away}
        for one in select.select(list(links), [], [], 0.02)[0]:
            check(self.desks[links[one]].listen(), f"node {links[one]} closed the connection of a client")

    def steps(self, is_done):
        """Goes on until this is done. Tells after each step for how long it has gone on, and for how long nothing has moved."""
        since = moved = time.monotonic()
        seen = None
        while not is_done():
            self.step()
            now, at = time.monotonic(), (self.is_moving(), sum(len(desk.positions) for desk in self.desks.values()))
            if at != seen:
                seen, moved = at, now
            yield now - since, now - moved

    def serve_until(self, is_done, lacking) -> float:
        """Goes on until this is done, and answers how long it took. Fails, with what lacks, where it takes too long or nothing moves any more."""
        took = 0
        for took, still in self.steps(is_done):
            check(took < self.patience, f"{lacking()} after {self.patience:g} s")
            check(still < self.quiet, f"{lacking()}; nothing moved for {self.quiet:g} s")
        return took

    def serve_while_moving(self, is_done, quiet: float) -> None:
        """Goes on until this is done, or nothing has moved for so long."""
        for took, still in self.steps(is_done):
            if still > quiet or took > self.patience:
                break

    def drip(self, count: int, nodes, enough: int, width: int = 2) -> None:
        """So many commands, of which no more than this wait at a time. One doesn't wait any more once so many of these nodes have confirmed it."""
        waiting, left = [], count

        def goes_on() -> bool:
            nonlocal left
            waiting[:] = [one for one in waiting if sum(one in self.desks[me].positions for me in nodes) < enough]
            while left and len(waiting) < width:
                waiting.extend(self.add(1))
                left -= 1
            return not waiting

        self.serve_until(goes_on, lambda: f"while it lasted {self.lacks(self.commands)}")

    def press(self, seconds: float, nodes: list, enough: int, width: int, most: float = 1e6) -> None:
        """For so long no more than so many commands wait at these nodes at a time, and no more than `most` a second are handed in there.

        One doesn't wait any more once so many of these nodes have confirmed it.
        """
        since, count, waiting = time.monotonic(), 0, []

        def is_over() -> bool:
            nonlocal count
            waiting[:] = [one for one in waiting if sum(one in self.desks[me].positions for me in nodes) < enough]
            due = min(width - len(waiting), int((time.monotonic() - since) * most) + 1 - count)
            if due > 0:
                waiting.extend(self.add(due, nodes))
                count += due
            return time.monotonic() > since + seconds

        self.serve_until(is_over, lambda: f"while it lasted {listed(waiting)} weren't confirmed")

    def missing(self, me: int, commands: list) -> list:
        """Those of these commands that a node hasn't confirmed."""
        return [one for one in commands if one not in self.desks[me].positions]

    def lacks(self, commands: list) -> str:
        """What each node hasn't confirmed, as a text."""
        missing = {me: self.missing(me, commands) for me in self.desks}
        return "; ".join(f"node {me} lacks {len(some)} of {len(commands)} commands: {listed(some)}" for me, some in missing.items() if some)

    def confirm_all(self, commands: list) -> float:
        """Goes on until each node has confirmed these commands."""
        return self.serve_until(lambda: not self.lacks(commands), lambda: self.lacks(commands))

    def leave(self) -> None:
        for desk in self.desks.values():
            desk.link.socket.close()

"""Clients that hand in commands at nodes, several at a time, and note the positions that they are told."""
import collections
import select

import peers
import serving

OUTSTANDING = 8
Command = collections.namedtuple("Command", "client request payload")


def check(is_right: bool, wrong: str) -> None:
    if not is_right:
        raise AssertionError(wrong)


def command_of(row: list) -> Command:
    """The command of a row of a report."""
    return Command(int(row[2]), int(row[3]), b"" if row[4] == "-" else bytes.fromhex(row[4]))


class Desk:
    """A client's connection with one node, and the commands that go by it."""

    def __init__(self, port: int):
        self.link = peers.Pieces(port)
        self.ahead, self.waiting, self.most = collections.deque(), {}, OUTSTANDING

    def hand_in(self) -> None:
        while self.ahead and len(self.waiting) < self.most:
            one = self.ahead.popleft()
            self.waiting[one[:2]] = one
            self.link.send(one.client.to_bytes(4, "big") + one.request.to_bytes(4, "big") + one.payload)

    def replies(self) -> list:
        """Each as its form, client, request and number."""
        texts = self.link.take()
        check(all(len(text) == 13 for text in texts), "a reply hasn't 13 bytes")
        return [(text[0], *(int.from_bytes(text[at : at + 4], "big") for at in (1, 5, 9))) for text in texts]

    def listen(self, positions: dict) -> bool:
        """Notes the positions that came, which are those that other nodes gave, and says whether more may come."""
        goes_on = self.link.read()
        for form, client, request, position in self.replies():
            check(form == 1 and (client, request) in self.waiting, f"reply {form} to {client} {request}")
            one = self.waiting.pop((client, request))
            check(positions.setdefault(one, position) == position, f"two positions of {client} {request}")
        return goes_on


class Office:
    """Clients that hand in each command at so many nodes, f + 1 of them, since fewer give it no row. What a node that ended left goes to another one."""

    def __init__(self, ports: list, commands: list, copies: int):
        self.desks = [Desk(port) for port in ports]
        self.positions, self.places = {}, {}
        self.wanted = len(commands)
        for place, one in enumerate(commands):
            self.places[one] = {(place + turn) % len(ports) for turn in range(copies)}
            for number in self.places[one]:
                self.desks[number].ahead.append(one)
        self.numbers = dict(zip(self.desks, range(len(ports))))

    def close(self, desk: Desk) -> None:
        """What goes to another node goes there at once: a command that is handed in elsewhere may wait for it."""
        desk.link.socket.close()
        self.desks.remove(desk)
        for one in (*desk.waiting.values(), *desk.ahead):
            others = [other for other in self.desks if self.numbers[other] not in self.places[one]]
            check(bool(others), "no node is left")
            others[0].ahead.appendleft(one)
            others[0].most += 1
            self.places[one].add(self.numbers[others[0]])

    def hand_in(self) -> None:
        for desk in list(self.desks):
            try:
                desk.hand_in()
            except ConnectionError:
                self.close(desk)
                return self.hand_in()

    def step(self) -> None:
        self.hand_in()
        links = {desk.link.socket: desk for desk in self.desks}
        ready = select.select(list(links), [], [], serving.PATIENCE)[0]
        check(bool(ready), f"no reply in {serving.PATIENCE} s, after {len(self.positions)} of {self.wanted}")
        for desk in [links[one] for one in ready]:
            if not desk.listen(self.positions):
                self.close(desk)

    def serve_until(self, count: int) -> None:
        """Goes on until so many commands have their position."""
        while len(self.positions) < count:
            self.step()

    def leave(self) -> None:
        for desk in self.desks:
            desk.link.socket.close()

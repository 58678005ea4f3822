"""A faulty replica with true keys that shows two faces: what it says at a slot depends on who hears it."""
import select
import struct
import threading

from peers import CLASS_AT, ECHO, INIT, KIND_AT, ORIGIN_AT, PAYLOAD_AT, READY, Pieces, body_of, command_body, seal, vote

SEND = 4
COMMAND, VECT, VOTE = 1, 4, 5
NUMBER_AT = 2
# Its numbers of frames begin here, and its commands are those of a client that nobody else is.
FIRST_NUMBER, CLIENT = 1_000_000, 99


def other_face(body: bytes) -> bytes:
    """Another body for the same slot: another command, the other bit, or a VECT of none. Where there is none that is an item, the same."""
    head, payload = body[:PAYLOAD_AT], body[PAYLOAD_AT:]
    if body[CLASS_AT] == COMMAND:
        return body + b"other"
    if body[CLASS_AT] == VOTE:
        return head + (b"\x00" if payload == b"\x01" else b"\x01")
    return head if body[CLASS_AT] == VECT else body


class Deceiver(threading.Thread):
    """The last replica of a session, which repeats what it hears as its own: to the first of these others as it is, to the rest with another face.

    It votes for what it hears towards the first one alone. It acknowledges nothing, and sends nothing again.
    """

    def __init__(self, session, ports: dict):
        super().__init__(daemon=True)
        self.me, self.version = session.n - 1, session.version
        self.row = bytes.fromhex(session.rows[self.me])
        self.links = {to: Pieces(port, bytes([self.me])) for to, port in ports.items()}
        self.first, self.number, self.said = min(ports), FIRST_NUMBER, set()
        self.goes, self.fault = True, None

    def say(self, to: int, body: bytes) -> None:
        """Each kind once at a slot."""
        if (to, body[:PAYLOAD_AT]) in self.said:
            return
        self.said.add((to, body[:PAYLOAD_AT]))
        self.links[to].send(seal(self.row[32 * to : 32 * to + 32], self.me, to, self.number, body, self.version))
        self.number += 1

    def own(self, body: bytes) -> bytes:
        """What it says itself where another replica says this."""
        if body[CLASS_AT] == COMMAND:
            [number] = struct.unpack(">I", body[NUMBER_AT : NUMBER_AT + 4])
            return command_body(self.me, number, CLIENT, number, b"")
        return body[:ORIGIN_AT] + bytes([self.me]) + body[PAYLOAD_AT:]

    def answer(self, body: bytes) -> None:
        if body[KIND_AT] in (INIT, SEND):
            own = self.own(body)
            for to in self.links:
                self.say(to, own if to == self.first else other_face(own))
        if body[KIND_AT] == INIT:
            for kind in (ECHO, READY):
                self.say(self.first, vote(kind, body, self.version))

    def work(self) -> None:
        sockets = {link.socket: link for link in self.links.values()}
        while self.goes:
            for one in select.select(list(sockets), [], [], 0.05)[0]:
                link = sockets[one]
                if not link.read():
                    raise RuntimeError("a node closed its connection")
                for frame in link.take():
                    if frame[:1] == bytes([self.version]):
                        self.answer(body_of(frame))

    def run(self) -> None:
        try:
            self.work()
        except Exception as fault:  # told by whoever joins
            self.fault = fault

    def leave(self) -> None:
        self.goes = False
        self.join()
        for link in self.links.values():
            link.socket.close()
        if self.fault is not None:
            raise RuntimeError(f"the replica with two faces failed: {self.fault!r}")

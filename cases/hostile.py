"""A faulty replica and clients that send what no correct one sends, and crowds at a node's doors."""
import os
import random
import socket
import struct
import threading
import time

import serving
from limits import LEAST_REQUEST, LONGEST_FRAME, LONGEST_INPUT
from peers import HEAD_BYTES, TAG_BYTES, Pieces, command_body, connect, pair_key, piece, seal

CROWD = 100
MOST_ROUNDS = 20


class Liar:
    """A faulty replica, the last of a session, that sends each other one what no correct replica sends."""

    def __init__(self, session: serving.Session):
        self.session, self.me = session, session.n - 1
        self.row = bytes.fromhex(session.rows[self.me])
        self.heard = []

    def key(self, other: int) -> bytes:
        return self.row[32 * other : 32 * other + 32]

    def foreign(self, to: int) -> list:
        """Frames of the right form: of another session, as from another replica, and for another one."""
        key = pair_key(bytes.fromhex(self.session.master), self.session.number ^ 1, self.me, to)
        body = command_body(self.me, 0, 99, 0, b"foreign")
        other = (to + 1) % self.me
        return [seal(key, self.me, to, 0, body), seal(self.key(to), other, to, 0, body), seal(self.key(to), self.me, other, 0, body)]

    def repeated(self, to: int) -> list:
        """Its own command, again and again, and another command in its place."""
        one, other = (command_body(self.me, 0, 98, 0, text) for text in (b"one", b"other"))
        return [seal(self.key(to), self.me, to, 0, one)] * 20 + [seal(self.key(to), self.me, to, 1, other)] * 20

    def bodies(self, to: int) -> list:
        """Sealed frames that spell no item, or one of a slot that isn't open."""
        far = command_body(self.me, 999_999, 97, 0, b"far")
        texts = [b"", b"\xff", far, far[:-4], random.randbytes(40), random.randbytes(LONGEST_FRAME - HEAD_BYTES - TAG_BYTES)]
        return [seal(self.key(to), self.me, to, 2, text) for text in texts]

    def lie(self, to: int) -> None:
        """Connects as itself, and sends frames of all these kinds, those that it heard from anyone, and noise."""
        link = Pieces(self.session.peers[to], bytes([self.me]))
        with link.socket:
            link.send(*self.foreign(to), *self.repeated(to), *self.bodies(to), *self.heard[-20:], b"", random.randbytes(LONGEST_FRAME))
            link.socket.shutdown(socket.SHUT_WR)
            while link.read():
                pass
        self.heard += link.take()

    def break_off(self, to: int) -> None:
        """Connections that end within a length or a frame, have too great a length, or begin with what is no number of a peer.

        None begins with the number of a correct replica: a node would take it for a newer connection of that one, and frames would be lost.
        """
        me = bytes([self.me])
        texts = [me + b"\x01", me + piece(bytes(100))[:50], me + struct.pack(">H", LONGEST_FRAME + 1) + bytes(LONGEST_FRAME + 1), me + b"\xff" * 70_000]
        texts += [bytes([first]) + random.randbytes(1 << 16) for first in (self.me, to, 0, self.session.n, 31, 255)]
        for text in texts:
            send_alone(self.session.peers[to], text)


def send_alone(port: int, text: bytes) -> None:
    """A connection of its own for this text. The other side may close it at any time."""
    try:
        with connect(port, text):
            pass
    except OSError:
        pass


def crowd(port: int, count: int, first: bytes) -> list:
    """So many connections at once, each of which has sent no more than this."""
    return [connect(port, first) for _ in range(count)]


def garbage() -> list:
    """Messages of a client that are no requests."""
    return [os.urandom(size) for size in (0, 1, LEAST_REQUEST - 1, LONGEST_INPUT + 1)]


class Crowds(threading.Thread):
    """A hostile replica and hostile clients, until they are told to go."""

    def __init__(self, session: serving.Session):
        super().__init__()
        self.liar = Liar(session)
        self.doors, self.clients = session.peers[: session.n - 1], session.clients[: session.n - 1]
        self.goes = threading.Event()
        self.rounds, self.fault = 0, None

    def half_open(self) -> list:
        """Connections that say nothing, or the half of a length, or the half of a frame or a message."""
        me = bytes([self.liar.me])
        replicas = [one for port in self.doors for text in (b"", me + b"\x00") for one in crowd(port, CROWD // 2, text)]
        clients = [one for port in self.clients for text in (b"\x00", b"\x01\x00half") for one in crowd(port, CROWD // 4, text)]
        return replicas + clients

    def flood(self) -> None:
        """As many connections with each node at once, full of messages that are no requests."""
        text = b"".join(map(piece, garbage()))
        for one in [one for port in self.clients for one in crowd(port, CROWD // 2, text)]:
            one.close()

    def work(self) -> None:
        there = self.half_open()
        while not self.goes.is_set() and self.rounds < MOST_ROUNDS:
            for to in range(len(self.doors)):
                self.liar.lie(to)
                self.liar.break_off(to)
            self.flood()
            self.rounds += 1
        self.goes.wait()
        for one in there:
            one.close()

    def run(self) -> None:
        try:
            self.work()
        except Exception as fault:  # told by whoever joins
            self.fault = fault

    def await_round(self) -> None:
        """Waits until the next round is over."""
        wanted = min(self.rounds + 1, MOST_ROUNDS)
        while self.rounds < wanted and self.is_alive():
            time.sleep(0.01)

    def leave(self) -> None:
        self.goes.set()
        self.join()
        if self.fault is not None:
            raise RuntimeError(f"the hostile peer failed: {self.fault!r}")

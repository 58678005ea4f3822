"""What tests play: nodes that keep a log among them, honest ones and such as lie, and a proxy that has a node's client hear lies.

Nodes that are played take clients at ports of this machine and speak the messages of real ones. A log that they share stands in for their protocol.
"""
from __future__ import annotations

import socket
import struct
import threading
from collections.abc import Callable, Iterator

from ritas_client import LAST, MOST_PIECE, MOST_ROWS, PIECE, POSITION, QUERY, REFUSAL, REPLY_BYTES, Row

HOST = "127.0.0.1"
NO_REQUEST = struct.pack(">BIII", REFUSAL, 0, 0, 8)
# Where the fields of a row of a piece are, from the row's first byte.
REQUEST_AT, LENGTH_AT, PAYLOAD_AT = 9, 13, 15


def framed(message: bytes) -> bytes:
    return struct.pack(">H", len(message)) + message


def read_exactly(link: socket.socket, size: int) -> bytes:
    """So many bytes, or fewer at the end."""
    text = b""
    while len(text) < size and (more := link.recv(size - len(text))):
        text += more
    return text


def messages_of(link: socket.socket) -> Iterator[bytes]:
    """The messages that come by a connection, until it ends."""
    try:
        while len(front := read_exactly(link, 2)) == 2:
            size = struct.unpack(">H", front)[0]
            message = read_exactly(link, size)
            if len(message) < size:
                return
            yield message
    except OSError:
        return


def row_bytes(row: Row) -> bytes:
    return struct.pack(">BIIIH", row.origin, row.number, row.client, row.request, len(row.payload)) + row.payload


def piece_bytes(position: int, rows: list[Row]) -> bytes:
    return struct.pack(">BIB", PIECE, position, len(rows)) + b"".join(map(row_bytes, rows))


def piece_of(log: list[Row], position: int) -> bytes:
    """The piece of a log from this position on: at most 8 rows, and no more than it has room for."""
    rows = log[position : position + MOST_ROWS]
    while len(text := piece_bytes(position, rows)) > MOST_PIECE:
        rows = rows[:-1]
    return text


def reply_bytes(row: Row) -> bytes:
    return struct.pack(">BIII", POSITION, row.client, row.request, row.position)


class Session:
    """The log that played nodes share: a command has its row once f + 1 of them were handed the same one."""

    def __init__(self, f: int):
        self.f, self.lock = f, threading.RLock()
        self.rows: list[Row] = []
        self.places: dict[bytes, int] = {}
        self.handed: dict[bytes, set[int]] = {}
        self.nodes: list[Node] = []

    def row_of(self, message: bytes) -> Row | None:
        """The row of a request's client and number."""
        place = self.places.get(message[:8])
        return None if place is None else self.rows[place]

    def hand(self, node: int, message: bytes) -> Row | None:
        """Hands a request to a node, and answers its row if there is one now."""
        with self.lock:
            givers = self.handed.setdefault(message, set())
            givers.add(node)
            if len(givers) > self.f and self.row_of(message) is None:
                self.enter(node, message)
            return self.row_of(message)

    def enter(self, origin: int, message: bytes) -> None:
        place = self.places[message[:8]] = len(self.rows)
        client, request = struct.unpack(">II", message[:8])
        self.rows.append(Row(place, origin, place, client, request, message[8:]))

    def append(self, count: int, client: int = 9, payload: bytes = b"played") -> None:
        """Appends so many rows that no client handed in."""
        with self.lock:
            for place in range(len(self.rows), len(self.rows) + count):
                self.enter(0, struct.pack(">II", client, place) + payload)


class Node:
    """A node that is played, honestly: what a liar says is in classes that stand on it. It has its port from the beginning, also while it is down."""

    def __init__(self, session: Session):
        self.session, self.me = session, len(session.nodes)
        session.nodes.append(self)
        self.port = 0
        self.links: list[socket.socket] = []
        self.waiting: list[tuple[bytes, socket.socket]] = []
        # How many of the last rows it doesn't know of, how many connections it took, and how many queries came.
        self.behind = self.taken = self.queries = 0
        self.start()

    @property
    def place(self) -> str:
        return f"{HOST}:{self.port}"

    def start(self) -> None:
        """Takes clients: for the first time, or again."""
        self.listener = socket.create_server((HOST, self.port))
        self.port = self.listener.getsockname()[1]
        threading.Thread(target=self.accept, args=(self.listener,), daemon=True).start()

    def stop(self) -> None:
        """Ends its connections, and takes no more."""
        for link in [self.listener, *self.links]:
            end(link)
        self.links, self.waiting = [], []

    def accept(self, listener: socket.socket) -> None:
        while True:
            try:
                link, _ = listener.accept()
            except OSError:
                return
            self.taken += 1
            self.links.append(link)
            threading.Thread(target=self.serve, args=(link,), daemon=True).start()

    def serve(self, link: socket.socket) -> None:
        for message in messages_of(link):
            if not self.take(link, message):
                break
        end(link)

    def take(self, link: socket.socket, message: bytes) -> bool:
        """Takes a client's message, and says whether the connection goes on."""
        if len(message) == 5 and message[:1] == QUERY:
            self.queries += 1
            return self.query(link, int.from_bytes(message[1:], "big"))
        with self.session.lock:
            self.request(link, message)
        return True

    def query(self, link: socket.socket, position: int) -> bool:
        return say(link, self.piece(position))

    def request(self, link: socket.socket, message: bytes) -> None:
        if len(message) < 8:
            say(link, NO_REQUEST)
            return
        self.waiting.append((message, link))
        self.session.hand(self.me, message)
        for node in self.session.nodes:
            node.tell()

    def tell(self) -> None:
        """Tells all that wait for a row that it knows of its position."""
        for message, link in list(self.waiting):
            row = self.session.row_of(message)
            if row is not None and row.position < len(self.log()):
                self.waiting.remove((message, link))
                say(link, self.reply(row))

    def log(self) -> list[Row]:
        return self.session.rows[: len(self.session.rows) - self.behind] if self.behind else self.session.rows

    def reply(self, row: Row) -> bytes:
        return reply_bytes(row)

    def piece(self, position: int) -> bytes:
        return piece_of(self.log(), position)


class Silent(Node):
    """Takes all, and says nothing."""

    def take(self, link: socket.socket, message: bytes) -> bool:
        return True


class Old(Node):
    """Knows of no queries, and refuses them."""

    def query(self, link: socket.socket, position: int) -> bool:
        return say(link, NO_REQUEST)


class Refusing(Node):
    """Refuses requests with this number, as often as is said."""

    number, times = 7, 1 << 30

    def request(self, link: socket.socket, message: bytes) -> None:
        if self.times:
            self.times -= 1
            say(link, struct.pack(">B8sI", REFUSAL, message[:8], self.number))
        else:
            super().request(link, message)


class LyingReplies(Node):
    """Replies at once, and the wrong position, and hands nothing on."""

    def request(self, link: socket.socket, message: bytes) -> None:
        say(link, struct.pack(">B8sI", POSITION, message[:8], 77))


class LyingPieces(Node):
    """Gives other rows than there are, and rows that nobody has beyond the end."""

    def piece(self, position: int) -> bytes:
        return lie(super().piece(position))


class Changing(Node):
    """Gives each row anew by each connection, and ends that."""

    def query(self, link: socket.socket, position: int) -> bool:
        rows = [row._replace(payload=b"%d" % self.taken) for row in self.log()[position : position + MOST_ROWS]]
        say(link, piece_bytes(position, rows))
        return False


class Malformed(Node):
    """Gives what is no piece, in turns. What it gives before the fault is true."""

    def wrongs(self, position: int) -> list[bytes]:
        rows = self.log()[position : position + MOST_ROWS]
        whole, row = piece_bytes(position, rows), Row(position, 0, 0, 1, 1, b"x")
        long = [row._replace(payload=b"x" * 4088)] * 4
        return [b"", b"\x03", whole[:-1], whole + b"\0", b"\x04" + whole[1:], whole[:5] + b"\x09" + whole[6:], whole[:5] + b"\xff" + whole[6:],
                piece_bytes(position + 1, rows), piece_bytes(LAST, [row]), piece_bytes(position, [row._replace(origin=255)]),
                piece_bytes(position, [row._replace(number=1_000_000)]), piece_bytes(position, [row._replace(payload=b"x" * 4089)]),
                piece_bytes(position, long), bytes(65535), reply_bytes(row), NO_REQUEST[:-1]]

    def piece(self, position: int) -> bytes:
        wrongs = self.wrongs(position)
        return wrongs[self.queries % len(wrongs)]


class Flooding(Node):
    """Answers each query a thousand times."""

    def query(self, link: socket.socket, position: int) -> bool:
        return all(say(link, self.piece(position)) for _ in range(1000))


def end(link: socket.socket) -> None:
    try:
        link.shutdown(socket.SHUT_RDWR)
    except OSError:
        pass
    link.close()


def say(link: socket.socket, message: bytes) -> bool:
    """Sends a message, and says whether the connection goes on."""
    try:
        link.sendall(framed(message))
    except OSError:
        return False
    return True


def lie(message: bytes) -> bytes:
    """What a liar says in place of a node's message: another position, rows of other requests, and a row in an empty piece."""
    if len(message) == REPLY_BYTES and message[0] == POSITION:
        return message[:-1] + bytes([message[-1] ^ 1])
    if message[:1] != bytes([PIECE]):
        return message
    if message[5] == 0:
        return message[:5] + b"\x01" + row_bytes(Row(0, 0, 0, 7, 7, b"made up"))
    text, at = bytearray(message), 6
    while at < len(text):
        text[at + REQUEST_AT] ^= 1
        at += PAYLOAD_AT + int.from_bytes(text[at + LENGTH_AT : at + PAYLOAD_AT], "big")
    return bytes(text)


class Proxy:
    """A port that stands for a node's port for clients, and has them hear what `rewrite` makes of the node's messages. `heard` counts these."""

    def __init__(self, port: int, rewrite: Callable[[bytes], bytes] = lie):
        self.target, self.rewrite, self.heard = port, rewrite, 0
        self.listener = socket.create_server((HOST, 0))
        self.port: int = self.listener.getsockname()[1]
        threading.Thread(target=self.accept, daemon=True).start()

    @property
    def place(self) -> str:
        return f"{HOST}:{self.port}"

    def accept(self) -> None:
        while True:
            try:
                near, _ = self.listener.accept()
            except OSError:
                return
            threading.Thread(target=self.serve, args=(near,), daemon=True).start()

    def serve(self, near: socket.socket) -> None:
        try:
            far = socket.create_connection((HOST, self.target))
        except OSError:
            end(near)
            return
        for link in (near, far):
            link.setsockopt(socket.IPPROTO_TCP, socket.TCP_NODELAY, 1)
        threading.Thread(target=self.pass_on, args=(near, far, bytes), daemon=True).start()
        self.pass_on(far, near, self.tell)

    def tell(self, message: bytes) -> bytes:
        self.heard += 1
        return self.rewrite(message)

    def pass_on(self, giver: socket.socket, taker: socket.socket, change: Callable[[bytes], bytes]) -> None:
        for message in messages_of(giver):
            if not say(taker, change(message)):
                break
        end(giver)
        end(taker)

    def close(self) -> None:
        end(self.listener)

"""A replica played by a script: keys, frames and links as docs/FORMATS.md has them."""
import hashlib
import hmac
import socket
import struct

import serving

INIT, ECHO, READY = 1, 2, 3
STEP = 5
TAG_BYTES, HEAD_BYTES = 32, 11
NOTE, ACK, AGAIN = 0x4E, 1, 2
NUMBER_AT = 3
KIND_AT, CLASS_AT, ORIGIN_AT, PAYLOAD_AT = 0, 1, 9, 10


def tag(key: bytes, text: bytes) -> bytes:
    return hmac.digest(key, text, "sha256")


def pair_key(master: bytes, session: int, i: int, j: int) -> bytes:
    return tag(master, b"\x4b" + struct.pack(">QBB", session, min(i, j), max(i, j)))


def seal(key: bytes, sender: int, receiver: int, number: int, body: bytes, version: int = 1) -> bytes:
    text = struct.pack(">BBBQ", version, sender, receiver, number) + body
    return text + tag(key, text)


def body_of(frame: bytes) -> bytes:
    return frame[HEAD_BYTES:-TAG_BYTES]


def number_of(frame: bytes) -> int:
    return int.from_bytes(frame[NUMBER_AT:HEAD_BYTES], "big")


def is_note(text: bytes) -> bool:
    """Whether a piece is no frame."""
    return text[:1] == bytes([NOTE])


def note(key: bytes, sender: int, receiver: int, form: int, number: int) -> bytes:
    text = struct.pack(">BBBBQ", NOTE, sender, receiver, form, number)
    return text + tag(key, text)


def acknowledgement(key: bytes, sender: int, receiver: int, number: int) -> bytes:
    """The note that the frame of this number was taken."""
    return note(key, sender, receiver, ACK, number)


def request_to_resend(key: bytes, sender: int, receiver: int, number: int = 0) -> bytes:
    """The note that asks for what isn't acknowledged, in version 3 from a number on. None has a number of its own, so one may be like another."""
    return note(key, sender, receiver, AGAIN, number)


def vote(kind: int, init: bytes, version: int = 1) -> bytes:
    """The body of an ECHO or READY of an INIT, with its value, or in version 2 with the digest of that. In version 3 a bit goes by its value."""
    value = init[PAYLOAD_AT:]
    has_digest = version == 2 or version == 3 and init[CLASS_AT] != STEP
    return bytes([kind]) + init[1:PAYLOAD_AT] + (hashlib.sha256(value).digest() if has_digest else value)


def command_body(origin: int, number: int, client: int, request: int, payload: bytes) -> bytes:
    """The INIT of a command."""
    return struct.pack(">BBIBBBBII", INIT, 1, number, 0, 0, 0, origin, client, request) + payload


def piece(text: bytes) -> bytes:
    return struct.pack(">H", len(text)) + text


def connect(port: int, first: bytes = b"") -> socket.socket:
    one = socket.create_connection((serving.HOST, port), timeout=serving.PATIENCE)
    one.setsockopt(socket.IPPROTO_TCP, socket.TCP_NODELAY, 1)
    one.sendall(first)
    return one


class Pieces:
    """A connection whose two sides write pieces."""

    def __init__(self, port: int, first: bytes = b""):
        self.socket, self.came = connect(port, first), b""

    def send(self, *texts: bytes) -> None:
        self.socket.sendall(b"".join(map(piece, texts)))

    def read(self) -> bool:
        """Reads once, and says whether more may come."""
        try:
            text = self.socket.recv(1 << 16)
        except ConnectionError:
            return False
        self.came += text
        return bool(text)

    def take(self) -> list:
        """The whole pieces of what came."""
        taken, at = [], 0
        while len(self.came) >= at + 2 and len(self.came) >= (end := at + 2 + int.from_bytes(self.came[at : at + 2], "big")):
            taken.append(self.came[at + 2 : end])
            at = end
        self.came = self.came[at:]
        return taken


class Mirror:
    """A replica of two, number 1, that acknowledges each frame, proposes what the other one proposes and votes for all that it hears of."""

    def __init__(self, session: serving.Session):
        self.key, self.version = bytes.fromhex(session.rows[1])[:32], session.version
        self.link = Pieces(session.peers[0], b"\x01")
        self.heard, self.number = [], 0

    def say(self, *bodies: bytes) -> None:
        for body in bodies:
            self.link.send(seal(self.key, 1, 0, self.number, body, self.version))
            self.number += 1

    def acknowledge(self, frame: bytes) -> None:
        self.link.send(acknowledgement(self.key, 1, 0, number_of(frame)))

    def answer(self, body: bytes) -> None:
        if body[KIND_AT] != INIT:
            return
        own = body[:ORIGIN_AT] + b"\x01" + body[PAYLOAD_AT:]
        self.say(own, *(vote(kind, each, self.version) for each in (body, own) for kind in (ECHO, READY)))

    def listen(self) -> bool:
        """Answers the frames that came, and says whether more may come."""
        goes_on = self.link.read()
        frames = [text for text in self.link.take() if not is_note(text)]
        self.heard += frames
        for frame in frames if goes_on else ():
            self.acknowledge(frame)
            self.answer(body_of(frame))
        return goes_on

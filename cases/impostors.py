"""Whoever takes a replica's place at the port of a node, and sends there what was recorded. It has no key."""
import socket
import time

import serving
from clients import check
from peers import Pieces, is_note

QUIET = 0.3


class Impostor:
    """A connection with a node under the number of a replica that isn't there. It acknowledges nothing by itself."""

    def __init__(self, port: int, number: int):
        self.link, self.came = Pieces(port, bytes([number])), []

    def __enter__(self):
        return self

    def __exit__(self, *_):
        self.link.socket.close()

    def send(self, *texts: bytes) -> None:
        self.link.send(*texts)

    def frames(self, count: int) -> list:
        """The next frames, so many. Fails where they don't come, or where more come than these."""
        until = time.monotonic() + serving.PATIENCE
        self.link.socket.settimeout(serving.PATIENCE)
        while len(self.came) < count and time.monotonic() < until:
            check(self.read(), "the node closed the connection")
        self.link.socket.settimeout(QUIET)
        try:
            while self.read():
                pass
        except socket.timeout:
            pass
        frames, self.came = self.came, []
        check(len(frames) == count, f"{len(frames)} frames come, and not {count}")
        return frames

    def read(self) -> bool:
        """Reads once, and says whether more may come."""
        goes_on = self.link.read()
        self.came += [text for text in self.link.take() if not is_note(text)]
        return goes_on

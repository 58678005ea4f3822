"""What a node answers at its doors, and that it connects again: played by a script that is its peer, replica 0 or 1 of two."""
import socket
import struct

import serving
from clients import check
from limits import LONGEST_FRAME
from peers import connect

QUIET = 0.5


def is_closed(one: socket.socket) -> bool:
    """Whether the other side closes it, with nothing said before."""
    try:
        return one.recv(1) == b""
    except ConnectionError:
        return True


def stays(one: socket.socket) -> bool:
    """Whether it is neither closed nor spoken to for a while."""
    one.settimeout(QUIET)
    try:
        one.recv(1)
    except socket.timeout:
        return True
    return False


def first_bytes(port: int, me: int, n: int) -> None:
    """A peer that connects has a greater number below n; any other first byte closes its connection."""
    for first in (*range(me + 1), n, 31, 255):
        with connect(port, bytes([first])) as one:
            check(is_closed(one), f"the first byte {first} is taken")
    with connect(port, bytes([me + 1])) as one:
        check(stays(one), "the first byte of a peer isn't taken")


def lengths(port: int, peer: int) -> None:
    """A length over that of the longest frame closes a connection."""
    for length, is_wrong in ((LONGEST_FRAME, False), (LONGEST_FRAME + 1, True)):
        with connect(port, bytes([peer]) + struct.pack(">H", length)) as one:
            check(is_closed(one) if is_wrong else stays(one), f"the length {length}")


def newer(port: int, peer: int) -> None:
    """A newer connection of a peer stands in place of the older one."""
    first = bytes([peer])
    with connect(port, first) as old:
        check(stays(old), "a connection doesn't stand")
        with connect(port, first) as new:
            check(is_closed(old), "the older connection stands")
            check(stays(new), "the newer connection doesn't stand")


def dials_again(listener: socket.socket, me: int) -> None:
    """The side that connects tells its number first, and connects again after a failure."""
    for _ in range(3):
        one, _ = listener.accept()
        with one:
            one.settimeout(serving.PATIENCE)
            check(one.recv(1) == bytes([me]), "another number was told")

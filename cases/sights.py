"""What nodes write for each other, as a proxy sees it: frames for the first time and again, and notes."""
from limits import LONGEST_FRAME
from peers import ACK, AGAIN, HEAD_BYTES, NOTE, TAG_BYTES, tag

NOTE_BYTES, NOTE_TAG_AT, SEQ_AT = 44, 12, 3


def seq_of(text: bytes) -> int:
    """The sequence number of a frame."""
    return int.from_bytes(text[SEQ_AT:HEAD_BYTES], "big")


class Sight:
    """What one node wrote for another one, over all its connections, in the order in which it came."""

    def __init__(self, pair: tuple, key: bytes, version: int):
        self.pair, self.key, self.version = pair, key, version
        self.firsts, self.by_number, self.unacknowledged, self.wrong = [], {}, set(), []
        self.resends = self.acks = self.agains = self.bytes = 0
        self.back = self

    def take(self, text: bytes) -> None:
        """A piece is a note, or a frame for the first time or again."""
        if text[:1] == bytes([NOTE]):
            self.take_note(text)
        elif HEAD_BYTES + TAG_BYTES <= len(text) <= LONGEST_FRAME:
            self.take_frame(text)
        else:
            self.wrong.append(f"a piece of {len(text)} bytes")

    def take_frame(self, text: bytes) -> None:
        seen = self.by_number.setdefault(seq_of(text), text)
        if seen is text:
            self.firsts.append(text)
            self.unacknowledged.add(seq_of(text))
        elif seen == text:
            self.resends += 1
        else:
            self.wrong.append(f"another frame of number {seq_of(text)}")

    def take_note(self, text: bytes) -> None:
        """A note is whole and its sender's, and acknowledges only what the other one wrote before. In version 3 it asks from such a number on."""
        form, number = text[SEQ_AT : SEQ_AT + 1], int.from_bytes(text[SEQ_AT + 1 : NOTE_TAG_AT], "big")
        is_whole = len(text) == NOTE_BYTES and text[:SEQ_AT] == bytes([NOTE, *self.pair]) and tag(self.key, text[:NOTE_TAG_AT]) == text[NOTE_TAG_AT:]
        if is_whole and form == bytes([ACK]) and number in self.back.by_number:
            self.acks += 1
            self.back.unacknowledged.discard(number)
        elif is_whole and form == bytes([AGAIN]) and (number in self.back.by_number if self.version == 3 else number == 0):
            self.agains += 1
        else:
            self.wrong.append(f"the note {text.hex()} is wrong")


class Sights(dict):
    """A `Sight` for each ordered pair of replicas of a session."""

    def __init__(self, session):
        pairs = [(i, j) for i in range(session.n) for j in range(session.n) if i != j]
        super().__init__({(i, j): Sight((i, j), bytes.fromhex(session.rows[i])[32 * j : 32 * j + 32], session.version) for i, j in pairs})
        for i, j in pairs:
            self[i, j].back = self[j, i]

    def total(self, name: str) -> int:
        return sum(getattr(sight, name) for sight in self.values())

    def frames(self) -> int:
        return sum(len(sight.firsts) + sight.resends for sight in self.values())

"""Nodes with journals that are killed and started again: clients that ask again, and whether a node's lives and its journal go together."""
import itertools

import serving
import verdicts
from clients import check
from loads import Counter, Load
from peers import KIND_AT, PAYLOAD_AT, Pieces, body_of

COLUMN, ENTRY = 6, 32
MADE, RECORDS_AT = 1, 52
# A group has at most so many rounds, and none joins one whose events have so many bytes: `MOST_ROUNDS` and `ENOUGH_BYTES` of `node_loop`.
MOST_ROUNDS, ENOUGH_BYTES = 256, 65_536
ASKED_AGAIN = 3


class Patient(Counter):
    """A client of a node that comes and goes. What waits when it goes is asked again once it is back, and some of what was confirmed before."""

    def __init__(self, port: int):
        super().__init__(port)
        self.port, self.is_there = port, True

    def go(self) -> None:
        """The node was killed: what it said before is heard, and then its connection is at its end."""
        self.is_there = False
        if self.is_away:
            return
        while self.listen():
            pass
        self.link.socket.close()
        self.is_away, self.rests_until = True, 0
        again = [*self.waiting.values(), *itertools.islice(reversed(self.positions), ASKED_AGAIN)]
        self.ahead.extendleft(one for one in again if one not in self.ahead)
        self.waiting.clear()

    def come(self) -> None:
        """The node was started again, and will take a connection."""
        self.is_there = True

    def hand_in(self) -> None:
        if self.is_away and self.is_there:
            try:
                self.link, self.is_away = Pieces(self.port), False
            except OSError:
                return
        if not self.is_away:
            super().hand_in()


class PatientLoad(Load):
    """A client at each node, all of which hand in the same commands, also to nodes that come and go."""

    DESK = Patient

    def waiting(self, enough: int) -> int:
        """How many commands fewer than so many of the nodes that are there have confirmed, or than all of these where they are fewer."""
        there = [desk for desk in self.desks.values() if desk.is_there]
        return sum(sum(one in desk.positions for desk in there) < min(enough, len(there)) for one in self.commands)

    def refill(self, enough: int, width: int) -> None:
        """So many commands are to wait at a time, while a node is there."""
        if any(desk.is_there for desk in self.desks.values()):
            self.add(max(0, width - self.waiting(enough)))


def kept_in(journal: bytes) -> tuple:
    """The offsets of the open gates of a journal, its events, and the offset of the closed gate."""
    gates, events, at = [], [], RECORDS_AT
    check(journal[:1] == bytes([MADE]), "the journal isn't made")
    while journal[at] == 1:
        end = at + 3 + int.from_bytes(journal[at + 1 : at + 3], "big")
        gates.append(at)
        events.append(journal[at + 3 : end])
        check(end < len(journal), f"the record at {at} isn't whole")
        at = end
    return gates, events, at


def is_front(one: list, other: list) -> bool:
    return other[: len(one)] == one


def are_fronts(one: dict, other: dict) -> bool:
    """Whether the frames for each receiver are a front of the other ones."""
    return all(is_front(frames, other.get(to, [])) for to, frames in one.items())


class Life:
    """What is left of one life of a node: its record, and the events of its journal before it began and after its end."""

    def __init__(self, me: int, text: bytes, before: list, after: list):
        self.me, self.text, self.before, self.after = me, text, before, after
        self.has_begun = serving.header_end(text) <= len(text)
        self.record = serving.completed(text) if self.has_begun else b""
        self.header = self.record[: serving.header_end(self.record)] if self.has_begun else b""
        self.events = serving.events_of(self.record) if self.has_begun else []
        self.lines = verdicts.lines_of(self.record, me) if self.has_begun else []

    def made(self) -> dict:
        return verdicts.by_receiver(self.lines)

    def surely_made(self) -> dict:
        """The frames that come of the events that the journal had after its end. No other frame of this life has gone out."""
        return verdicts.frames_of(b"".join([self.header, *self.after, serving.END_MARK]), self.me) if self.has_begun else {}

    def is_of_one_group(self, kept: dict) -> bool:
        """Whether the first event of which the journal has not all frames, and those behind it, may be one group: the record has it then, but the
        journal needn't, and nothing of it has gone out."""
        given = dict.fromkeys(self.made(), 0)
        for event, to, _ in self.lines:
            given[to] += 1
            if given[to] > len(kept.get(to, [])):
                group = self.events[event:]
                return len(group) <= MOST_ROUNDS and sum(map(len, group[:-1])) < ENOUGH_BYTES
        return True

    def wrong(self) -> list:
        """What is wrong between a record and the journal. A life that was short may have written a front of what it recovered, or nothing."""
        if not self.has_begun:
            return ["a life that wrote nothing has changed the journal"] if self.before != self.after else []
        wrong, recovered = [], min(len(self.before), len(self.events))
        if self.events[:recovered] != self.before[:recovered]:
            wrong.append("a record doesn't begin with the events of the journal")
        if not is_front(self.before, self.after):
            wrong.append("a journal has lost events")
        rest = iter(self.events[recovered:])
        if not all(event in rest for event in self.after[len(self.before) :]):
            wrong.append("a journal has an event that isn't in the record, or in another order")
        if recovered == len(self.before):
            kept = self.surely_made()
            if not are_fronts(kept, self.made()):
                wrong.append("what a journal kept makes other frames than what the record has")
            elif not self.is_of_one_group(kept):
                wrong.append("a record has more than one group of events that the journal hasn't")
        elif self.before != self.after:
            wrong.append("a journal has new events before the record has the old ones")
        return wrong


def of_lives(lives: list) -> list:
    """What is wrong between the lives of one node, the oldest first: the last one makes whatever an earlier one sent, and its log goes on from theirs."""
    last, wrong = lives[-1], []
    if not last.has_begun:
        return ["the last life wrote nothing"]
    whole = last.made()
    log = serving.rows_of(serving.report_of(last.record))
    for number, life in enumerate(lives):
        wrong += [f"life {number}: {text}" for text in life.wrong()]
        if not life.has_begun:
            continue
        if life.header != last.header:
            wrong.append(f"life {number}: another header than the last one's")
        if not are_fronts(life.surely_made(), whole):
            wrong.append(f"life {number} made other frames than the last one")
        if not serving.are_prefixes([serving.rows_of(serving.report_of(life.record)), log]):
            wrong.append(f"life {number} has another log than the last one")
    return wrong


def entries_of(column: bytes) -> dict:
    """The entries of a COLUMN's payload, by their echoers."""
    mask = int.from_bytes(column[:4], "big")
    echoers = [k for k in range(32) if mask >> k & 1]
    return {k: column[4 + ENTRY * place : 4 + ENTRY * (place + 1)] for place, k in enumerate(echoers)}


def grows(one: dict, other: dict) -> bool:
    """Whether one of two COLUMNs has all that the other has."""
    few, many = sorted((one, other), key=len)
    return all(many.get(k) == entry for k, entry in few.items())


def of_values(frames) -> list:
    """Of what a node said to one receiver in any life, two values of a kind at a slot. Of two COLUMNs one has the other's entries."""
    values = {}
    for body in map(body_of, frames):
        values.setdefault(body[:PAYLOAD_AT], set()).add(body[PAYLOAD_AT:])
    wrong = []
    for head, said in values.items():
        if head[KIND_AT] == COLUMN:
            columns = list(map(entries_of, said))
            is_wrong = not all(grows(one, other) for one, other in itertools.combinations(columns, 2))
        else:
            is_wrong = len(said) > 1
        if is_wrong:
            wrong.append(f"{len(said)} values of kind {head[KIND_AT]} at the slot {head[1:].hex()}")
    return wrong


def of_node(lives: list, sights: dict) -> list:
    """What is wrong with a node's lives, where these are what it wrote for others over all of them."""
    me = lives[-1].me
    wrong = of_lives(lives)
    for pair, sight in sights.items():
        if pair[0] == me:
            said = set(sight.by_number.values()).union(*(life.surely_made().get(pair[1], []) for life in lives))
            wrong += [f"to {pair[1]} {text}" for text in of_values(said)[:3]]
    return [f"node {me}: {text}" for text in wrong]

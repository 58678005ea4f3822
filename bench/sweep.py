"""A cluster of correct replicas of root service 6 or 7, whose inputs, turns and passed frames make a schedule in sweeps.

It follows the rules of docs/PROTOCOL.md on plain sets and lists, without tags: what a schedule says of a frame is its sender, its
receiver and its number. `Cluster.sweep` makes the events of sweeps until nothing is left, and `Replica.rows` are those of a replica's command log
then. `Cluster.lengths` are those of the texts that are tagged on the way: each frame where it is made and where it is opened, and the entries of
HASHES and of columns. In versions 2 and 3 it is right only where nobody misses an INIT, as in sweeps, since it knows no WANT.
"""
import hashlib
import hmac
import struct
from collections import Counter
from functools import lru_cache

INIT, ECHO, READY, SEND, HASHES, COLUMN = range(1, 7)
STEP = 5

# commands and rounds are numbered below the first; a list has so many identifiers; the window of commands, and of rounds behind and ahead
NUMBER_LIMIT, MOST_IDS = 1_000_000, 64
COMMAND_WINDOW, ROUNDS_KEPT, ROUNDS_AHEAD = 64, 2, 4


def slot_bytes(slot: tuple) -> bytes:
    kind, a, attempt, bround, step, origin = slot
    return bytes([kind]) + struct.pack(">I", a) + bytes([attempt, bround, step, origin])


@lru_cache(maxsize=None)
def values_after(n: int, f: int, step: int, counts: tuple) -> frozenset:
    """The values that some `n - f` of these votes (zeros, ones, unmarked) give at a step's end."""
    given = set()
    wait = n - f
    for zeros in range(min(counts[0], wait) + 1):
        for ones in range(min(counts[1], wait - zeros) + 1):
            if wait - zeros - ones <= counts[2]:
                given |= rule(n, f, step, (zeros, ones, wait - zeros - ones))
    return frozenset(given)


def rule(n: int, f: int, step: int, votes: tuple) -> set:
    zeros, ones, _ = votes
    if step == 1:
        return {1 if ones > zeros else 0}
    if step == 2:
        return {0} if 2 * zeros > n else {1} if 2 * ones > n else {2}
    return {0} if zeros >= f + 1 else {1} if ones >= f + 1 else {0, 1}


class Binary:
    """One instance of binary consensus."""

    def __init__(self, home, a, attempt):
        self.home, self.a, self.attempt = home, a, attempt
        self.heard_at, self.accepted = {}, {}
        self.at = None
        self.round = 0
        self.decided = None
        self.last = 200
        self.over = False

    def slot(self, bround, step, origin):
        return (5, self.a, self.attempt, bround, step, origin)

    def counts(self, place):
        votes = list(self.accepted.get(place, {}).values())
        return (votes.count(0), votes.count(1), votes.count(2))

    def say(self, place, value, says):
        self.at = place
        self.round = max(self.round, place[0])
        says.append((self.slot(*place, self.home.me), bytes([value])))

    def propose(self, bit, says):
        self.say((1, 1), bit, says)
        self.go(says)

    def heard(self, slot, value, says):
        self.heard_at.setdefault((slot[3], slot[4]), {})[slot[5]] = value[0]
        self.accept((slot[3], slot[4]))
        self.go(says)

    def accept(self, place):
        n, f = self.home.n, self.home.f
        while True:
            bround, step = place
            before = (bround, step - 1) if step > 1 else (bround - 1, 3)
            taken = self.accepted.setdefault(place, {})
            more = {k: v for k, v in self.heard_at.get(place, {}).items() if k not in taken
                    and (place == (1, 1) or v in values_after(n, f, before[1], self.counts(before)))}
            taken.update(more)
            if not more:
                return
            place = (bround, step + 1) if step < 3 else (bround + 1, 1)

    def go(self, says):
        n, f = self.home.n, self.home.f
        while self.at and len(self.accepted.get(self.at, {})) >= n - f:
            bround, step = self.at
            votes = self.counts(self.at)
            given = rule(n, f, step, votes)
            if step == 3:
                for bit in (0, 1):
                    if self.decided is None and votes[bit] >= 2 * f + 1:
                        self.decided, self.last = bit, min(bround + 1, 200)
                if bround == self.last:
                    self.over = self.decided is None
                    self.at = None
                    return
            value = given.pop() if len(given) == 1 else self.home.toss(self.slot(bround, 3, self.home.me))
            self.say((bround, step + 1) if step < 3 else (bround + 1, 1), value, says)


class Multi:
    """One instance of multi-valued consensus."""

    def __init__(self, home, a, attempt):
        self.home, self.a, self.attempt = home, a, attempt
        self.inits, self.vects = {}, {}
        self.proposed = self.told = self.asked = False
        self.binary = Binary(home, a, attempt)
        self.value = None

    def propose(self, value, says):
        self.proposed = True
        says.append(((3, self.a, self.attempt, 0, 0, self.home.me), value))
        self.go(says)

    def heard(self, slot, value, says):
        if slot[0] == 3:
            self.inits[slot[5]] = value
        elif slot[0] == 4:
            self.vects[slot[5]] = value
        else:
            self.binary.heard(slot, value, says)
        self.go(says)

    def valid(self):
        n, support, found = self.home.n, self.home.n - 2 * self.home.f, {}
        for k, vect in self.vects.items():
            if vect == b"":
                found[k] = None
                continue
            mask, value = struct.unpack(">I", vect[:4])[0], vect[4:]
            if sum(1 for j in range(n) if mask >> j & 1 and self.inits.get(j) == value) >= support:
                found[k] = value
        return found

    def go(self, says):
        n, f = self.home.n, self.home.f
        wait, support = n - f, n - 2 * f
        if self.proposed and not self.told and len(self.inits) >= wait:
            self.told = True
            common = sorted(v for v in set(self.inits.values()) if list(self.inits.values()).count(v) >= support)
            mask = sum(1 << k for k, v in self.inits.items() if common and v == common[0])
            vect = struct.pack(">I", mask) + common[0] if common else b""
            says.append(((4, self.a, self.attempt, 0, 0, self.home.me), vect))
        if self.told and self.value is None:
            found = list(self.valid().values())
            values = {v for v in found if v is not None}
            if not self.asked and len(found) >= wait:
                self.asked = True
                clear = len(values) == 1 and sum(1 for v in found if v is not None) >= support
                self.binary.propose(1 if clear else 0, says)
            supported = sorted(v for v in values if found.count(v) >= support)
            if supported and self.binary.decided == 1:
                self.value = supported[0]

    def decision(self):
        return (True, None) if self.binary.decided == 0 else (self.value is not None, self.value)

    def opens(self, slot):
        if slot[0] in (3, 4):
            return self.proposed
        return self.asked and slot[3] <= self.binary.round + 1


class Vector:
    """One instance of vector consensus."""

    def __init__(self, home, a):
        self.home, self.a = home, a
        self.proposals, self.tries = {}, []
        self.proposed = False

    def propose(self, value, says):
        self.proposed = True
        says.append(((2, self.a, 0, 0, 0, self.home.me), value))
        self.go(says)

    def heard(self, slot, value, says):
        if slot[0] == 2:
            self.proposals[slot[5]] = value
        else:
            self.tries[slot[2]].heard(slot, value, says)
        self.go(says)

    def go(self, says):
        n, f = self.home.n, self.home.f
        while self.proposed and len(self.tries) <= f and all(t.decision() == (True, None) for t in self.tries):
            if len(self.proposals) < n - f + len(self.tries):
                return
            vector = struct.pack(">I", sum(1 << k for k in self.proposals))
            for _, value in sorted(self.proposals.items()):
                vector += struct.pack(">H", len(value)) + value
            self.tries.append(Multi(self.home, self.a, len(self.tries)))
            self.tries[-1].propose(vector, says)

    def decision(self):
        return next((t.value for t in self.tries if t.decision()[1] is not None), None)

    def wanted(self):
        """What the round wants in the log, once it is decided."""
        vector, lists, at = self.decision(), [], 4
        if vector is None:
            return None
        while at < len(vector):
            length = struct.unpack(">H", vector[at:at + 2])[0]
            lists.append(vector[at + 2:at + 2 + length])
            at += 2 + length
        return in_enough(self.home.f, lists)

    def opens(self, slot):
        if slot[0] == 2:
            return self.proposed
        return slot[2] < len(self.tries) and self.tries[slot[2]].opens(slot)


class Lists:
    """A round of root service 7: lists of identifiers, and multi-valued consensus on those that f + 1 of them have."""

    def __init__(self, home, a):
        self.home, self.a = home, a
        self.lists, self.inner = {}, Multi(home, a, 0)
        self.proposed = False

    def propose(self, value, says):
        self.proposed = True
        says.append(((2, self.a, 0, 0, 0, self.home.me), value))
        self.go(says)

    def heard(self, slot, value, says):
        if slot[0] == 2:
            self.lists[slot[5]] = value
            self.go(says)
        else:
            self.inner.heard(slot, value, says)

    def go(self, says):
        if self.proposed and not self.inner.proposed and len(self.lists) >= self.home.n - self.home.f:
            self.inner.propose(text_of(in_enough(self.home.f, self.lists.values())[:MOST_IDS]), says)

    def wanted(self):
        is_decided, value = self.inner.decision()
        return sorted(identifiers(value or b"")) if is_decided else None

    def opens(self, slot):
        return self.proposed if slot[0] == 2 else self.inner.opens(slot)


def identifiers(text):
    return [(text[i], struct.unpack(">I", text[i + 1:i + 5])[0]) for i in range(0, len(text), 5)]


def text_of(ids):
    return b"".join(bytes([o]) + struct.pack(">I", k) for o, k in ids)


def in_enough(f, lists):
    """The identifiers that stand in f + 1 of these lists."""
    counts = Counter(x for text in lists for x in identifiers(text))
    return sorted(x for x, count in counts.items() if count >= f + 1)


class Atomic:
    """The service of root service 6, by vectors, and of root service 7, by lists."""

    def __init__(self, home, round_of):
        self.home, self.round_of = home, round_of
        self.number = 0
        self.commands, self.pending, self.log = {}, set(), []
        self.bases = [0] * home.n
        self.logged = set()
        self.completed = 0
        self.rounds = {}

    def input(self, value, says):
        says.append(((1, self.number, 0, 0, 0, self.home.me), value))
        self.number += 1

    def heard(self, slot, value, says):
        if slot[0] == 1:
            self.commands[slot[5], slot[1]] = value
            self.pending.add((slot[5], slot[1]))
        else:
            self.rounds[slot[1]].heard(slot, value, says)
        if slot[0] == 1 or slot[1] == self.completed:
            self.go(says)

    def go(self, says):
        now = self.rounds.get(self.completed)
        ids = now.wanted() if now else None
        if ids is not None:
            if all(x in self.commands for x in ids):
                for x in ids:
                    if x not in self.logged:
                        self.logged.add(x)
                        self.log.append(x)
                self.pending -= self.logged
                for o in range(self.home.n):
                    while (o, self.bases[o]) in self.logged:
                        self.bases[o] += 1
                self.completed += 1
                if self.home.has_past:
                    self.rounds.pop(self.completed - ROUNDS_KEPT - 1, None)
                now = None
        if now is None and self.pending and self.completed < NUMBER_LIMIT:
            share, taken = MOST_IDS // self.home.n, []
            for o in range(self.home.n):
                taken += sorted(x for x in self.pending if x[0] == o)[:share]
            self.rounds[self.completed] = self.round_of(self.home, self.completed)
            self.rounds[self.completed].propose(text_of(taken), says)

    def opens(self, slot):
        return slot[0] == 1 or slot[1] in self.rounds and self.rounds[slot[1]].opens(slot)

    def past(self, slot):
        if not self.home.has_past:
            return False
        return slot[1] + COMMAND_WINDOW < self.bases[slot[5]] if slot[0] == 1 else slot[1] + ROUNDS_KEPT < self.completed

    def ahead(self, slot):
        return slot[1] >= self.bases[slot[5]] + COMMAND_WINDOW if slot[0] == 1 else slot[1] > self.completed + ROUNDS_AHEAD


class Cast:
    """One broadcast: reliable, or by echo."""

    def __init__(self):
        self.first = {}
        self.votes = {}
        self.echoed = self.readied = self.delivered = None
        self.good = set()
        self.hashed = set()


class Replica:
    def __init__(self, n, f, me, echo, master=bytes(32), session=0, root=6, version=1):
        self.n, self.f, self.me, self.echo, self.has_past = n, f, me, echo, version < 3
        self.session = struct.pack(">Q", session)
        self.coin = hmac.digest(master, b"\x53" + self.session + bytes([me]), "sha256")
        self.service = Atomic(self, Lists if root == 7 else Vector)
        self.casts = {}
        self.inbox, self.held = [], [[] for _ in range(n)]
        self.made = [[] for _ in range(n)]
        self.entries = 0

    def toss(self, slot):
        return hmac.digest(self.coin, b"\x43" + self.session + slot_bytes(slot), "sha256")[0] & 1

    def input(self, value):
        says = []
        self.service.input(value, says)
        self.finish(says, [])

    def turn(self):
        self.take(self.inbox.pop(0))

    def rows(self):
        """The command log: a command gets its row at its (f + 1)st different origin, where no row has its client and request."""
        origins, rows = {}, {}
        for x in self.service.log:
            command = self.service.commands[x]
            origins.setdefault(command, set()).add(x[0])
            if len(origins[command]) > self.f:
                rows.setdefault(command[:8], (x, command))
        return list(rows.values())

    def ready(self, item):
        kind, slot, _, sender = item
        if not self.service.opens(slot):
            return False
        return kind != COLUMN or (SEND, sender) in self.casts.get(slot, Cast()).first

    def take(self, item):
        """What became of an item: `past`, `ahead`, `repeat`, `held` or `took`."""
        kind, slot, value, sender = item
        if self.service.past(slot):
            return "past"
        if self.service.ahead(slot):
            return "ahead"
        cast = self.casts.setdefault(slot, Cast())
        if kind != COLUMN and ((kind, sender) in cast.first or any(h[0] == kind and h[1] == slot for h in self.held[sender])):
            return "repeat"
        if kind == COLUMN and (value <= cast.good if self.ready(item) else item in self.held[sender]):
            return "repeat"
        if not self.ready(item):
            self.held[sender].append(item)
            return "held"
        out, says = [], []
        had = cast.delivered
        self.hear(cast, item, out)
        if had is None and cast.delivered is not None:
            self.service.heard(slot, cast.delivered, says)
        self.finish(says, out)
        return "took"

    def hear(self, cast, item, out):
        kind, slot, value, sender = item
        n, f, quorum = self.n, self.f, (self.n + self.f) // 2 + 1
        if kind != COLUMN:
            cast.first[kind, sender] = value
            cast.votes.setdefault((kind, value), set()).add(sender)
        votes = lambda k: len(cast.votes.get((k, value), ()))
        if kind == INIT and cast.echoed is None:
            cast.echoed = value
            out.append((slot, ECHO, -1, value))
        if kind in (ECHO, READY):
            if cast.readied is None and (votes(ECHO) >= quorum or votes(READY) >= f + 1):
                cast.readied = value
                out.append((slot, READY, -1, value))
            if cast.delivered is None and votes(READY) >= 2 * f + 1:
                cast.delivered = value
        if kind == SEND:
            self.entries += n
            out.append((slot, HASHES, sender, frozenset()))
        if kind == HASHES:
            cast.hashed.add(sender)
            if len(cast.hashed) >= n - f:
                out.extend((slot, COLUMN, k, frozenset(cast.hashed)) for k in range(n))
        if kind == COLUMN:
            self.entries += len(value - cast.good)
            cast.good |= value
            if len(cast.good) >= quorum and cast.delivered is None:
                cast.delivered = cast.first[SEND, sender]

    def finish(self, says, out):
        for slot, value in says:
            self.casts.setdefault(slot, Cast())
            out.append((slot, SEND if slot[0] == 4 and self.echo else INIT, -1, value))
        for slot, kind, to, value in sorted(out, key=lambda m: (slot_bytes(m[0]), m[1], m[2])):
            item = (kind, slot, value, self.me)
            for j in range(self.n) if to < 0 else [to]:
                (self.inbox if j == self.me else self.made[j]).append(item)
        for k in range(self.n):
            kept = []
            for item in self.held[k]:
                if self.service.past(item[1]):
                    continue
                (self.inbox if self.ready(item) else kept).append(item)
            self.held[k] = kept


class Cluster:
    """Replicas that are all correct, and the events so far, as the bytes of a schedule file."""

    def __init__(self, n, f, echo, root=6, version=1):
        self.n, self.f, self.version = n, f, version
        self.replicas = [Replica(n, f, i, echo, root=root, version=version) for i in range(n)]
        self.passed = [[0] * n for _ in range(n)]
        self.file = bytearray(
            b"RITS" + bytes([version]) + bytes(8) + bytes([n, f, root, 1 if echo else 2]) + struct.pack(">I", 2**n - 1) + b"\x00" + bytes(32))
        self.events = 0
        self.frames = {}

    def input(self, at, value):
        self.file += b"\x02" + bytes([at]) + struct.pack(">H", len(value)) + value
        self.events += 1
        self.replicas[at].input(value)

    def command(self, at, client, request, payload):
        self.input(at, struct.pack(">II", client, request) + payload)

    def turn(self, at):
        self.file += b"\x03" + bytes([at])
        self.events += 1
        self.replicas[at].turn()

    def hand(self, sender, to, m):
        """Passes a frame, also one that was passed before."""
        self.file += b"\x04" + bytes([sender, to]) + struct.pack(">I", m)
        self.events += 1
        item = self.replicas[sender].made[to][m]
        length = 21 + self.payload(*item[:3])
        self.frames[length] = self.frames.get(length, 0) + 1
        return self.replicas[to].take(item)

    def payload(self, kind, slot, value):
        """How many bytes a message has behind its slot."""
        if kind in (HASHES, COLUMN):
            return 32 * self.n if kind == HASHES else 4 + 32 * len(value)
        has_digest = self.version == 2 or self.version == 3 and slot[0] != STEP
        return 32 if has_digest and kind in (ECHO, READY) else len(value)

    def lengths(self):
        """How many texts of each length are tagged."""
        texts = {length: 2 * count for length, count in self.frames.items()}
        texts[52] = texts.get(52, 0) + sum(r.entries for r in self.replicas)
        return texts

    def sweep(self, times=1):
        """Sweeps until nothing is left: turns and frames of before each sweep, each frame so many times in a row."""
        while True:
            turns = [len(r.inbox) for r in self.replicas]
            frames = [[len(self.replicas[x].made[y]) for y in range(self.n)] for x in range(self.n)]
            before = self.events
            for y in range(self.n):
                for _ in range(turns[y]):
                    self.turn(y)
                for x in range(self.n):
                    for m in range(self.passed[x][y], frames[x][y]):
                        for _ in range(times):
                            self.hand(x, y, m)
                    self.passed[x][y] = frames[x][y]
            if self.events == before:
                return

    def bytes(self):
        return bytes(self.file) + b"\x00"


def cluster_events(n: int, f: int, echo: bool, root: int = 6, version: int = 1):
    """A cluster of this root service that is given one command."""
    cluster = Cluster(n, f, echo, root, version)
    cluster.command(0, 0, 0, b"")
    cluster.sweep()
    texts = [(1, bytes(length)) for length, count in cluster.lengths().items() for _ in range(count)]
    return cluster.bytes(), texts

"""Small cases of a node's journal: what it has, whose it is, what is damaged, and where it ends. Most are of one replica alone, whose command is in
the log after some turns."""
import fcntl
import hashlib
import os
import resource
import stat
import struct
import subprocess
import tempfile

import serving
from clients import check
from lives import MADE, RECORDS_AT, kept_in
from peers import Pieces

LIMIT = 1 << 26
TOO_LONG = b"limit 67108864\n"
# Offsets in the file.
SESSION_END, VECT_AT, VERSION_AT, ME_AT, DIGEST_AT = 14, 17, 18, 19, 20
FRAME, INPUT, TURN = 1, 2, 3
LONGEST = 65000
# A command takes some 170 bytes in the journal of a replica alone, and some 80 in the record: so there is room for some.
COMMANDS, MOST_COMMANDS, ROOM, SMALL_FILE = 2, 20, 600, 470


class Plain(serving.Node):
    """A node with this configuration in this working folder, where its journal is. It may write files of so many bytes; a write
    beyond that fails, since SIGXFSZ is ignored."""

    OPTIONS = {"restore_signals": False}

    def __init__(self, home: str, session: serving.Session, text: bytes, most: int = resource.RLIM_INFINITY):
        self.me, self.folder, self.home, self.paths = 0, tempfile.mkdtemp(dir=os.path.dirname(home)), home, []
        self.conf = os.path.join(self.folder, "node.conf")
        with serving.open_private(self.conf) as file:
            file.write(text)
        before = resource.getrlimit(resource.RLIMIT_FSIZE)
        resource.setrlimit(resource.RLIMIT_FSIZE, (most, before[1]))
        try:
            self.start()
        finally:
            resource.setrlimit(resource.RLIMIT_FSIZE, before)


class Watched(Plain):
    """One with these words in its environment."""

    def __init__(self, home: str, session: serving.Session, text: bytes, environment: dict):
        self.OPTIONS = {**Plain.OPTIONS, "env": environment}
        super().__init__(home, session, text)


def head_of(session: serving.Session, me: int) -> bytes:
    """The head of a journal, as docs/FORMATS.md has it."""
    place = session.n, session.f, 6, ("echo", "reliable").index(session.vect) + 1, session.version, me
    digest = hashlib.sha256(bytes.fromhex(session.rows[me] + session.coins[me])).digest()
    return struct.pack(">4sBQ6B", b"RITJ", 1, session.number, *place) + digest


def place_of(one: bytes, other: bytes) -> int:
    """The offset in the file at which two heads differ first."""
    return 1 + next(at for at, (a, b) in enumerate(zip(one, other)) if a != b)


def ask(session: serving.Session, request: int, me: int = 0) -> int:
    """Hands a command in at one node, and answers the position that it tells."""
    link = Pieces(session.clients[me])
    link.send(struct.pack(">II", 7, request) + b"hi")
    while not (texts := link.take()):
        check(link.read(), "the node closed the connection of a client")
    link.socket.close()
    form, client, number, position = struct.unpack(">BIII", texts[0])
    check((form, client, number) == (1, 7, request), f"the reply {texts[0].hex()}")
    return position


def read(path: str) -> bytes:
    with open(path, "rb") as file:
        return file.read()


def write_journal(home: str, text: bytes) -> str:
    path = os.path.join(home, serving.JOURNAL)
    with open(path, "wb") as file:
        file.write(text)
    return path


def some_journal(folder: str) -> tuple:
    """A session of one replica, its record up to its end, and its journal, with some commands in it."""
    session = serving.Session(1, 0, journal=True)
    [node] = serving.start(folder, session, [0])
    try:
        check([ask(session, request) for request in range(COMMANDS)] == list(range(COMMANDS)), "the positions aren't those of the commands")
        serving.await_quiet([node])
    finally:
        node.stop(at_once=True)
    return session, node.record(), read(node.journal)


def home_in(folder: str, name: str = "home") -> str:
    """Another working folder, with nothing in it."""
    home = os.path.join(folder, name)
    os.mkdir(home, 0o700)
    return home


def ended(session: serving.Session, home: str, me: int = 0, rows: int = COMMANDS) -> tuple:
    """The status and the output of a node that ends at once: as its log has so many rows from its journal, or since its journal is refused."""
    return serving.run(session.node_config(me, rows), "node", seconds=serving.PATIENCE, folder=home)


def what_a_journal_has(folder: str) -> None:
    """The file has the head, the events in order, and a closed gate; its owner alone may read it, and a life begins with its events."""
    session, record, journal = some_journal(folder)
    path = os.path.join(folder, "node-0", serving.JOURNAL)
    mode = stat.S_IMODE(os.stat(path).st_mode)
    check(mode == 0o600, f"its mode is {mode:o}")
    check(os.listdir(os.path.dirname(path)) == [serving.JOURNAL], f"the working folder has {os.listdir(os.path.dirname(path))}")
    check(journal[:RECORDS_AT] == bytes([MADE]) + head_of(session, 0), f"it begins with {journal[:RECORDS_AT].hex()}")
    gates, events, _ = kept_in(journal)
    check(gates[0] == RECORDS_AT and all(event[:2] in (bytes([kind, 0]) for kind in (FRAME, INPUT, TURN)) for event in events), "a record isn't an event")
    # All events of this record are kept: inputs that were taken, and turns.
    check(events == serving.events_of(record), "its events aren't those of the record")
    check(ended(session, os.path.dirname(path)) == (0, record), "the next life's record isn't that of the events")
    check(read(path) == journal, "a life that took nothing has changed it")


def it_goes_on(folder: str) -> None:
    """A node alone is killed and started again: a command has its position still, and the next one the next."""
    session = serving.Session(1, 0, journal=True)
    [node] = serving.start(folder, session, [0])
    try:
        for life in range(3):
            check([ask(session, request) for request in range(life + 1)] == list(range(life + 1)), "a position isn't that of its command")
            node.stop(at_once=True)
            kept = kept_in(read(node.journal))[1]
            node.start()
            serving.await_links([node], session)
            serving.await_quiet([node])
            found = serving.events_of(node.record())
            check(found[: len(kept)] == kept, "a record doesn't begin with the events of the journal")
    finally:
        node.stop()


def a_second_node_is_refused(folder: str) -> None:
    """While a node has its journal, another one in its folder ends with 9 and writes nothing; once it was killed, the next one has it."""
    session = serving.Session(1, 0, journal=True)
    [node] = serving.start(folder, session, [0])
    try:
        before = read(node.journal)
        found = ended(session, node.home)
        check(found == (9, b""), f"a second node: {found}")
        check(read(node.journal) == before and ask(session, 0) == 0, "the first node doesn't go on")
        serving.await_quiet([node])
        node.stop(at_once=True)
        status, text = ended(session, node.home, rows=1)
        check(status == 0 and serving.events_of(text) == serving.events_of(node.record()), f"after it was killed: status {status}")
    finally:
        node.stop()


def of_another_session(folder: str) -> None:
    """A journal of another session, another broadcast, another version, another replica or other keys is refused at the first byte that differs."""
    session, home = serving.Session(4, 1, journal=True), home_in(folder)
    own = head_of(session, 0)
    path = write_journal(home, bytes([MADE]) + own + b"\0")
    for name, value, wanted in (("number", session.number ^ 1, SESSION_END - 1), ("vect", "reliable", VECT_AT), ("version", 2, VERSION_AT), ("coins", None, None)):
        kept = getattr(session, name)
        setattr(session, name, value or [key[:-1] + ("0" if key[-1] != "0" else "1") for key in kept])
        place = place_of(own, head_of(session, 0))
        check(place == wanted or wanted is None and place >= DIGEST_AT, f"{name}: the heads differ at {place}")
        found = ended(session, home)
        check(found == (3, f"input journal at {place}\n".encode()), f"another {name}: {found}")
        setattr(session, name, kept)
    found = ended(session, home, me=1)
    check(found == (3, f"input journal at {ME_AT}\n".encode()), f"another replica's: {found}")
    check(read(path) == bytes([MADE]) + own + b"\0", "a journal that is refused has changed")


def damaged(folder: str) -> None:
    """An open gate that isn't followed by a record and a gate is named by its offset, the first of them."""
    session, record, journal = some_journal(folder)
    home, (gates, events, end) = home_in(folder), kept_in(journal)
    last, middle = gates[-1], gates[len(gates) // 2]

    def changed(at: int, *values: int) -> bytes:
        return journal[:at] + bytes(values) + journal[at + len(values) :]

    for name, text, place in (
        ("without its closed gate", journal[:end], last),
        ("cut in the last event", journal[: end - 1], last),
        ("cut behind the last gate", journal[: last + 1], last),
        ("cut in a length", journal[: last + 2], last),
        ("cut in the middle", journal[: middle + 4], middle),
        ("with an open gate at its end", changed(end, 1), end),
        ("with a greater length", changed(middle + 2, journal[middle + 2] + 1), middle),
        ("with an event of no kind", changed(middle + 3, 9), middle),
        ("with an event of a made frame", changed(middle + 3, 4), middle),
        ("with an event of another replica", changed(middle + 4, 1), middle),
        ("damaged twice", changed(last + 4, 1)[:middle] + changed(middle + 3, 9)[middle:], middle),
    ):
        path = write_journal(home, text)
        found = ended(session, home)
        check(found == (3, f"input journal at {place}\n".encode()), f"{name}, at {place}: {found}")
        check(read(path) == text, f"{name}: it has changed")
    header = record[: serving.header_end(record)]
    for name, text, kept in (
        ("with bytes behind its closed gate", journal + b"\x01more", events),
        ("with another byte for its closed gate", changed(end, 2), events),
        ("with its last gate closed", changed(last, 0), events[:-1]),
    ):
        write_journal(home, text)
        found = ended(session, home, rows=1)
        check(found == (0, b"".join([header, *kept, serving.END_MARK])), f"{name}: status {found[0]}")


def begun(folder: str) -> None:
    """What isn't made is made, with no events: no file, an empty one, a short one, and one whose first byte isn't 1."""
    session = serving.Session(1, 0, journal=True)
    made = bytes([MADE]) + head_of(session, 0) + b"\0"
    for number, text in enumerate((None, b"", b"\x01", made[:-1], b"\x00" + made[1:], b"\x00" * 100)):
        home = home_in(folder, f"home-{number}")
        if text is not None:
            write_journal(home, text)
        node = Plain(home, session, session.node_config(0))
        try:
            serving.await_links([node], session)
            front = read(node.journal)[: len(made)]
            check(front == made, f"number {number}: the journal begins with {front.hex()}")
            check(ask(session, 0) == 0, f"number {number}: a command hasn't the first position")
        finally:
            node.stop()


def too_long(folder: str) -> None:
    """One byte more than 64 MiB is refused before anything is written, and 64 MiB are opened."""
    session, record, journal = some_journal(folder)
    home = home_in(folder)
    path = write_journal(home, journal)
    for size, wanted in ((LIMIT + 1, (7, TOO_LONG)), (LIMIT, (0, record))):
        os.truncate(path, size)
        status, text = ended(session, home)
        check((status, text) == wanted, f"{size} bytes: status {status}, {text[:60]!r}")


def nearly_full(session: serving.Session, room: int) -> bytes:
    """A journal behind which there is room for so many bytes. Its events are frames that don't open."""
    left, parts = LIMIT - RECORDS_AT - 1 - room, []
    while left:
        size = min(left - 7, LONGEST)
        parts.append(struct.pack(">BHBBH", 1, size + 4, FRAME, 0, size) + bytes(size))
        left -= size + 7
    return b"".join([bytes([MADE]), head_of(session, 0), *parts, b"\0"])


def ask_to_its_end(node: Plain, session: serving.Session) -> tuple:
    """Hands in one command after the other until a node ends. Answers its status and how many positions it told."""
    link, told = Pieces(session.clients[0]), 0
    try:
        while told < MOST_COMMANDS:
            link.send(struct.pack(">II", 7, told) + b"hi")
            while not (texts := link.take()) and link.read():
                pass
            if not texts:
                break
            told += len(texts)
    except ConnectionError:
        pass
    return node.process.wait(serving.PATIENCE), told


def served_to_its_end(session: serving.Session, home: str, before: list, wanted: int, **limits) -> tuple:
    """Serves commands until the node ends with this status, since its journal takes no more events: the record has some more than the journal, and
    the journal has each command whose position was told."""
    node = Plain(home, session, session.node_config(0), **limits)
    try:
        serving.await_links([node], session)
        status, told = ask_to_its_end(node, session)
    finally:
        node.stop()
    record, kept = read(node.path), kept_in(read(node.journal))[1]
    check(status == wanted and told > 0, f"status {status} after {told} commands")
    whole = serving.completed(record)
    found = serving.events_of(whole)
    check(whole == record + serving.END_MARK, "more than events was written")
    is_front = kept[: len(before)] == before and len(before) < len(kept) < len(found) and found[: len(kept)] == kept
    check(is_front, f"of {len(found)} events {len(kept)} are kept, {len(before)} from before")
    rows = serving.rows_of(serving.report_of(b"".join([record[: serving.header_end(record)], *kept, serving.END_MARK])))
    check(len(rows) >= told, f"{told} positions were told, and the journal has {len(rows)} rows")
    return told, kept


def becomes_too_long(folder: str) -> None:
    """Where a node's journal would become too long it ends with 7, a front of its record, and no line."""
    session, home = serving.Session(1, 0, journal=True), home_in(folder)
    path = write_journal(home, nearly_full(session, ROOM))
    before = kept_in(read(path))[1]
    served_to_its_end(session, home, before, 7)
    size = os.path.getsize(path)
    check(LIMIT - ROOM // 3 < size <= LIMIT, f"the journal has {size} bytes")


def without_a_journal(folder: str) -> None:
    """With `journal no`, and without such a line, no file is made, and one that is there isn't touched; any other word is refused by its line."""
    session = serving.Session(1, 0)
    text, home = session.node_config(0), home_in(folder)
    for last in (b"", b"journal no\n"):
        node = Plain(home, session, text + last)
        try:
            serving.await_links([node], session)
            check(ask(session, 0) == 0, "the node doesn't serve")
            serving.await_quiet([node])
        finally:
            node.stop()
        check(os.listdir(home) == [], f"with {last!r} the working folder has {os.listdir(home)}")
    lines = text.count(b"\n")
    for last, line in ((b"journal\n", 1), (b"journal maybe\n", 1), (b"journal  yes\n", 1), (b"journal yes", 1), (b"journal yes\njournal yes\n", 2)):
        found = serving.run(text + last, "node", folder=home)
        check(found == (3, f"input line {lines + line}\n".encode()), f"with {last!r}: {found}")
        check(os.listdir(home) == [], f"with {last!r} the working folder has {os.listdir(home)}")


def the_disk_fails(folder: str) -> None:
    """Where the file can't be opened the node ends with 9 and has written nothing."""
    session, home = serving.Session(1, 0, journal=True), home_in(folder)
    path = os.path.join(home, serving.JOURNAL)
    os.mkdir(path)
    found = ended(session, home)
    check(found == (9, b""), f"with a folder in its place: {found}")
    os.rmdir(path)
    os.symlink(os.path.join(home, "nowhere", "journal"), path)
    found = ended(session, home)
    check(found == (9, b""), f"with a link to nowhere in its place: {found}")


def the_disk_fills(folder: str) -> None:
    """Where the disk fails later the node ends with 9 and a front of its record; once there is room again, the next life goes on."""
    session, home = serving.Session(1, 0, journal=True), home_in(folder)
    told, kept = served_to_its_end(session, home, [], 9, most=SMALL_FILE)
    node = Plain(home, session, session.node_config(0))
    try:
        serving.await_links([node], session)
        check([ask(session, request) for request in range(told + 2)] == list(range(told + 2)), "with room again a position isn't that of its command")
    finally:
        node.stop()
    check(serving.events_of(node.record())[: len(kept)] == kept, "the next record doesn't begin with what was kept")


def disk_calls(folder: str, home: str, session: serving.Session, first: int) -> list:
    """The calls of the system on the journal and on its folder, in order, of a node alone that is handed some commands, from this number on. Each is its
    name, what it is on, and a number."""
    counter, calls = os.path.join(folder, "disk_calls.so"), os.path.join(folder, "calls")
    source = os.path.join(os.path.dirname(os.path.abspath(__file__)), "disk_calls.c")
    subprocess.run(["gcc", "-O2", "-D_GNU_SOURCE", "-shared", "-fPIC", source, "-ldl", "-o", counter], check=True)
    if os.path.exists(calls):
        os.remove(calls)
    node = Watched(home, session, session.node_config(0), {**os.environ, "LD_PRELOAD": counter, "CALLS": calls})
    try:
        serving.await_links([node], session)
        wanted = list(range(first, first + COMMANDS))
        check([ask(session, request) for request in wanted] == wanted, "the positions aren't those of the commands")
        serving.await_quiet([node])
    finally:
        node.stop()
    rows = [line.split() for line in read(calls).decode().splitlines()]
    return [(name, on, int(number, 8)) for name, on, number in rows]


def calls_of_the_disk(folder: str) -> None:
    """The file is made for its owner alone, locked, and its folder synced, before anything else; then it is synced and read, and each write is
    followed by a sync of its own, which is fdatasync. The next life, whose file is there, begins with the same calls."""
    session, home = serving.Session(1, 0, journal=True), home_in(folder)
    opens = [("open", "journal", 0o600), ("flock", "journal", fcntl.LOCK_EX | fcntl.LOCK_NB), ("open", "folder", 0), ("fsync", "folder", 0)]
    for number, life in enumerate(("the first life", "the next life")):
        calls = disk_calls(folder, home, session, number * COMMANDS)
        check(calls[: len(opens)] == opens, f"{life} begins with {calls[: len(opens)]}")
        first, rest = calls[len(opens)], calls[len(opens) + 1 :]
        check(first == ("fdatasync", "journal", 0), f"{life}: the file is opened, and then comes {first}")
        writes = [call[0] for call in rest if call[0] != "pread"]
        wanted = ["pwrite", "fdatasync"] * (len(writes) // 2)
        check(len(writes) >= 4 * COMMANDS and writes == wanted, f"{life}: of {len(writes)} calls behind it not each second one is a sync of its own")
        check({call[1] for call in rest} == {"journal"}, f"{life}: the folder is called again")


TESTS = (
    what_a_journal_has, it_goes_on, a_second_node_is_refused, of_another_session, damaged, begun, too_long, becomes_too_long, without_a_journal,
    the_disk_fails, the_disk_fills, calls_of_the_disk,
)

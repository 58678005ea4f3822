"""Nodes of a session on this machine: their ports, keys, configurations and records, and clients that speak to them.

`examples/cluster` and `cases/cluster` stand on it. A record is the schedule file that a node writes as it goes; it carries the node's
keys, so what is written here is readable by its owner alone. Each process is ended by its own id.
"""
import os
import random
import socket
import subprocess
import time

TOP = os.path.dirname(os.path.dirname(os.path.abspath(__file__)))
PROGRAM = os.path.abspath(os.environ.get("RITAS") or os.path.join(TOP, "ritas"))
HOST = "127.0.0.1"
PORTS = range(25000, 28000)
PATIENCE = 30
# The newest version of sessions that the program knows, and the one that is written if nothing else is asked for.
NEWEST_VERSION, USUAL_VERSION = 3, 3
KEY_DIGITS = 64
JOURNAL = "ritas.journal"
# Where there is a memory disk, folders are made there: a disk may take some milliseconds for each of the syncs of a journal, of which a command has
# hundreds. What is there outlives each process, but not the machine.
MEMORY = "/dev/shm" if os.path.isdir("/dev/shm") else None
END_MARK = b"\x00"
FORM_AT, N_AT, MASTER_HEADER = 21, 13, 54
# The events that have no length of their own.
SIZES = {3: 2, 4: 7}


def run(text: bytes, *words: str, seconds: float = 120, folder: str = None):
    """The status and the standard output of the program, given these words and this standard input, in this working folder."""
    done = subprocess.run([PROGRAM, *words], input=text, stdout=subprocess.PIPE, timeout=seconds, cwd=folder)
    return done.returncode, done.stdout


def is_built() -> bool:
    """Whether the program answers, which the wrapper builds first where it isn't built."""
    return subprocess.run([PROGRAM], stdin=subprocess.DEVNULL, stdout=subprocess.DEVNULL).returncode == 2


def is_free(port: int) -> bool:
    with socket.socket() as one:
        one.setsockopt(socket.SOL_SOCKET, socket.SO_REUSEADDR, 1)
        try:
            one.bind((HOST, port))
        except OSError:
            return False
        return True


def free_ports(count: int) -> list:
    ports = [port for port in random.sample(PORTS, 10 * count) if is_free(port)]
    if len(ports) < count:
        raise RuntimeError("no free ports")
    return ports[:count]


def config(*lines: str) -> bytes:
    return "".join(line + "\n" for line in lines).encode()


def address(port: int) -> str:
    return f"{HOST}:{port}"


class Session:
    """The numbers, the ports and the keys of a session. Each replica has a row of keys and the key of its coin, as hexadecimal digits. Commands are
    ordered by vector consensus, in root service 6, or straight by multi-valued consensus, in root service 7.

    A command gets a row once f + 1 different replicas have submitted it, so a client hands it to f + 1 correct nodes at least. Where its nodes have
    journals, each has a working folder of its own, and one that was killed is started again there.
    """

    def __init__(self, n: int, f: int, vect: str = "echo", version: int = 1, journal: bool = False, root: int = 6):
        self.n, self.f, self.vect, self.version, self.journal, self.root = n, f, vect, version, journal, root
        self.number = random.getrandbits(64)
        self.master = os.urandom(KEY_DIGITS // 2).hex()
        ports = free_ports(2 * n)
        self.peers, self.clients = ports[:n], ports[n:]
        self.rows, self.coins = self.deal()

    def head(self) -> tuple:
        return f"ritas {self.version}", f"session {self.number}", f"n {self.n}", f"f {self.f}"

    def deal(self) -> tuple:
        status, text = run(config(*self.head(), f"master {self.master}"), "keys")
        lines = [line.split() for line in text.decode().splitlines()]
        if status != 0 or [line[:2] for line in lines] != [["row", str(i)] for i in range(self.n)]:
            raise RuntimeError(f"keys: status {status}")
        return [line[2] for line in lines], [line[3] for line in lines]

    def peer_lines(self) -> list:
        return [f"peer {address(port)}" for port in self.peers]

    def node_config(self, me: int, until: int = 0) -> bytes:
        keys = f"me {me}", f"row {self.rows[me]}", f"coin {self.coins[me]}"
        places = *self.peer_lines(), f"client {address(self.clients[me])}"
        last = ("journal yes",) if self.journal else ()
        return config(*self.head(), f"root {self.root}", f"vect {self.vect}", *keys, *places, f"limit {2**64 - 1}", f"until {until}", *last)

    def submit_config(self, client: int, request: int, payload: bytes) -> bytes:
        places = [f"peer {address(port)}" for port in self.clients]
        return config(self.head()[0], *self.head()[2:], *places, f"request 0 {client} {request} {payload.hex() or '-'}")


def open_private(path: str, flags: int = os.O_WRONLY):
    """A new file that its owner alone may read."""
    return os.fdopen(os.open(path, flags | os.O_CREAT | os.O_EXCL, 0o600), "wb")


class Node:
    """A process that serves one replica. Its record is written to a file of the folder, and that of each later life to another one."""

    # With what else the process is started.
    OPTIONS = {}

    def __init__(self, folder: str, session: Session, me: int, until: int = 0):
        self.me, self.folder, self.paths = me, folder, []
        self.conf, self.home = os.path.join(folder, f"node-{me}.conf"), folder
        if session.journal:
            self.home = os.path.join(folder, f"node-{me}")
            os.mkdir(self.home, 0o700)
        with open_private(self.conf) as file:
            file.write(session.node_config(me, until))
        self.start()

    def start(self) -> None:
        """Starts it: for the first time, or again after it was stopped, where it has a journal. The records of its other lives stay."""
        life = f"-{len(self.paths)}" if self.paths else ""
        self.paths.append(os.path.join(self.folder, f"node-{self.me}{life}.record"))
        with open(self.conf, "rb") as given, open_private(self.path) as record:
            self.process = subprocess.Popen([PROGRAM, "node"], stdin=given, stdout=record, cwd=self.home, start_new_session=True, **self.OPTIONS)

    @property
    def path(self) -> str:
        """Where the record of this life is."""
        return self.paths[-1]

    @property
    def journal(self) -> str:
        return os.path.join(self.home, JOURNAL)

    def is_alive(self) -> bool:
        return self.process.poll() is None

    def stop(self, at_once: bool = False) -> None:
        """Stops it by SIGTERM, or by SIGKILL."""
        if self.is_alive():
            self.process.kill() if at_once else self.process.terminate()
        self.process.wait()

    def record_size(self) -> int:
        return os.path.getsize(self.path)

    def has_begun(self) -> bool:
        """Whether the record of this life has its whole header."""
        with open(self.path, "rb") as file:
            text = file.read()
        return header_end(text) <= len(text)

    def record(self) -> bytes:
        """The record of this life, which is complete also where the node was stopped."""
        with open(self.path, "rb") as file:
            return completed(file.read())

    def records(self) -> list:
        """The records of all lives, the oldest first, but for those that ended before the header was whole."""
        texts = []
        for path in self.paths:
            with open(path, "rb") as file:
                texts.append(file.read())
        return [completed(text) for text in texts if header_end(text) <= len(text)]


def event_end(text: bytes, at: int) -> int:
    """Where the event at this offset of a schedule file ends; past the text's end where it isn't whole."""
    kind = text[at]
    if kind in SIZES:
        return at + SIZES[kind]
    front = at + (5 if kind == 5 else 4)
    return front + int.from_bytes(text[front - 2 : front], "big") if len(text) >= front else front


def header_end(text: bytes) -> int:
    if len(text) <= FORM_AT:
        return len(text) + 1
    return MASTER_HEADER if text[FORM_AT] == 0 else 55 + 32 * text[N_AT]


def completed(text: bytes) -> bytes:
    """A node's record with the end mark, which one that was stopped doesn't write, and without an event that isn't whole."""
    end = header_end(text)
    if end > len(text):
        raise ValueError("the record has no whole header")
    while end < len(text):
        if text[end] == 0:
            return text
        following = event_end(text, end)
        if following > len(text):
            break
        end = following
    return text[:end] + END_MARK


def events_of(text: bytes) -> list:
    """The events of a whole schedule file, without the end mark."""
    events, at = [], header_end(text)
    while text[at] != 0:
        end = event_end(text, at)
        events.append(text[at:end])
        at = end
    return events


def report_of(record: bytes) -> bytes:
    """The report of a node's record. As it names one correct replica alone, its audit doesn't hold where n is 4, and the status is 1."""
    status, report = run(record, "replay", "report")
    if status not in (0, 1) or b"\naudit " not in report:
        raise ValueError(f"replay: status {status}, {report[:100]!r}")
    return report


def rows_of(report: bytes) -> list:
    """The rows of a report of one replica, each as position, identifier, client, request and payload."""
    rows = [line.split()[1:] for line in report.decode().splitlines() if line.startswith("row ")]
    if [row[0] for row in rows] != [str(i) for i in range(len(rows))]:
        raise ValueError("rows out of order")
    return rows


def are_prefixes(logs: list) -> bool:
    longest = max(logs, key=len)
    return all(longest[: len(log)] == log for log in logs)


def sockets_at(ports: list):
    """The sockets at these ports, as the system's rows of words; nothing where it doesn't tell."""
    try:
        with open("/proc/net/tcp") as file:
            lines = [line.split() for line in file.readlines()[1:]]
    except OSError:
        return None
    wanted = {f"{port:04X}" for port in ports}
    return [line for line in lines if line[1].split(":")[1] in wanted]


def doors_open(sockets: list) -> int:
    """How many of them listen."""
    return sum(line[3] == "0A" for line in sockets)


def links_up(sockets: list) -> int:
    """How many of them are connections with nothing left to be read."""
    return sum(line[3] == "01" and line[4].endswith(":00000000") for line in sockets)


def await_links(nodes: list, session: Session) -> None:
    """Waits until these nodes listen and every two of them are connected. What is handed in before is sent to nobody who comes later."""
    peers, clients = ([doors[node.me] for node in nodes] for doors in (session.peers, session.clients))
    wanted = len(nodes) * (len(nodes) - 1) // 2
    until = time.monotonic() + PATIENCE
    while (here := sockets_at(peers)) is not None:
        doors, links = doors_open(here) + doors_open(sockets_at(clients) or []), links_up(here)
        if doors >= 2 * len(nodes) and links >= wanted:
            break
        if not all(node.is_alive() for node in nodes) or time.monotonic() > until:
            ends = [node.process.poll() for node in nodes]
            raise RuntimeError(f"{doors} doors are open and {links} of {wanted} links stand; nodes ended with {ends}")
        time.sleep(0.02)
    time.sleep(0.2 if here is not None else 3)


def start(folder: str, session: Session, numbers, until: int = 0) -> list:
    """Starts these nodes of a session, and waits until they are connected. Where one of them isn't, all are stopped."""
    nodes = []
    try:
        for me in numbers:
            nodes.append(Node(folder, session, me, until))
        await_links(nodes, session)
    except BaseException:
        stop_all(nodes)
        raise
    return nodes


def stop_all(nodes: list) -> None:
    for node in nodes:
        node.stop()


def await_quiet(nodes: list, quiet: float = 0.5) -> None:
    """Waits until no record of these nodes has grown for a while."""
    until, since, sizes = time.monotonic() + PATIENCE, time.monotonic(), None
    while time.monotonic() < until and time.monotonic() - since < quiet:
        time.sleep(0.05)
        now = [node.record_size() for node in nodes]
        if now != sizes:
            since, sizes = time.monotonic(), now

"""Schedules of one correct replica of root service 6, for which two faulty peers have as many early items as fit, and what its further events cost.

All events are at replica 0 of 7, of which two may be faulty. Frames of the others are `Sealed` events, so the replays end with `audit too many faulty`.
The early items are of steps of binary consensus of the rounds 1 to 4, which replica 0 never begins: 11 bytes each, and so 95,325 for each of the
two peers. The further events broadcast commands: for each its INIT, six ECHOs and six READYs of the others, and two turns. None of them
opens an early item, and none is past by them.
"""
import itertools
import re
import statistics
import struct
import subprocess
import tempfile

from tags import children_time, program

# What valgrind tells of how many instructions it saw.
COLLECTED = re.compile(rb"Collected : (\d+)")

N, F, ROOT, RELIABLE = 7, 2, 6, 2
INIT, ECHO, READY = 1, 2, 3
COMMAND, STEP = 1, 5
FLOODERS = (5, 6)
# The least body, and how many of them fit for a peer.
LEAST = 11
FITS = 1_048_576 // LEAST
END = b"\x00"
LAST = b"audit too many faulty\n"
# Processor time is told no more closely.
LEAST_SECONDS = 1e-4


def header() -> bytes:
    """Of session 0, with replica 0 alone as a correct one, and the keys of a master of zeros."""
    return b"RITS\x01" + bytes(8) + bytes([N, F, ROOT, RELIABLE]) + struct.pack(">I", 1) + b"\x00" + bytes(32)


def body(kind: int, place: tuple, value: bytes) -> bytes:
    group, number, attempt, bround, step, origin = place
    return bytes([kind, group]) + struct.pack(">I", number) + bytes([attempt, bround, step, origin]) + value


def sealed(sender: int, text: bytes) -> bytes:
    return b"\x05" + bytes([sender, 0]) + struct.pack(">H", len(text)) + text


def early_bodies(sender: int):
    """Right items of the least length, of slots that aren't open: of each slot the ECHO, the READY, and the sender's own INIT."""
    rounds, attempts, brounds, steps = range(1, 5), range(F + 1), range(1, 201), range(1, 4)
    for number, attempt, bround, step, origin in itertools.product(rounds, attempts, brounds, steps, range(N)):
        for kind in (INIT, ECHO, READY) if origin == sender else (ECHO, READY):
            yield body(kind, (STEP, number, attempt, bround, step, origin), b"\x00")


def early() -> bytes:
    """As many of them as fit, for each faulty peer."""
    return b"".join(sealed(k, text) for k in FLOODERS for text in itertools.islice(early_bodies(k), FITS))


def further(commands: int) -> bytes:
    """The broadcasts of so many commands of the others, up to 64 each."""
    events = bytearray()
    for number, origin in itertools.islice(itertools.product(range(64), range(1, N)), commands):
        place, value = (COMMAND, number, 0, 0, 0, origin), struct.pack(">II", origin, number) + b"hi"
        events += sealed(origin, body(INIT, place, value)) + b"\x03\x00"
        events += b"".join(sealed(k, body(ECHO, place, value)) for k in range(1, N)) + b"\x03\x00"
        events += b"".join(sealed(k, body(READY, place, value)) for k in range(1, N))
    return bytes(events)


def replay(events: bytes, held: int, wanted: int) -> float:
    """The processor time of a replay. So many events are to be taken at least, and so many bytes held at the end."""
    with tempfile.TemporaryFile() as file:
        file.write(header() + events + END)
        file.seek(0)
        before = children_time()
        done = subprocess.run([program(), "replay", "report"], stdin=file, capture_output=True)
        taken = children_time() - before
    lines = done.stdout.splitlines()
    counts = lines[1].split() if len(lines) > 3 else []
    if done.returncode != 1 or not done.stdout.endswith(LAST) or int(counts[3]) < wanted or not lines[2].endswith(b" held %d" % held):
        raise RuntimeError(f"status {done.returncode}: {done.stdout[:200]!r}")
    return taken


def costs(commands: int, turns: int):
    """What a further event costs in seconds with the early items and without them, and the median of the ratios, each taken by turns."""
    flood, more = early(), further(commands)
    events = 15 * commands
    held = len(FLOODERS) * FITS * LEAST
    pairs = []
    for _ in range(turns):
        loaded = replay(flood + more, held, events) - replay(flood, held, 0)
        alone = replay(more, 0, events) - replay(b"", 0, 0)
        pairs.append((loaded / events, max(alone, LEAST_SECONDS) / events))
    loaded, alone = zip(*pairs)
    return statistics.median(loaded), statistics.median(alone), statistics.median(a / b for a, b in pairs)


def count(events: bytes) -> subprocess.Popen:
    """Begins to count the instructions of a replay, by valgrind."""
    with tempfile.TemporaryFile() as file:
        file.write(header() + events + END)
        file.seek(0)
        command = ["valgrind", "--tool=callgrind", "--callgrind-out-file=/dev/null", program(), "replay", "report"]
        return subprocess.Popen(command, stdin=file, stdout=subprocess.DEVNULL, stderr=subprocess.PIPE)


def counted(run: subprocess.Popen) -> int:
    """How many they were."""
    said = run.communicate()[1]
    if not (found := COLLECTED.search(said)):
        raise RuntimeError(f"valgrind: {said[-200:]!r}")
    return int(found[1])


def instructions(first: int, commands: int):
    """How many instructions a further event takes with the early items, and without them. Those of so many first commands aren't counted: as the
    replay goes on behind the early items, the C library puts together, once, the blocks that their frames left."""
    flood, front, more = early(), further(first), further(commands)
    counts = [counted(run) for run in [count(events) for events in (flood + more, flood + front, more, front)]]
    events = 15 * (commands - first)
    return (counts[0] - counts[1]) / events, (counts[2] - counts[3]) / events

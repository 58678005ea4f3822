"""Whether replies, records and what went over the wire go together."""
import serving
from clients import command_of
from loads import listed
from peers import INIT, KIND_AT, PAYLOAD_AT, body_of
from sights import Sights, seq_of


def of_logs(logs: dict, load, whole) -> list:
    """The logs are fronts of one list, which has each command once and nothing that no client handed in, and these nodes have all."""
    wrong = []
    if not serving.are_prefixes(list(logs.values())):
        wrong.append(f"two logs are apart: {first_apart(logs)}")
    for me, log in logs.items():
        commands = [command_of(row) for row in log]
        if len({one[:2] for one in commands}) != len(commands):
            wrong.append(f"a command stands twice in the log of node {me}")
        if strange := sorted(set(commands) - set(load.commands)):
            wrong.append(f"the log of node {me} has {len(strange)} commands that nobody handed in at a correct one: {listed(strange)}")
        if me in whole and (missing := sorted(set(load.commands) - set(commands))):
            wrong.append(f"the log of node {me} lacks {len(missing)} commands: {listed(missing)}")
    return wrong


def first_apart(logs: dict) -> str:
    longest = max(logs.values(), key=len)
    for me, log in logs.items():
        for place, row in enumerate(log):
            if row != longest[place]:
                return f"node {me} has {' '.join(row)}, and another one {' '.join(longest[place])}"
    return "nowhere"


def of_replies(logs: dict, load) -> list:
    """Each position is that of the command's row in the log of the node that told it."""
    wrong = []
    for me, desk in load.desks.items():
        places = {command_of(row): place for place, row in enumerate(logs[me])}
        false = [(one, told) for one, told in desk.positions.items() if places.get(one) != told]
        wrong += [f"node {me} told {told} for {one.client}.{one.request}, whose place is {places.get(one)}" for one, told in false[:1]]
    return wrong


def lines_of(record: bytes, me: int) -> list:
    """The frames that the replica of a record made, in order, each with the number of its event and its receiver."""
    status, text = serving.run(record, "replay", "frames")
    lines = [line.split() for line in text.decode().splitlines()]
    if status not in (0, 1) or not lines or lines[-1][0] != "audit" or any(int(line[1]) != me for line in lines[:-1]):
        raise ValueError(f"replay frames of node {me}: status {status}, {text[-100:]}")
    return [(int(line[0]), int(line[2]), bytes.fromhex(line[3])) for line in lines[:-1]]


def by_receiver(lines: list) -> dict:
    """The frames of such lines for each receiver, in order."""
    made = {}
    for _, to, frame in lines:
        made.setdefault(to, []).append(frame)
    return made


def frames_of(record: bytes, me: int) -> dict:
    """The frames that the replica of a record made, for each other one, in order."""
    return by_receiver(lines_of(record, me))


def of_frames(made: list, sight, is_whole: bool) -> list:
    """What was seen is what the replica made: each frame to the byte, and in the end all of them. In versions 1 and 2 they come for the first time in
    order; in version 3 what is new goes out beside the batches of what is older."""
    where = "frames from {} to {}".format(*sight.pair)
    wrong = [f"{where}: {text}" for text in sight.wrong[:3]]
    if [seq_of(frame) for frame in made] != list(range(len(made))):
        wrong.append(f"{where}: the numbers of replay frames have gaps")
    seen = [seq_of(frame) for frame in sight.firsts]
    foreign = [number for number, frame in zip(seen, sight.firsts) if number >= len(made) or made[number] != frame]
    if foreign:
        wrong.append(f"{where}: {len(foreign)} aren't those of replay frames, the first has number {foreign[0]}")
    falls = [later for earlier, later in zip(seen, seen[1:]) if later < earlier and sight.version < 3]
    if falls:
        wrong.append(f"{where}: number {falls[0]} comes for the first time behind a greater one")
    missing = sorted(set(range(len(made))) - set(seen)) if is_whole else []
    if missing:
        wrong.append(f"{where}: {len(missing)} of {len(made)} never went out, the first has number {missing[0]}")
    return wrong


def log_of(record: bytes) -> list:
    return serving.rows_of(serving.report_of(record))


def all_of(nodes: list, load, sights: Sights, is_whole: bool, gone: list) -> list:
    """What is wrong. Where `is_whole` all that was handed in was confirmed, and between these nodes nothing may be missing.

    Of those that are gone for good the logs alone are compared.
    """
    records = {node.me: node.record() for node in nodes}
    logs = {me: log_of(record) for me, record in records.items()}
    wrong = of_logs({**logs, **{node.me: log_of(node.record()) for node in gone}}, load, logs if is_whole else ()) + of_replies(logs, load)
    for me, record in records.items():
        made = frames_of(record, me)
        for pair, sight in sights.items():
            if pair[0] == me:
                wrong += of_frames(made.get(pair[1], []), sight, is_whole and pair[1] in records)
    return wrong


def has_two_faces(sights: Sights, faulty: int, ahead: list, alone: int) -> str:
    """What is missing that a replica has shown two faces: one slot with two values, to two correct replicas."""
    one, other = (inits_of(sights[faulty, to].firsts) for to in (ahead[0], alone))
    is_shown = any(slot in other and other[slot] != body for slot, body in one.items())
    return "" if is_shown else "the replica that was to have two faces has shown one"


def inits_of(frames: list) -> dict:
    """The INITs among these frames, by their slots."""
    return {body[KIND_AT:PAYLOAD_AT]: body for body in map(body_of, frames) if body[KIND_AT] == INIT}

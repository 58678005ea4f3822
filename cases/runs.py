"""Nodes of a session, mostly four, whose connections all go through a proxy, and the commands that are handed in at them, for one scenario."""
import argparse
import os
import random
import shutil
import signal
import sys
import tempfile
import time

import serving
import verdicts
from clients import check
from loads import Load
from sights import Sights
from wire import Proxy, Weather

N, F = 4, 1
ENOUGH = N - F
BEFORE, WHILE, AFTER = 4, 24, 24
QUIET, STILL = 8, 1
# After so many seconds it is a standstill, where commands were to be confirmed soon.
SOON, STANDSTILL = 5, 20
# Figures and the names of what is counted for each pair.
TOTALS = {"resends": "resends", "ACKs": "acks", "AGAINs": "agains", "bytes": "bytes"}


class Routed(serving.Session):
    """A session whose nodes find those of lesser numbers, which they connect with, at ports of a proxy."""

    def __init__(self, n: int, f: int, vect: str, version: int, journal: bool, root: int):
        super().__init__(n, f, vect, version, journal, root)
        self.doors, self.taken = {}, {*self.peers, *self.clients}

    def more_ports(self, count: int) -> list:
        """So many free ports that nothing of this session has."""
        ports = [port for port in serving.free_ports(count + len(self.taken)) if port not in self.taken][:count]
        self.taken.update(ports)
        return ports

    def node_config(self, me: int, until: int = 0) -> bytes:
        text = super().node_config(me, until)
        for other in range(me):
            text = text.replace(*(f"peer {serving.address(port)}\n".encode() for port in (self.peers[other], self.doors[me, other])))
        return text


class Run:
    """Nodes, the proxy between them and the load, of one scenario."""

    LOAD = Load

    def __init__(self, name: str, options, count: int = N, vect: str = "echo", version: int = 1, journal: bool = False, root: int = 6, n: int = N, f: int = F):
        self.name, self.lot = name, random.Random(f"{options.seed} {name}")
        self.folder = tempfile.mkdtemp(prefix=f"ritas-{name}-", dir=serving.MEMORY if journal else None)
        self.session = Routed(n, f, vect, version, journal, root)
        self.sights = Sights(self.session)
        self.proxy = Proxy(self.sights, self.lot)
        self.correct, self.nodes, self.faces, self.gone = list(range(count)), [], [], []
        self.proxy.start()
        for pair in [(me, other) for me in range(n) for other in range(me)]:
            [self.session.doors[pair]] = self.session.more_ports(1)
            self.proxy.open_door(pair, self.session.doors[pair], self.session.peers[pair[1]])
        self.load, self.took, self.bound, self.soon = None, None, options.bound, options.soon
        self.cuts, self.behind = None, 0

    def start(self) -> None:
        """Starts the correct nodes, and waits until they are connected."""
        for me in self.correct:
            self.nodes.append(serving.Node(self.folder, self.session, me))
        self.await_links(len(self.pairs()))

    def await_links(self, count: int) -> None:
        """Waits until so many pairs are connected, and the nodes know it."""
        ports, until = [self.session.peers[me] for me in self.correct], time.monotonic() + serving.PATIENCE
        while (standing := min(self.proxy.standing(), serving.links_up(serving.sockets_at(ports) or []))) < count:
            check(all(node.is_alive() for node in self.nodes + self.faces), "a node ended")
            check(time.monotonic() < until, f"{standing} of {count} links stand")
            time.sleep(0.02)

    def begin(self, weather: Weather) -> None:
        """Some commands in fair weather, and then this weather."""
        ports = {me: self.session.clients[me] for me in self.correct}
        self.load = self.LOAD(ports, lambda: self.sights.total("bytes"), self.bound, QUIET)
        self.load.confirm_all(self.load.add(BEFORE))
        self.proxy.turn_to(weather)

    def others(self, *nodes: int) -> list:
        return [me for me in self.correct if me not in nodes]

    def pairs(self) -> list:
        """Every two correct nodes, the one that connects first."""
        return [(me, other) for me in self.correct for other in self.correct if other < me]

    def press_until_cut(self, times: int) -> list:
        """Hands in commands, and more whenever the connection of every two nodes was cut again, so often. Nothing need be confirmed meanwhile.

        Answers which pairs' connections were cut no more than once.
        """
        for turn in range(1, times + 1):
            self.load.add(WHILE // times)
            self.load.serve_while_moving(lambda: self.are_cut(turn), STILL)
        return [pair for pair in self.pairs() if self.proxy.cuts[pair] < 2]

    def are_cut(self, times: int) -> bool:
        """Whether each connection was cut so often, or all together twice as often as that takes."""
        return all(self.proxy.cuts[pair] >= times for pair in self.pairs()) or self.proxy.cuts.total() >= 2 * times * len(self.pairs())

    def note_lag(self, *nodes: int) -> None:
        """How many commands one of these nodes hasn't confirmed by now."""
        self.behind = max(len(self.load.missing(node, self.load.commands)) for node in nodes)

    def kill_for_good(self, *numbers: int) -> None:
        """Kills nodes at once, which don't come back. All that follows is about the others."""
        for node in [node for node in self.nodes if node.me in numbers]:
            node.stop(at_once=True)
            self.nodes.remove(node)
            self.gone.append(node)
            self.correct.remove(node.me)
            self.load.leave_out(node.me)
            self.proxy.say(f"killed {node.me}")

    def end(self) -> None:
        """Commands in fair weather. Each node must confirm these, and all that were handed in before."""
        self.clear_up()
        self.load.add(AFTER)
        self.took = self.load.confirm_all(self.load.commands)
        self.compare()

    def end_soon(self) -> None:
        """Commands in fair weather, once all connections stand, which each node must confirm soon; and then all that were handed in before. The proxy
        looks at what it passes on later, since that takes it as long as the nodes take."""
        self.proxy.looks_later = True
        self.clear_up()
        self.await_links(len(self.pairs()))
        self.load.patience = min(self.bound, STANDSTILL)
        took = self.load.confirm_all(self.load.add(AFTER))
        self.proxy.looks_later = False
        check(took <= self.soon, f"later commands were confirmed in {took:.1f} s, and not in {self.soon:g} s")
        self.took, self.load.patience = took, self.bound
        self.load.hand_in_later()
        self.load.confirm_all(self.load.commands)
        self.compare()

    def clear_up(self) -> None:
        """The weather is fair again."""
        self.proxy.turn_to(Weather())
        self.cuts = self.proxy.cuts.total()

    def compare(self) -> None:
        """Whether all has come, once and no more than once."""
        self.settle()
        self.connect_anew()
        self.settle()
        check(all(node.is_alive() for node in self.nodes), "a node ended")

    def settle(self) -> None:
        """Waits until each frame between these nodes was acknowledged, and all that came is taken."""
        sights = [self.sights[way] for pair in self.pairs() for way in (pair, pair[::-1])]

        def is_settled() -> bool:
            self.proxy.look()
            return not any(sight.unacknowledged for sight in sights)

        self.load.serve_until(is_settled, lambda: "; ".join(filter(None, map(unacknowledged, sights))))
        serving.await_quiet(self.nodes)

    def connect_anew(self) -> None:
        """All that went out has come: so over new connections nothing goes out again, and a command is confirmed as ever."""
        before = self.sights.total("resends")
        self.proxy.cut_all(self.pairs())
        self.await_links(len(self.pairs()))
        self.load.confirm_all(self.load.add(1))
        self.proxy.look()
        again = self.sights.total("resends") - before
        check(again == 0, f"{again} frames went out again though they had come")

    def stop(self) -> None:
        serving.stop_all(self.faces)
        serving.stop_all(self.nodes)
        if self.load:
            self.load.leave()
        self.proxy.leave()

    def figures(self) -> dict:
        """What went over the wire, and how many commands the node that was worst off lacked at last."""
        totals = {word: self.sights.total(name) for word, name in TOTALS.items()}
        desks = self.load.desks.values() if self.load else ()
        rest = {"lost": self.proxy.lost, "overtaken": self.proxy.overtaken, "behind": self.behind, "refused": sum(desk.refused for desk in desks)}
        cuts = self.proxy.cuts.total() if self.cuts is None else self.cuts
        return {"cuts": cuts, "frames": self.sights.frames(), **totals, **rest}

    def wrong(self, is_whole: bool) -> list:
        """What is wrong with what was recorded."""
        return verdicts.all_of(self.nodes, self.load, self.sights, is_whole, self.gone)

    def keep(self, wrong: str) -> None:
        """Writes what is known besides the records."""
        with serving.open_private(os.path.join(self.folder, "proxy.log")) as file:
            file.write("".join([*self.proxy.log, wrong, "\n"]).encode())


def unacknowledged(sight) -> str:
    """How many frames no acknowledgement went back for, if there are any."""
    numbers = sight.unacknowledged
    return "{} frames from {} to {} aren't acknowledged, the first has number {}".format(len(numbers), *sight.pair, min(numbers)) if numbers else ""


def wrong_of(run: Run, scenario) -> str:
    """What is wrong with a run, or nothing. What was recorded is compared also where a node was left behind."""
    wrong = []
    try:
        try:
            scenario(run)
        finally:
            run.stop()
    except Exception as fault:
        wrong.append(f"{fault}" if isinstance(fault, AssertionError) else f"{type(fault).__name__}: {fault}")
    if run.load:
        try:
            wrong += run.wrong(is_whole=not wrong)
        except Exception as fault:
            wrong.append(f"{type(fault).__name__}: {fault}")
    return "; ".join(wrong)


def name_of(scenario) -> str:
    return scenario.__name__.replace("_", "-")


def tried(scenario, run: Run):
    """The name of a scenario and what is wrong with it, and prints what went over the wire."""
    name, since = name_of(scenario), time.monotonic()
    try:
        wrong = wrong_of(run, scenario)
    except BaseException:  # it was told to end
        shutil.rmtree(run.folder)
        raise
    took = "never" if run.took is None else f"in {run.took:.2f} s"
    figures = ", ".join(f"{word} {count}" for word, count in run.figures().items())
    print(f"{name}: {figures}, later commands confirmed {took}, {time.monotonic() - since:.1f} s in all", flush=True)
    if wrong:
        run.keep(wrong)
        return name, f"{wrong}; kept in {run.folder}"
    shutil.rmtree(run.folder)
    return name, ""


def leave(*_) -> None:
    """Ends as after a failure, so that what was started is ended too."""
    sys.exit(1)


def each_run(options):
    """The scenarios that were picked, as often as was asked for: pairs of a name, and the options with the seed of that run."""
    for seed in range(options.seed, options.seed + options.runs):
        for name in options.scenarios:
            yield name, argparse.Namespace(**{**vars(options), "seed": seed})


def options_of(names, usual, description: str) -> argparse.Namespace:
    """The seed, the bounds, what every session is to have where that is said, and the scenarios that the words pick, or else the usual ones."""
    signal.signal(signal.SIGTERM, leave)
    parser = argparse.ArgumentParser(description=description, allow_abbrev=False)
    parser.add_argument("--seed", type=int, default=1)
    parser.add_argument("--runs", type=int, default=1, help="how often each scenario is run, each time with the next seed")
    parser.add_argument("--bound", type=float, default=90, help="seconds, for what is waited for")
    parser.add_argument("--soon", type=float, default=SOON, help="seconds in which commands are to be confirmed that come after nodes were killed")
    parser.add_argument("--vect", choices=("echo", "reliable"), help="how VECTs go in every session, in place of what each scenario has")
    parser.add_argument("--version", type=int, choices=(1, 2, 3), help="of every session")
    parser.add_argument("--root", type=int, choices=(6, 7), help="the root service of every session")
    parser.add_argument("scenarios", nargs="*", metavar="SCENARIO", help=", ".join(names))
    options = parser.parse_args()
    if unknown := set(options.scenarios) - set(names):
        parser.error(f"no scenario {' '.join(sorted(unknown))}")
    options.scenarios = options.scenarios or list(usual)
    return options

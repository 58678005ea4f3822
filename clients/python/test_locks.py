"""Tests of `examples/locks`: its state as a function of rows, and clients over nodes that are played, of which one lies."""
from __future__ import annotations

import contextlib
import importlib.machinery
import importlib.util
import io
import os
import random
import select
import signal
import subprocess
import sys
import tempfile
import time
import types
import unittest
import unittest.mock

import played
from ritas_client import Cluster, Row

SCRIPT = os.path.normpath(os.path.join(os.path.dirname(os.path.abspath(__file__)), "..", "..", "examples", "locks"))
NONCE = "0123456789abcdef"
VERBS = "acquire", "acquire", "release", "tick", "tick"
SOON = 20.0


def script() -> types.ModuleType:
    """The script as a module."""
    loader = importlib.machinery.SourceFileLoader("locks", SCRIPT)
    spec = importlib.util.spec_from_loader("locks", loader)
    assert spec is not None
    module = importlib.util.module_from_spec(spec)
    sys.modules["locks"] = module
    loader.exec_module(module)
    return module


locks = script()


class States(unittest.TestCase):
    """The state is a function of the rows."""

    def setUp(self) -> None:
        self.state = locks.Locks()

    def row(self, client: int, payload: str | bytes) -> bool:
        text = payload.encode() if isinstance(payload, str) else payload
        at: int = self.state.length
        return bool(self.state.apply(Row(at, 0, at, client, at, text)))

    def acquire(self, client: int, name: str = "door", lease: int = 5) -> bool:
        return self.row(client, f"lock acquire {NONCE} {lease} {name}")

    def release(self, client: int, name: str = "door") -> bool:
        return self.row(client, f"lock release {NONCE} {name}")

    def others(self, count: int) -> None:
        for _ in range(count):
            self.row(99, "anything")

    def holder(self, name: str = "door") -> int | None:
        held = self.state.holder(name)
        return None if held is None else int(held.client)

    def test_one_holder(self) -> None:
        self.assertIsNone(self.holder())
        self.assertTrue(self.acquire(1))
        self.assertFalse(self.acquire(2))
        self.assertEqual(self.state.holder("door"), (1, 0, 5))
        self.assertIsNone(self.holder("gate"))
        self.assertTrue(self.acquire(2, "gate"))
        self.assertEqual((self.holder(), self.holder("gate")), (1, 2))

    def test_release(self) -> None:
        self.assertFalse(self.release(1))
        self.acquire(1)
        self.assertFalse(self.release(2))
        self.assertTrue(self.release(1))
        self.assertIsNone(self.holder())
        self.assertFalse(self.release(1))
        self.assertTrue(self.acquire(2))
        self.assertEqual(self.state.holder("door").token, 4 + 1)

    def test_tokens_rise(self) -> None:
        tokens = []
        for client in range(20):
            self.acquire(client)
            tokens.append(self.state.holder("door").token)
            self.release(client)
        self.assertEqual(tokens, sorted(set(tokens)))

    def test_a_holder_keeps_its_token(self) -> None:
        self.acquire(1)
        self.others(2)
        self.assertFalse(self.acquire(1, lease=50))
        self.assertEqual(self.state.holder("door"), (1, 0, 5))

    def test_lease(self) -> None:
        self.acquire(1)
        self.others(4)
        self.assertEqual(self.holder(), 1)
        self.others(1)
        self.assertIsNone(self.holder())
        self.assertTrue(self.acquire(2))
        self.assertEqual(self.holder(), 2)

    def test_acquiring_before_and_after_the_lease(self) -> None:
        self.acquire(1)
        self.others(4)
        self.assertFalse(self.acquire(2))
        self.assertTrue(self.acquire(2))

    def test_any_row_of_the_holder_renews(self) -> None:
        self.acquire(1)
        self.acquire(1, "gate", 7)
        for payload in (b"anything", b"\xff\0", b"", f"lock tick {NONCE}".encode(), f"lock release {NONCE} unknown".encode()):
            self.others(4)
            self.row(1, payload)
        self.others(4)
        self.assertEqual((self.holder(), self.holder("gate")), (1, 1))
        self.others(1)
        self.assertEqual((self.holder(), self.holder("gate")), (None, 1))

    def test_what_is_over_isnt_revived(self) -> None:
        self.acquire(1)
        self.acquire(1, "gate", 50)
        self.others(5)
        self.row(1, f"lock tick {NONCE}")
        self.assertEqual((self.holder(), self.holder("gate")), (None, 1))
        self.assertFalse(self.release(1))
        self.assertTrue(self.acquire(1))
        self.assertEqual(self.holder(), 1)

    def test_a_client_that_lost_a_lock_and_has_another(self) -> None:
        self.acquire(1, lease=2)
        self.acquire(1, "gate", 50)
        self.others(2)
        self.assertTrue(self.acquire(2))
        self.row(1, "anything")
        self.assertEqual((self.holder(), self.holder("gate")), (2, 1))
        self.assertTrue(self.release(1, "gate"))
        self.assertEqual(set(self.state._holders), {2})
        self.assertTrue(self.release(2))
        self.assertFalse(self.state._holders or self.state._held)

    def test_a_client_that_lost_its_only_lock(self) -> None:
        self.acquire(1, lease=2)
        self.others(2)
        self.assertTrue(self.acquire(2))
        self.assertEqual(set(self.state._holders), {2})

    def test_what_is_no_command(self) -> None:
        for payload in ("lock acquire", f"lock acquire {NONCE} 5", f"lock acquire {NONCE} 0 door", f"lock acquire {NONCE} 05 door",
                        f"lock acquire {NONCE} 1000000 door", f"lock acquire {NONCE[1:]} 5 door", f"lock acquire {NONCE.upper()} 5 door",
                        f"lock acquire {NONCE} 5 the door", f"lock acquire {NONCE} 5 door\n", f"lock acquire {NONCE} 5 t\u00fcr",
                        f"lock acquire {NONCE} 5 " + "d" * 201, f" lock acquire {NONCE} 5 door", f"lock  acquire {NONCE} 5 door"):
            self.assertFalse(self.row(1, payload), payload)
        self.assertTrue(self.row(1, f"lock acquire {NONCE} 999999 " + "d" * 200))

    def test_those_who_only_look_hold_nothing(self) -> None:
        self.assertFalse(self.acquire(2**32 - 1))
        self.assertTrue(self.acquire(2**32 - 2))

    def test_rows_come_in_order(self) -> None:
        for position in (1, 5):
            self.assertRaises(ValueError, self.state.apply, Row(position, 0, 0, 0, 0, b""))
        self.assertEqual(self.state.length, 0)

    def test_forgotten_locks_change_nothing(self) -> None:
        for place in range(3000):
            self.acquire(place, f"lock-{place}", 10)
        self.assertLess(len(self.state._held), 1100)
        self.assertLess(len(self.state._holders), 1100)
        self.assertEqual([place for place in range(3000) if self.holder(f"lock-{place}") is not None], list(range(2990, 3000)))

    def test_the_definition(self) -> None:
        """Against the definition in words: a lock is of the last one that acquired it as it was free, until he releases it or is silent."""
        lot = random.Random(1)
        for _ in range(10):
            self.state, rows = locks.Locks(), list[tuple[int, str, str, int]]()
            while len(rows) < 100:
                client, verb, name, lease = lot.randrange(4), lot.choice(VERBS), lot.choice("ab"), lot.randint(1, 6)
                words = {"acquire": f" {lease} {name}", "release": f" {name}", "tick": ""}[verb]
                self.row(client, f"lock {verb} {NONCE}{words}")
                rows.append((client, verb, name, lease))
                for one in "ab":
                    held = self.state.holder(one)
                    self.assertEqual(None if held is None else tuple(held), defined(rows, one))


def defined(rows: list[tuple[int, str, str, int]], name: str) -> tuple[int, int, int] | None:
    """The holder of a lock, its token and its lease, looked for from the rows alone."""
    held = None
    for at in range(len(rows) + 1):
        if held is not None:
            last = max(place for place in range(held[1], at) if rows[place][0] == held[0])
            held = None if at - 1 - last >= held[2] else held
        if at == len(rows):
            break
        client, verb, other, lease = rows[at]
        if other == name and verb == "acquire" and held is None:
            held = client, at, lease
        if other == name and verb == "release" and held is not None and held[0] == client:
            held = None
    return held


class Process:
    """A run of the script over these nodes."""

    def __init__(self, places: list[str], f: int, *words: str):
        command = [sys.executable, SCRIPT, *words, "--pause", "0.02", "--timeout", "15", "--f", str(f), "--nodes", *places]
        self.process = subprocess.Popen(command, stdout=subprocess.PIPE, stderr=subprocess.PIPE, text=True)

    def line(self) -> list[str]:
        """Its next line, as words."""
        assert self.process.stdout is not None
        return self.process.stdout.readline().split()

    def end(self, seconds: float = SOON) -> tuple[int, list[str]]:
        """Its status, and the words of its last line."""
        text, fault = self.process.communicate(timeout=seconds)
        lines = (text + fault).splitlines()
        return self.process.returncode, lines[-1].split() if lines else []

    def stop(self, number: int = signal.SIGKILL) -> None:
        """Sends it a signal, and waits for its end."""
        if self.process.poll() is None:
            self.process.send_signal(number)
        with contextlib.suppress(subprocess.TimeoutExpired):
            self.process.wait(SOON)

    def close(self) -> None:
        self.stop()
        for stream in (self.process.stdout, self.process.stderr):
            if stream is not None:
                stream.close()


class Scene(contextlib.ExitStack):
    """Clients of a lock service at these nodes, of which f may lie. `cases/locks` plays the same over real nodes.

    What isn't as it must be raises `AssertionError`.
    """

    def __init__(self, places: list[str], f: int):
        super().__init__()
        self.places, self.f = places, f
        self.reader = locks.LockClient(self.enter_context(Cluster(places, f)), locks.NOBODY)
        self.callback(self.reader.close)

    def run(self, *words: str) -> Process:
        one = Process(self.places, self.f, *words)
        self.callback(one.close)
        return one

    def ends(self, status: int, words: str, *given: str) -> list[str]:
        """Runs the script, and answers what its last line has behind these words, with which it begins."""
        return ended(self.run(*given), status, words)

    def held_by(self, name: str) -> tuple[int, int] | None:
        """The client that holds a lock, and its token."""
        held = self.reader.holder(name)
        return None if held is None else (held.client, held.token)

    def holds(self, name: str, client: int, lease: int) -> tuple[Process, int]:
        """A client that has a lock and stays, and its token."""
        one = self.run("acquire", name, "--client", str(client), "--hold", "--wait", "15", "--lease", str(lease))
        return one, told_token(one, name, client)

    def lets_go(self, holder: Process, name: str) -> None:
        holder.stop(signal.SIGTERM)
        ended(holder, 0, f"released {name}")

    def simple(self) -> None:
        """One client acquires and releases, and another one is told who holds the lock."""
        self.ends(1, "free simple", "holder", "simple")
        token = self.ends(0, "acquired simple client 1 token", "acquire", "simple", "--client", "1")
        self.ends(0, f"held simple client 1 token {token[0]}", "holder", "simple")
        self.ends(1, f"held simple client 1 token {token[0]}", "acquire", "simple", "--client", "2")
        self.ends(1, f"held simple client 1 token {token[0]}", "release", "simple", "--client", "2")
        self.ends(0, "released simple", "release", "simple", "--client", "1")
        check(self.held_by("simple") is None, "the lock that was released isn't free")

    def compete(self) -> None:
        """Two clients compete for a lock: one has it, and the other one gets it once the first lets it go."""
        both = {client: self.run("acquire", "prize", "--client", str(client), "--hold", "--wait", "15", "--lease", "200") for client in (1, 2)}
        until, tokens = time.monotonic() + SOON, list[int]()
        while both:
            client, first = next(((client, one) for client, one in both.items() if is_told(one, 0.01)), (0, None))
            check(first is not None or time.monotonic() < until, "no client gets the lock")
            if first is not None:
                tokens.append(told_token(first, "prize", client))
                check(self.held_by("prize") == (client, tokens[-1]), "the winner isn't the holder")
                del both[client]
                check(not any(map(is_told, both.values())), "two clients hold a lock")
                self.lets_go(first, "prize")
        check(tokens == sorted(set(tokens)), f"the tokens don't rise: {tokens}")
        check(self.held_by("prize") is None, "the lock that was released isn't free")

    def renew(self) -> None:
        """A holder that lives keeps its lock, though the log goes on for twice its lease."""
        holder, token = self.holds("kept", 3, lease=50)
        for _ in range(110):
            self.reader.append("tick")
            time.sleep(0.03)
        self.ends(1, f"held kept client 3 token {token}", "acquire", "kept", "--client", "4")
        check(self.held_by("kept") == (3, token), "the holder lost its lock")
        self.lets_go(holder, "kept")

    def die(self) -> None:
        """A client dies with a lock, and another one gets it after the lease, with a greater token."""
        holder, token = self.holds("left", 5, lease=16)
        holder.stop(signal.SIGKILL)
        taken = self.ends(0, "acquired left client 6 token", "acquire", "left", "--client", "6", "--wait", "15")
        check(int(taken[0]) > token + 16, f"the lock of {token} was taken at {taken[0]}, within its lease")
        check(self.held_by("left") == (6, int(taken[0])), "the one that took the lock isn't the holder")


def check(is_right: bool, wrong: str) -> None:
    if not is_right:
        raise AssertionError(wrong)


def ended(process: Process, status: int, words: str) -> list[str]:
    found, line = process.end()
    front = words.split()
    check((found, line[: len(front)]) == (status, front), f"{words!r} and status {status} were expected, and not {' '.join(line)!r} and {found}")
    return line[len(front) :]


def told_token(process: Process, name: str, client: int) -> int:
    """The token of a client that says that it acquired a lock."""
    words = process.line()
    check(words[:-1] == f"acquired {name} client {client} token".split(), f"a client that was to acquire a lock says {words or process.end()}")
    return int(words[-1])


def is_told(process: Process, seconds: float = 0.0) -> bool:
    """Whether a process has said something, or ended."""
    return bool(select.select([process.process.stdout], [], [], seconds)[0])


class Liar(played.LyingPieces, played.LyingReplies):
    """Lies in all that it says."""


class Clients(unittest.TestCase):
    """The script over four nodes that are played, of which one lies in all that it says."""

    def setUp(self) -> None:
        self.session = played.Session(1)
        nodes = [kind(self.session) for kind in (played.Node, Liar, played.Node, played.Node)]
        for node in nodes:
            self.addCleanup(node.stop)
        self.places = [node.place for node in nodes]
        self.scene = Scene(self.places, 1)
        self.addCleanup(self.scene.close)

    def test_simple(self) -> None:
        self.scene.simple()

    def test_two_that_compete(self) -> None:
        self.scene.compete()

    def test_one_that_renews(self) -> None:
        self.scene.renew()

    def test_one_that_dies(self) -> None:
        self.scene.die()

    def test_a_number_of_a_request_that_was_used(self) -> None:
        with Cluster(self.places, 1) as cluster:
            for request in range(3):
                cluster.submit(7, request, b"older")
            drawn = iter([1, 0, 2, 3])
            client = locks.LockClient(cluster, 7)
            self.addCleanup(client.close)
            with unittest.mock.patch.object(locks.secrets, "randbits", lambda _: next(drawn)):
                self.assertEqual(client.acquire("door").token, 3)
            self.assertEqual(len(self.session.rows), 4)

    def test_a_holder_that_is_too_late(self) -> None:
        with Cluster(self.places, 1) as cluster:
            client = locks.LockClient(cluster, 7, 0.02)
            self.addCleanup(client.close)
            held, until = client.acquire("door", lease=3), time.monotonic() + SOON
            self.assertTrue(client.hold("door", held, iter((False, False, True)).__next__))
            self.session.append(9)
            self.assertFalse(client.hold("door", held, lambda: time.monotonic() > until))
            self.assertLess(time.monotonic(), until)
            self.assertGreater(client.acquire("door", lease=3).token, held.token)

    def test_nodes_that_dont_know_of_queries(self) -> None:
        session = played.Session(1)
        nodes = [played.Old(session) for _ in range(4)]
        for node in nodes:
            self.addCleanup(node.stop)
        scene = Scene([node.place for node in nodes], 1)
        self.addCleanup(scene.close)
        self.assertEqual(scene.run("holder", "door").end()[0], 3)

    def test_words(self) -> None:
        def status(*words: str) -> int:
            nowhere = io.StringIO()
            with unittest.mock.patch.object(sys, "argv", [SCRIPT, *words]), contextlib.redirect_stderr(nowhere), contextlib.redirect_stdout(nowhere):
                try:
                    return int(locks.main())
                except SystemExit as end:
                    return int(end.code or 0)

        nodes = "--nodes", *self.places
        for wrong in ((), ("holder", "door"), ("acquire", "door", *nodes), ("acquire", "the door", "--client", "1", *nodes),
                      ("holder", "door", "--nodes", "here"), ("holder", "door", "--f", "2", *nodes), ("acquire", "door", "--client", "-1", *nodes),
                      ("holder", "door", "--cluster", os.devnull), ("holder", "door", "--cluster", SCRIPT, *nodes)):
            self.assertEqual(status(*wrong), 2, wrong)
        with tempfile.NamedTemporaryFile("w") as file:
            file.write("ritas 1\nn 4\nf 1\n" + "".join(f"peer {place}\n" for place in self.places))
            file.flush()
            self.assertEqual(status("acquire", "door", "--client", "1", "--cluster", file.name), 0)


if __name__ == "__main__":
    unittest.main()

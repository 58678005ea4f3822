"""Tests of `ritas_client`: `python3 -m unittest` in this folder.

Most are over nodes that are played. Those over real ones run the repository's program (`RITAS` may name another one). They are skipped if it can't be run.
"""
from __future__ import annotations

import importlib
import os
import random
import socket
import struct
import sys
import tempfile
import threading
import time
import types
import unittest
import unittest.mock
from collections.abc import Callable

import played
import ritas_client
from ritas_client import (Ahead, Changed, Cluster, Malformed, Observer, QueriesRefused, Refused, Row, TimedOut, query_message, read_piece, read_reply,
                          request_message)

TOP = os.path.join(os.path.dirname(os.path.abspath(__file__)), "..", "..")
HI = bytes.fromhex("0300000000010000000000000000070000000100026869")
SOON = 10.0


def front(position: int, count: int) -> bytes:
    return struct.pack(">BIB", 3, position, count)


def some_row(position: int, payload: bytes = b"x") -> Row:
    return Row(position, 1, position, 7, position, payload)


def some_piece(position: int, count: int, payload: bytes = b"x") -> bytes:
    return played.piece_bytes(position, [some_row(position + place, payload) for place in range(count)])


class Messages(unittest.TestCase):
    """Messages are written and read byte for byte."""

    def malformed(self, message: bytes, offset: int) -> None:
        with self.assertRaises(Malformed) as caught:
            read_piece(4, message)
        self.assertEqual(caught.exception.offset, offset)

    def test_what_is_sent(self) -> None:
        self.assertEqual(query_message(258).hex(), "4c00000102")
        self.assertEqual(request_message(7, 1, b"hi").hex(), "00000007000000016869")
        for wrong in (lambda: query_message(-1), lambda: query_message(1 << 32), lambda: request_message(1 << 32, 0, b""),
                      lambda: request_message(0, -1, b""), lambda: request_message(0, 0, bytes(4089))):
            self.assertRaises(ValueError, wrong)

    def test_reply(self) -> None:
        self.assertEqual(read_reply(bytes.fromhex("01000000070000000100000003")), (1, 7, 1, 3))
        self.assertEqual(read_reply(bytes.fromhex("02000000000000000000000008")), (2, 0, 0, 8))
        for wrong in (b"", bytes(13), b"\3" + bytes(12), b"\1" + bytes(11), b"\1" + bytes(13)):
            self.assertRaises(Malformed, read_reply, wrong)

    def test_piece(self) -> None:
        self.assertEqual(read_piece(4, HI), (0, [Row(0, 0, 0, 7, 1, b"hi")]))
        self.assertEqual(read_piece(4, front(9, 0)), (9, []))
        position, rows = read_piece(4, some_piece(5, 8))
        self.assertEqual((position, rows), (5, [some_row(place) for place in range(5, 13)]))

    def test_each_field_that_is_wrong(self) -> None:
        self.malformed(b"", 0)
        self.malformed(b"\1" + HI[1:], 0)
        self.malformed(HI[:3], 3)
        self.malformed(HI[:5] + b"\x09" + HI[6:], 5)
        self.malformed(front(2**32 - 1, 1) + HI[6:], 5)
        self.malformed(HI[:6] + b"\4" + HI[7:], 6)
        self.malformed(HI[:7] + (1_000_000).to_bytes(4, "big") + HI[11:], 7)
        self.malformed(HI[:19] + (4089).to_bytes(2, "big") + bytes(4089), 19)
        self.malformed(HI[:-1], len(HI) - 1)
        self.malformed(HI + b"\0", len(HI))

    def test_each_front_of_a_piece_lacks_what_follows(self) -> None:
        whole = some_piece(5, 3, b"some bytes")
        for size in range(len(whole)):
            self.malformed(whole[:size], size)

    def test_a_piece_has_one_spelling(self) -> None:
        lot, taken = random.Random(1), 0
        for _ in range(5000):
            text = bytearray(some_piece(lot.randrange(9), lot.randrange(9), b"x" * lot.randrange(4)))
            for _ in range(lot.randrange(3)):
                text[lot.randrange(len(text))] = lot.choice((0, 1, 3, 8, 255, lot.randrange(256)))
            try:
                position, rows = read_piece(4, bytes(text))
            except Malformed as fault:
                self.assertIn(fault.offset, range(len(text) + 1))
                continue
            taken += 1
            self.assertEqual(played.piece_bytes(position, rows), text)
            self.assertEqual([row.position for row in rows], list(range(position, position + len(rows))))
        self.assertIn(taken, range(1500, 4500))

    def test_longest_piece(self) -> None:
        rows = [some_row(place, bytes(4088)) for place in range(3)]
        rest = 16384 - len(played.piece_bytes(0, rows)) - 15
        fits, over = ([*rows, some_row(3, bytes(rest + more))] for more in (0, 1))
        self.assertEqual(read_piece(4, played.piece_bytes(0, fits)), (0, fits))
        self.malformed(played.piece_bytes(0, over), 16384)
        self.malformed(played.piece_bytes(0, fits) + b"\0", 16384)


class Observers(unittest.TestCase):
    """A row is entered once f + 1 nodes gave it, and the first row that a node gave counts."""

    def setUp(self) -> None:
        self.observer = Observer(4, 1)

    def test_two_nodes_are_wanted(self) -> None:
        self.assertEqual(self.observer.piece(0, HI), [])
        self.assertEqual(self.observer.piece(0, HI), [])
        self.assertEqual(self.observer.piece(2, HI), [Row(0, 0, 0, 7, 1, b"hi")])
        self.assertEqual(self.observer.length, 1)

    def test_a_node_that_changes_its_row(self) -> None:
        other = HI[:-1] + b"\x6a"
        self.observer.piece(0, HI)
        with self.assertRaises(Changed) as caught:
            self.observer.piece(0, other)
        self.assertEqual(caught.exception.position, 0)
        self.assertEqual(self.observer.piece(3, other), [])
        self.assertEqual(self.observer.length, 0)

    def test_each_field_is_compared(self) -> None:
        row = some_row(0)
        for other in (row._replace(origin=2), row._replace(number=9), row._replace(client=9), row._replace(request=9), row._replace(payload=b"")):
            observer = Observer(4, 1)
            for node, one in enumerate((row, other)):
                self.assertEqual(observer.piece(node, played.piece_bytes(0, [one])), [])

    def test_rows_are_entered_as_far_as_they_go(self) -> None:
        self.observer.piece(0, some_piece(1, 5))
        self.observer.piece(1, some_piece(2, 4))
        self.assertEqual(self.observer.piece(1, some_piece(0, 1)), [])
        self.assertEqual(self.observer.piece(2, some_piece(0, 3)), [some_row(position) for position in range(6)])
        self.assertEqual(self.observer.piece(2, some_piece(6, 2)), [])
        self.assertEqual(self.observer.piece(3, some_piece(0, 7)), [some_row(6)])

    def test_window(self) -> None:
        for at in range(0, 64, 8):
            self.observer.piece(0, some_piece(at, 8))
        self.assertEqual(self.observer.kept(0), 64)
        with self.assertRaises(Ahead):
            self.observer.piece(0, some_piece(57, 8))
        self.assertEqual(self.observer.piece(0, front(2**32 - 1, 0)), [])
        self.assertEqual(len(self.observer.piece(1, some_piece(0, 8))), 8)
        self.assertEqual(self.observer.kept(0), 56)
        self.observer.piece(0, some_piece(64, 8))

    def test_rows_behind_count_no_more(self) -> None:
        self.observer.piece(0, HI)
        self.observer.piece(1, HI)
        self.assertEqual(self.observer.piece(0, HI[:-1] + b"\x6a"), [])
        self.assertEqual((self.observer.length, self.observer.kept(0)), (1, 0))

    def test_refused_pieces_change_nothing(self) -> None:
        self.observer.piece(0, some_piece(1, 1))
        for wrong in (some_piece(0, 2, b"y"), some_piece(0, 2) + b"\0", some_piece(60, 8)):
            self.assertRaises(ritas_client.PieceFault, self.observer.piece, 0, wrong)
        self.assertEqual(self.observer.kept(0), 1)


class Played(unittest.TestCase):
    """A test over nodes that are played, as many as kinds are named, of which at most f lie."""

    def play(self, *kinds: type[played.Node], f: int = 1) -> tuple[played.Session, list[played.Node], Cluster]:
        session = played.Session(f)
        nodes = [kind(session) for kind in kinds]
        cluster = Cluster([node.place for node in nodes], f, timeout=SOON)
        self.addCleanup(cluster.close)
        for node in nodes:
            self.addCleanup(node.stop)
        return session, nodes, cluster

    def first(self, cluster: Cluster, count: int, from_position: int = 0) -> list[Row]:
        rows = []
        for row in cluster.follow(from_position, timeout=SOON):
            rows.append(row)
            if len(rows) == count:
                break
        return rows

    def await_that(self, holds: Callable[[], bool]) -> None:
        until = time.monotonic() + SOON
        while not holds():
            self.assertLess(time.monotonic(), until)
            time.sleep(0.005)


HONEST = played.Node


class Submitting(Played):
    """A position is believed once f + 1 nodes replied it, and the command goes to as many nodes as it must."""

    def test_positions(self) -> None:
        session, nodes, cluster = self.play(*[HONEST] * 4)
        self.assertEqual([cluster.submit(7, request, b"hi") for request in range(5)], list(range(5)))
        self.assertTrue(all(len(givers) == 2 for givers in session.handed.values()))
        self.assertEqual(cluster.submit(7, 2, b"hi"), 2)
        self.assertEqual(len(session.rows), 5)
        self.assertEqual([node.taken for node in nodes], [1] * 4)

    def test_one_node_and_nodes_that_dont_lie(self) -> None:
        for count in (1, 3):
            session, _, cluster = self.play(*[HONEST] * count, f=0)
            self.assertEqual([cluster.submit(7, request, b"hi") for request in range(5)], list(range(5)))
            self.assertEqual(self.first(cluster, 5), session.rows)
            self.assertTrue(all(len(givers) == 1 for givers in session.handed.values()))

    def test_arguments(self) -> None:
        _, nodes, cluster = self.play(*[HONEST] * 4)
        places = [node.place for node in nodes]
        for wrong in (lambda: Cluster(places[:3], 1), lambda: Cluster(places, -1), lambda: Cluster(["here", *places[1:]], 1),
                      lambda: Cluster(places * 8, 1), lambda: cluster.submit(-1, 0, b""), lambda: cluster.submit(0, 0, bytes(4089)),
                      lambda: cluster.follower(-1)):
            self.assertRaises(ValueError, wrong)
        pairs = Cluster([("127.0.0.1", node.port) for node in nodes], 1)
        self.addCleanup(pairs.close)
        self.assertEqual(pairs.submit(1, 1, bytes(4088)), 0)

    def test_liars_in_replies(self) -> None:
        for place in range(4):
            kinds: list[type[played.Node]] = [HONEST] * 4
            kinds[place] = played.LyingReplies
            _, _, cluster = self.play(*kinds)
            self.assertEqual([cluster.submit(7, request, b"hi") for request in range(8)], list(range(8)))

    def test_the_first_reply_of_a_node_counts(self) -> None:
        class Second(played.Node):
            def request(self, link: socket.socket, message: bytes) -> None:
                played.say(link, struct.pack(">B8sI", 1, message[:8], 77))
                super().request(link, message)

        _, _, cluster = self.play(Second, HONEST, played.Silent, played.Silent)
        self.assertRaises(TimedOut, cluster.submit, 7, 1, b"hi", timeout=0.7)

    def test_two_liars_of_seven(self) -> None:
        _, _, cluster = self.play(*[played.LyingReplies] * 2, *[HONEST] * 5, f=2)
        self.assertEqual([cluster.submit(7, request, b"hi") for request in range(7)], list(range(7)))

    def test_a_silent_one(self) -> None:
        _, _, cluster = self.play(played.Silent, HONEST, HONEST, HONEST)
        begun = time.monotonic()
        self.assertEqual([cluster.submit(7, request, b"hi") for request in range(12)], list(range(12)))
        self.assertLess(time.monotonic() - begun, 6 * ritas_client.PATIENCE)

    def test_one_that_is_down(self) -> None:
        _, nodes, cluster = self.play(*[HONEST] * 4)
        for down in range(4):
            nodes[down].stop()
            self.assertEqual([cluster.submit(7, 4 * down + more, b"hi") for more in range(4)], [4 * down + more for more in range(4)])
            nodes[down].start()

    def test_two_that_are_down_and_one_that_comes_back(self) -> None:
        _, nodes, cluster = self.play(*[HONEST] * 4)
        for node in nodes[:3]:
            node.stop()
        threading.Timer(0.6, nodes[1].start).start()
        self.assertEqual(cluster.submit(7, 1, b"hi"), 0)

    def test_full_windows(self) -> None:
        _, nodes, cluster = self.play(*[played.Refusing] * 4)
        for node in nodes:
            setattr(node, "times", 3)
        self.assertEqual(cluster.submit(7, 1, b"hi"), 0)

    def test_windows_that_stay_full(self) -> None:
        _, _, cluster = self.play(*[played.Refusing] * 3, HONEST)
        with self.assertRaises(Refused) as caught:
            cluster.submit(7, 1, b"hi", timeout=0.5)
        self.assertEqual(set(caught.exception.numbers.values()), {7})

    def test_refused_for_good(self) -> None:
        _, nodes, cluster = self.play(*[played.Refusing] * 4)
        for node in nodes:
            setattr(node, "number", 8)
        begun = time.monotonic()
        self.assertRaises(Refused, cluster.submit, 7, 1, b"hi")
        self.assertLess(time.monotonic() - begun, SOON / 2)

    def test_one_that_refuses(self) -> None:
        _, nodes, cluster = self.play(played.Refusing, HONEST, HONEST, HONEST)
        setattr(nodes[0], "number", 8)
        self.assertEqual([cluster.submit(7, request, b"hi") for request in range(4)], list(range(4)))

    def test_replies_to_an_earlier_request(self) -> None:
        class Slow(played.Node):
            is_slow = True

            def tell(self) -> None:
                if not self.is_slow:
                    super().tell()

        _, _, cluster = self.play(*[Slow] * 4)
        self.assertRaises(TimedOut, cluster.submit, 7, 1, b"hi", timeout=0.5)
        Slow.is_slow = False
        self.assertEqual(cluster.submit(7, 2, b"hi"), 1)
        self.assertEqual(cluster.submit(7, 1, b"hi"), 0)

    def test_others_stand_in_at_once(self) -> None:
        for wrong in ("refuses", "is down"):
            _, nodes, cluster = self.play(played.Refusing, HONEST, HONEST, HONEST)
            if wrong == "is down":
                nodes[0].stop()
            cluster.timeout = ritas_client.ANSWER / 2
            with unittest.mock.patch.object(ritas_client, "PATIENCE", 1000.0):
                self.assertEqual([cluster.submit(7, request, b"hi") for request in range(5)], list(range(5)))

    def test_time_limit(self) -> None:
        _, _, cluster = self.play(HONEST, *[played.Silent] * 3)
        begun = time.monotonic()
        self.assertRaises(TimedOut, cluster.submit, 7, 1, b"hi", timeout=0.7)
        self.assertLess(time.monotonic() - begun, 1.5)
        self.assertTrue(issubclass(TimedOut, TimeoutError))

    def test_none_is_there(self) -> None:
        _, nodes, cluster = self.play(*[HONEST] * 4)
        for node in nodes:
            node.stop()
        self.assertRaises(TimedOut, cluster.submit, 7, 1, b"hi", timeout=0.3)

    def test_junk_for_replies(self) -> None:
        class Junk(played.Node):
            def request(self, link: socket.socket, message: bytes) -> None:
                played.say(link, b"junk")

        for junk in (b"junk", b"\3" + bytes(12), bytes(60000)):
            Junk.request = lambda self, link, message, junk=junk: played.say(link, junk)  # type: ignore
            _, _, cluster = self.play(Junk, HONEST, HONEST, HONEST)
            self.assertEqual([cluster.submit(7, request, b"hi") for request in range(8)], list(range(8)))
            self.assertGreater(cluster.faults[0], 0)
            self.assertEqual(cluster.faults[1:], [0] * 3)


class Following(Played):
    """A row is told once f + 1 nodes gave it, whatever others do."""

    def test_rows(self) -> None:
        session, _, cluster = self.play(*[HONEST] * 4)
        session.append(300)
        self.assertEqual(self.first(cluster, 300), session.rows)
        self.assertEqual(self.first(cluster, 10, 290), session.rows[290:])

    def test_long_rows(self) -> None:
        session, _, cluster = self.play(*[HONEST] * 4)
        session.append(20, payload=bytes(4088))
        self.assertEqual(self.first(cluster, 20), session.rows)

    def test_rows_that_come_later(self) -> None:
        session, _, cluster = self.play(*[HONEST] * 4)
        threading.Timer(0.3, session.append, (3,)).start()
        self.assertEqual(self.first(cluster, 3), session.rows)

    def test_no_row_in_time(self) -> None:
        _, _, cluster = self.play(*[HONEST] * 4)
        self.assertRaises(TimedOut, next, cluster.follow(timeout=0.2))
        with cluster.follower() as follower:
            self.assertIsNone(follower.next_row(0.1))
            self.assertIsNone(follower.next_row(0))

    def test_submitting_while_following(self) -> None:
        session, _, cluster = self.play(*[HONEST] * 4)
        with cluster.follower() as follower:
            for request in range(20):
                position = cluster.submit(7, request, b"%d" % request)
                row = follower.next_row(SOON)
                self.assertEqual(row, session.rows[position])

    def one_other(self, kind: type[played.Node], count: int = 100) -> tuple[played.Session, list[played.Node], Cluster]:
        """Follows rows over three honest nodes beside another one, and rows that come later."""
        session, nodes, cluster = self.play(kind, HONEST, HONEST, HONEST)
        session.append(count)
        threading.Timer(0.2, session.append, (count,)).start()
        self.assertEqual(self.first(cluster, 2 * count), session.rows)
        self.assertEqual(cluster.faults[1:], [0] * 3)
        return session, nodes, cluster

    def test_a_liar_in_rows(self) -> None:
        self.one_other(played.LyingPieces)

    def test_a_liar_in_rows_beside_one_that_is_down(self) -> None:
        session, nodes, cluster = self.play(played.LyingPieces, HONEST, HONEST, HONEST)
        nodes[1].stop()
        session.append(100)
        self.assertEqual(self.first(cluster, 100), session.rows)

    def test_two_liars_of_seven(self) -> None:
        session, _, cluster = self.play(*[played.LyingPieces] * 2, *[HONEST] * 5, f=2)
        session.append(100)
        self.assertEqual(self.first(cluster, 100), session.rows)

    def test_liars_alone_tell_nothing(self) -> None:
        session, _, cluster = self.play(played.LyingPieces, HONEST, played.Silent, played.Silent)
        session.append(10)
        self.assertRaises(TimedOut, next, cluster.follow(timeout=0.5))

    def test_one_that_changes_rows(self) -> None:
        session, nodes, cluster = self.play(played.Changing, HONEST, played.Silent, played.Silent)
        session.append(10)
        self.assertRaises(TimedOut, next, cluster.follow(timeout=0.8))
        self.assertGreater(cluster.faults[0], 0)
        # The pauses between its connections grow.
        self.assertLess(nodes[0].taken, 9)

    def test_one_that_changes_rows_beside_honest_ones(self) -> None:
        self.one_other(played.Changing)

    def test_malformed_pieces(self) -> None:
        _, nodes, cluster = self.one_other(played.Malformed)
        self.assertGreater(cluster.faults[0], 0)
        self.assertLess(nodes[0].taken, 9)

    def test_each_malformed_piece_ends_the_connection(self) -> None:
        session, nodes, cluster = self.play(played.Malformed, *[played.Silent] * 3)
        session.append(8)
        liar = nodes[0]
        assert isinstance(liar, played.Malformed)
        for place in range(len(liar.wrongs(0))):
            setattr(liar, "piece", lambda position, place=place: liar.wrongs(position)[place])
            cluster.faults[0] = 0
            with cluster.follower() as follower:
                until = time.monotonic() + SOON
                while not cluster.faults[0] and time.monotonic() < until:
                    follower.next_row(0.01)
            self.assertGreater(cluster.faults[0], 0, f"wrong piece {place} was taken")

    def test_one_that_floods(self) -> None:
        _, _, cluster = self.one_other(played.Flooding)
        self.assertGreater(cluster.faults[0], 0)

    def test_a_piece_that_nobody_asked_for(self) -> None:
        _, nodes, cluster = self.play(played.Flooding, HONEST, HONEST, HONEST)
        with cluster.follower() as follower:
            self.assertIsNone(follower.next_row(1.0))
            self.await_that(lambda: follower.next_row(0.05) is None and cluster.faults[0] > 0)
        # The pauses between its connections grow, and nothing is looked at behind what is wrong.
        self.assertLess(nodes[0].taken, 9)
        self.assertLessEqual(cluster.faults[0], nodes[0].taken)

    def test_one_that_begins_a_message_that_is_too_long(self) -> None:
        class Beginning(played.Node):
            def query(self, link: socket.socket, position: int) -> bool:
                link.sendall(struct.pack(">H", ritas_client.MOST_PIECE + 1))
                return True

        _, _, cluster = self.play(Beginning, HONEST, HONEST, HONEST)
        with cluster.follower() as follower:
            self.await_that(lambda: follower.next_row(0.05) is None and cluster.faults[0] > 0)

    def test_a_silent_one(self) -> None:
        self.one_other(played.Silent)

    def test_a_silent_one_is_dialed_again(self) -> None:
        _, nodes, cluster = self.play(played.Silent, HONEST, HONEST, HONEST)
        with unittest.mock.patch.object(ritas_client, "ANSWER", 0.6), cluster.follower() as follower:
            self.await_that(lambda: follower.next_row(0.05) is None and nodes[0].taken > 2)

    def test_a_reader_that_takes_its_time(self) -> None:
        session, nodes, cluster = self.play(*[HONEST] * 4)
        session.append(100)
        with unittest.mock.patch.object(ritas_client, "ANSWER", 0.6), cluster.follower() as follower:
            for place in range(100):
                self.assertEqual(follower.next_row(SOON), session.rows[place])
                if place in (0, 40, 80):
                    time.sleep(0.8)
        self.assertEqual([node.taken for node in nodes], [1] * 4)

    def test_an_old_one(self) -> None:
        self.one_other(played.Old)

    def test_old_ones_alone(self) -> None:
        session, _, cluster = self.play(*[played.Old] * 3, HONEST)
        session.append(3)
        self.assertRaises(QueriesRefused, next, cluster.follow(timeout=SOON))

    def test_one_behind(self) -> None:
        session, nodes, cluster = self.play(HONEST, HONEST, played.Silent, played.Silent)
        session.append(200)
        nodes[0].behind = 150
        with cluster.follower() as follower:
            for position in range(50):
                self.assertEqual(follower.next_row(SOON), session.rows[position])
            self.assertIsNone(follower.next_row(0.2))
            # What the other one gave meanwhile is bounded.
            self.assertIn(follower._observer.kept(1), range(57, 65))
            nodes[0].behind = 0
            self.assertEqual([follower.next_row(SOON) for _ in range(150)], session.rows[50:])

    def test_one_that_goes_and_comes_back(self) -> None:
        session, nodes, cluster = self.play(HONEST, HONEST, played.Silent, played.Silent)
        session.append(20)
        with cluster.follower() as follower:
            self.assertEqual([follower.next_row(SOON) for _ in range(20)], session.rows)
            nodes[0].stop()
            session.append(20)
            self.assertIsNone(follower.next_row(0.2))
            nodes[0].start()
            self.assertEqual([follower.next_row(SOON) for _ in range(20)], session.rows[20:])

    def test_it_is_polite(self) -> None:
        session, nodes, cluster = self.play(*[HONEST] * 4)
        with cluster.follower() as follower:
            self.assertIsNone(follower.next_row(1.0))
            self.assertTrue(all(5 <= node.queries <= 40 for node in nodes), [node.queries for node in nodes])
            asked = [node.queries for node in nodes]
            time.sleep(0.2)
            self.assertTrue(all(node.queries - before <= 1 for node, before in zip(nodes, asked)))

    def test_a_row_of_one_node_wakes_the_others(self) -> None:
        session, _, cluster = self.play(*[HONEST] * 4)
        with cluster.follower() as follower:
            self.await_that(lambda: follower.next_row(0.05) is None and all(map(follower._lines.is_up, range(4))))
            for asking in follower._asking:
                asking.rest = 1000.0
            self.await_that(lambda: follower.next_row(0.05) is None and all(one.rest_until > time.monotonic() + 100 for one in follower._asking))
            session.append(1)
            self.assertIsNone(follower.next_row(0.2))
            follower._asking[0].rest_until = 0.0
            self.assertEqual(follower.next_row(SOON), session.rows[0])

    def test_a_liar_makes_nobody_ask_more(self) -> None:
        _, nodes, cluster = self.play(played.LyingPieces, HONEST, HONEST, HONEST)
        with cluster.follower() as follower:
            self.assertIsNone(follower.next_row(1.0))
        self.assertTrue(all(node.queries <= 40 + 64 for node in nodes), [node.queries for node in nodes])


def serving_module() -> types.ModuleType:
    """The repository's `examples/serving.py`, with the program that is to be run. If one of them isn't there, the tests are skipped."""
    program = os.environ.get("RITAS") or os.path.join(TOP, "crates", "ritas", "out", "ritas")
    if not os.access(program, os.X_OK):
        raise unittest.SkipTest(f"no real nodes: {os.path.normpath(program)} isn't built, and RITAS names no program")
    sys.path.append(os.path.join(TOP, "examples"))
    try:
        serving = importlib.import_module("serving")
    except ImportError as fault:
        raise unittest.SkipTest(f"no real nodes: {fault}")
    setattr(serving, "PROGRAM", os.path.abspath(program))
    return serving


class Real(unittest.TestCase):
    """Four real nodes, of which one lies to clients, in its replies and in its pieces, by a proxy."""

    LIAR, COUNT = 2, 40
    places: list[str]
    proxy: played.Proxy

    @classmethod
    def setUpClass(cls) -> None:
        serving = serving_module()
        folder = tempfile.TemporaryDirectory(prefix="ritas-", dir=serving.MEMORY)
        cls.addClassCleanup(folder.cleanup)
        session = serving.Session(4, 1, vect="reliable")
        cls.addClassCleanup(serving.stop_all, serving.start(folder.name, session, range(4)))
        cls.proxy = played.Proxy(session.clients[cls.LIAR])
        cls.addClassCleanup(cls.proxy.close)
        ports = [*session.clients]
        ports[cls.LIAR] = cls.proxy.port
        cls.places = [f"{played.HOST}:{port}" for port in ports]

    def setUp(self) -> None:
        self.cluster = Cluster(self.places, 1)
        self.addCleanup(self.cluster.close)

    def test_1_submit(self) -> None:
        heard = self.proxy.heard
        positions = [self.cluster.submit(7, request, b"%d" % request) for request in range(self.COUNT)]
        self.assertEqual(positions, list(range(self.COUNT)))
        self.assertEqual([self.cluster.submit(7, request, b"%d" % request) for request in (5, 0)], [5, 0])
        self.assertGreater(self.proxy.heard, heard)

    def test_2_follow(self) -> None:
        heard = self.proxy.heard
        with self.cluster.follower() as follower:
            for place in range(self.COUNT):
                row = follower.next_row(SOON)
                assert row is not None
                self.assertEqual((row[0], *row[3:]), (place, 7, place, b"%d" % place))
            until = time.monotonic() + SOON
            while self.proxy.heard == heard:
                self.assertIsNone(follower.next_row(0.05))
                self.assertLess(time.monotonic(), until, "nobody hears the liar")
        position = self.cluster.submit(8, 0, b"one more")
        self.assertEqual(next(self.cluster.follow(position, timeout=SOON))[3:], (8, 0, b"one more"))


if __name__ == "__main__":
    unittest.main()

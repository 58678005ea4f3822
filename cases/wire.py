"""A proxy between nodes: each connection of two nodes goes through it, and a weather says what becomes of what they write."""
import collections
import selectors
import socket
import struct
import threading
import time

import serving

MOST_READ, MOST_UNSEEN, SEEN_AT_ONCE = 1 << 18, 1 << 17, 32
TICK = 0.02
# So that closing a connection resets it.
RESETS = struct.pack("ii", 1, 0)


class Flow:
    """One direction of a connection. What its source writes waits here until it goes to its target."""

    def __init__(self, link, pair: tuple, source: socket.socket, target: socket.socket, sight):
        self.link, self.pair, self.source, self.target, self.sight = link, pair, source, target, sight
        # The side that connects tells its number before its first piece.
        self.rest, self.at = b"", 1 if pair[0] > pair[1] else 0
        self.queue = collections.deque()
        self.taken = self.size = self.passed = self.lost = 0
        self.has_ended = self.is_dead = self.is_told = self.is_full = False

    def read(self) -> bytes:
        """What came, at most so much; nothing where nothing more comes."""
        try:
            text = self.source.recv(MOST_READ)
        except BlockingIOError:
            return b""
        except OSError:
            self.link.flow_to(self.source).die()
            text = b""
        self.has_ended = not text
        return text

    def see(self, text: bytes) -> None:
        """Takes the whole pieces of what came."""
        came, at = self.rest + text, self.at
        while len(came) >= at + 2 and len(came) >= (end := at + 2 + int.from_bytes(came[at : at + 2], "big")):
            self.sight.take(came[at + 2 : end])
            at = end
        self.rest, self.at = (came[at:], 0) if len(came) >= at else (came, at)

    def keep(self, due: float, text: bytes) -> None:
        self.queue.append((due, text))
        self.size += len(text)

    def pass_all_but(self, count: int) -> None:
        """Gives its target what waits, but not these last bytes of what came last."""
        due, text = self.queue.pop()
        front = len(text) - count
        self.queue.append((due, text[:front]))
        self.pass_on(due)
        self.queue.append((due, text[front:]))

    def die(self) -> None:
        """Its target takes nothing more: what waits is lost."""
        self.is_dead = True
        self.lost += self.size
        self.queue.clear()
        self.size = 0

    def pass_on(self, now: float) -> None:
        """Gives its target what is due, as far as it takes it."""
        self.is_full = False
        while self.queue and self.queue[0][0] <= now and not self.is_full:
            due, text = self.queue.popleft()
            try:
                count = self.target.send(text) if text else 0
            except BlockingIOError:
                count = 0
            except OSError:
                self.queue.appendleft((due, text))
                return self.die()
            self.size -= count
            self.passed += count
            if count < len(text):
                self.queue.appendleft((due, text[count:]))
                self.is_full = True

    def is_over(self) -> bool:
        return self.is_dead or self.has_ended and not self.queue


class Link:
    """A connection of two nodes: the dialer's with the proxy, and the proxy's with the other one."""

    def __init__(self, number: int, pair: tuple, dialer: socket.socket, other: socket.socket, sights):
        self.number, self.pair, self.sockets = number, pair, (dialer, other)
        self.out = Flow(self, pair, dialer, other, sights[pair])
        self.back = Flow(self, pair[::-1], other, dialer, sights[pair[::-1]])
        self.flows = self.out, self.back
        self.newer = None

    def taken(self) -> int:
        """How many bytes came, from both."""
        return self.out.taken + self.back.taken

    def is_busy(self) -> bool:
        """Whether something waits in it, or one of its sides has ended."""
        return any(flow.queue or flow.has_ended or flow.is_dead for flow in self.flows)

    def flow_of(self, source: socket.socket) -> Flow:
        return self.out if source is self.out.source else self.back

    def flow_to(self, target: socket.socket) -> Flow:
        return self.out if target is self.out.target else self.back


class Door:
    """A port of the proxy, which stands for the node of the second replica of a pair towards the first one's."""

    def __init__(self, pair: tuple, port: int, leads_to: int):
        self.pair, self.port, self.leads_to, self.listener = pair, port, leads_to, None


class Weather:
    """Fair weather: what comes goes on at once. Other weathers change what they name."""

    def refuses(self, pair: tuple) -> bool:
        """Whether these two have no connection, and get none."""
        return False

    def delay(self, pair: tuple) -> float:
        """How many seconds later than it came a text goes on."""
        return 0

    def holds(self, flow: Flow) -> bool:
        """Whether nothing of this flow goes on now."""
        return False

    def opened(self, proxy, link: Link) -> None:
        """A connection was made."""

    def took(self, proxy, flow: Flow, size: int) -> None:
        """So many bytes came, and wait."""

    def ticks(self, proxy) -> None:
        """Comes again and again."""


class Proxy(threading.Thread):
    """The proxy of a session. What is decided by lot comes from `lot`."""

    def __init__(self, sights, lot):
        super().__init__(daemon=True)
        self.sights, self.lot, self.weather = sights, lot, Weather()
        self.selector, self.lock = selectors.DefaultSelector(), threading.Lock()
        self.doors, self.links, self.log = [], [], []
        # What came and wasn't looked at yet, by its flow, and whether it is to wait until somebody asks for what was seen.
        self.unseen, self.looks_later = collections.deque(), False
        self.number = self.lost = self.overtaken = 0
        # Of each pair, how often its connection was cut.
        self.cuts = collections.Counter()
        self.goes, self.fault, self.since = True, None, time.monotonic()

    def say(self, text: str) -> None:
        self.log.append(f"{time.monotonic() - self.since:9.4f} {text}\n")

    def open_door(self, pair: tuple, port: int, leads_to: int) -> None:
        """At this port the node of the first replica finds that of the second, which is at the other port."""
        door = Door(pair, port, leads_to)
        with self.lock:
            self.doors.append(door)
            self.listen(door)

    def listen(self, door: Door) -> None:
        door.listener = socket.create_server((serving.HOST, door.port), backlog=64)
        door.listener.setblocking(False)
        self.selector.register(door.listener, selectors.EVENT_READ, door)

    def shut(self, door: Door) -> None:
        self.selector.unregister(door.listener)
        door.listener.close()
        door.listener = None

    def turn_to(self, weather: Weather) -> None:
        """From now on the weather is this."""
        with self.lock:
            self.weather = weather
            self.say(f"weather {type(weather).__name__}")
            for link in [link for link in self.links if weather.refuses(link.pair)]:
                self.cut(link)
            for door in self.doors:
                if weather.refuses(door.pair) and door.listener:
                    self.shut(door)
                elif not weather.refuses(door.pair) and not door.listener:
                    self.listen(door)
            for link in self.links:
                weather.opened(self, link)

    def cut_all(self, pairs) -> None:
        """Cuts the connections of these pairs, and what waits in them is lost."""
        with self.lock:
            for link in [link for link in self.links if link.pair in pairs or link.pair[::-1] in pairs]:
                self.cut(link)

    def standing(self) -> int:
        """How many pairs have a connection over which the dialer's number went."""
        with self.lock:
            return len({link.pair for link in self.links if link.out.passed > 0})

    def waiting(self, pair: tuple) -> int:
        """How many bytes wait on the way from the first replica to the second."""
        with self.lock:
            return sum(flow.size for link in self.links for flow in link.flows if flow.pair == pair)

    def cut(self, link: Link) -> None:
        """Ends a connection at both sides, at random by a reset or in order. What waits is lost."""
        self.cuts[link.pair] += 1
        resets = self.lot.random() < 0.5
        self.say(f"cut {link.pair} {link.number} after {link.taken()} bytes{', by a reset' if resets else ''}")
        for one in link.sockets:
            if resets and one.fileno() >= 0:
                one.setsockopt(socket.SOL_SOCKET, socket.SO_LINGER, RESETS)
        self.close(link)

    def close(self, link: Link) -> None:
        for flow in link.flows:
            flow.die()
            self.lost += flow.lost
        for one in link.sockets:
            self.close_socket(one)
        self.links.remove(link)

    def close_socket(self, one: socket.socket) -> None:
        if one.fileno() >= 0:
            if one in self.selector.get_map():
                self.selector.unregister(one)
            one.close()

    def accept(self, door: Door) -> None:
        try:
            dialer, _ = door.listener.accept()
        except OSError:
            return
        try:
            other = socket.create_connection((serving.HOST, door.leads_to), timeout=1)
        except OSError:
            return dialer.close()
        for one in (dialer, other):
            one.setblocking(False)
            one.setsockopt(socket.IPPROTO_TCP, socket.TCP_NODELAY, 1)
        self.number += 1
        link = Link(self.number, door.pair, dialer, other, self.sights)
        for older in self.links:
            if older.pair == link.pair and older.newer is None:
                older.newer = link
        self.links.append(link)
        for one in link.sockets:
            self.selector.register(one, selectors.EVENT_READ, link)
        self.weather.opened(self, link)

    def close_dialer(self, link: Link) -> None:
        """Ends the dialer's side of a connection. What it wrote still goes to the other one."""
        self.cuts[link.pair] += 1
        self.say(f"turned {link.pair} {link.number} with {link.out.size} bytes")
        link.out.has_ended = True
        link.back.die()
        self.close_socket(link.sockets[0])

    def take(self, link: Link, source: socket.socket) -> None:
        """Takes what came by one of a connection's sockets."""
        flow = link.flow_of(source)
        text = flow.read()
        if not text:
            return
        self.unseen.append((flow, text))
        flow.sight.bytes += len(text)
        flow.taken += len(text)
        if flow.is_dead:
            flow.lost += len(text)
        else:
            flow.keep(time.monotonic() + self.weather.delay(flow.pair), text)
            self.weather.took(self, flow, len(text))

    def settle(self, link: Link, now: float) -> None:
        """Passes on what is due, tells ends, and watches what is still of interest."""
        for flow in link.flows:
            before = flow.passed
            if not self.weather.holds(flow):
                flow.pass_on(now)
            if link.newer is not None and link.newer.out.passed > 0:
                self.overtaken += flow.passed - before
            if flow.is_over() and not flow.is_dead and not flow.is_told:
                flow.is_told = True
                end_writing(flow.target)
        if all(flow.is_over() for flow in link.flows):
            self.close(link)
        else:
            for one in link.sockets:
                self.watch(link, one)

    def watch(self, link: Link, one: socket.socket) -> None:
        if one.fileno() < 0:
            return
        wanted = 0 if link.flow_of(one).has_ended else selectors.EVENT_READ
        wanted |= selectors.EVENT_WRITE if link.flow_to(one).is_full else 0
        known = self.selector.get_map().get(one)
        if wanted and known is None:
            self.selector.register(one, wanted, link)
        elif wanted and known.events != wanted:
            self.selector.modify(one, wanted, link)
        elif not wanted and known is not None:
            self.selector.unregister(one)

    def handle(self, events: list) -> None:
        """Accepts and reads, of a pair's connections the older first."""
        for key, _ in events:
            if isinstance(key.data, Door) and key.data.listener is key.fileobj:
                self.accept(key.data)
        links = [(key.data.number, key.data, key.fileobj) for key, mask in events if isinstance(key.data, Link) and mask & selectors.EVENT_READ]
        for _, link, source in sorted(links, key=lambda one: one[0]):
            if link in self.links and source.fileno() >= 0:
                self.take(link, source)
        self.weather.ticks(self)
        touched = {key.data.number for key, _ in events if isinstance(key.data, Link)}
        now, links = time.monotonic(), [link for link in self.links if link.number in touched or link.is_busy()]
        for link in links:
            self.settle(link, now)

    def see_some(self, count: int) -> None:
        """Looks at so much of what came, in the order in which it did."""
        for _ in range(min(count, len(self.unseen))):
            flow, text = self.unseen.popleft()
            flow.see(text)

    def see_all(self) -> None:
        self.see_some(len(self.unseen))

    def look(self) -> None:
        """Whoever asks for what was seen looks first."""
        with self.lock:
            self.see_all()

    def run(self) -> None:
        """What comes goes on at once. It is looked at when nothing comes, or there is much, and a little at a time, unless it is to wait."""
        try:
            while self.goes:
                is_to_look = self.unseen and not self.looks_later
                events = self.selector.select(0 if is_to_look else TICK)
                with self.lock:
                    self.handle(events)
                    if is_to_look and (not events or len(self.unseen) > MOST_UNSEEN):
                        self.see_some(SEEN_AT_ONCE)
        except Exception as fault:  # told by whoever leaves
            self.fault = fault

    def leave(self) -> None:
        self.goes = False
        self.join()
        self.see_all()
        for link in list(self.links):
            self.close(link)
        for door in self.doors:
            if door.listener:
                self.shut(door)
        self.selector.close()
        if self.fault is not None:
            raise RuntimeError(f"the proxy failed: {self.fault!r}")


def end_writing(one: socket.socket) -> None:
    try:
        one.shutdown(socket.SHUT_WR)
    except OSError:
        pass

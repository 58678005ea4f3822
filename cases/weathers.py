"""What a network does to connections: it cuts them, makes them late, holds them, refuses them, and lets a newer one overtake an older one."""
import time

from wire import Flow, Link, Proxy, Weather

KIB = 1 << 10


class Cutting(Weather):
    """Each connection is cut after so many bytes, within a piece or between two. What came before goes on where it can at once."""

    FEWEST, MOST = 4 * KIB, 16 * KIB

    def __init__(self):
        self.left = {}

    def opened(self, proxy: Proxy, link: Link) -> None:
        self.left[link] = proxy.lot.randint(self.FEWEST, self.MOST)

    def took(self, proxy: Proxy, flow: Flow, size: int) -> None:
        link = flow.link
        self.left[link] -= size
        if self.left[link] < 0:
            flow.pass_all_but(min(-self.left.pop(link), size))
            proxy.cut(link)


class Late(Weather):
    """What a node writes and what is written for it is late, and nothing is lost."""

    def __init__(self, node: int, seconds: float):
        self.node, self.seconds = node, seconds

    def delay(self, pair: tuple) -> float:
        return self.seconds if self.node in pair else 0


class Holding(Weather):
    """What the first replicas of these pairs write for the second ones is taken, and goes on with the next weather."""

    def __init__(self, pairs):
        self.pairs = set(pairs)

    def holds(self, flow: Flow) -> bool:
        return flow.pair in self.pairs


class Refusing(Weather):
    """Some nodes have no connection, and get none."""

    def __init__(self, *nodes: int):
        self.nodes = set(nodes)

    def refuses(self, pair: tuple) -> bool:
        return not self.nodes.isdisjoint(pair)


class Turn:
    """After how many of the dialer's bytes the next are held, how many of these are enough, and how many of a newer connection overtake them."""

    def __init__(self, lot):
        self.holds_after, self.least, self.overtaken_by = lot.randint(2 * KIB, 8 * KIB), lot.randint(1, 2 * KIB), lot.randint(1, 2 * KIB)
        self.held_since = self.closed_at = None


class Overtaking(Weather):
    """Of each connection what the dialer writes is held after a while, and its side is closed. It goes on once the next one has brought some."""

    LONGEST_HELD, LONGEST_CLOSED = 0.2, 1.0

    def __init__(self):
        self.turns = {}

    def opened(self, proxy: Proxy, link: Link) -> None:
        self.turns[link] = Turn(proxy.lot)

    def took(self, proxy: Proxy, flow: Flow, size: int) -> None:
        turn, over = self.turns[flow.link], flow.taken - self.turns[flow.link].holds_after
        if flow is flow.link.out and turn.held_since is None and over > 0:
            flow.pass_all_but(min(over, size))
            turn.held_since = time.monotonic()

    def holds(self, flow: Flow) -> bool:
        link, turn = flow.link, self.turns[flow.link]
        if flow is not link.out or turn.held_since is None:
            return False
        is_overtaken = link.newer is not None and link.newer.out.passed >= turn.overtaken_by
        return turn.closed_at is None or not is_overtaken and time.monotonic() < turn.closed_at + self.LONGEST_CLOSED

    def ticks(self, proxy: Proxy) -> None:
        now = time.monotonic()
        for link in proxy.links:
            turn = self.turns[link]
            is_held = turn.held_since is not None and turn.closed_at is None and link.out.size > 0
            if is_held and (link.out.size >= turn.least or now > turn.held_since + self.LONGEST_HELD):
                turn.closed_at = now
                proxy.close_dialer(link)

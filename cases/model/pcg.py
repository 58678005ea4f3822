"""The generator PCG-XSH-RR 64/32 of O'Neill, PCG: A Family of Simple Fast Space-Efficient Statistically Good Algorithms for Random Number Generation
(2014), seeded from one number as Rust's crates `rand_core` and `rand_pcg` do it."""
from __future__ import annotations

MULTIPLIER = 6364136223846793005
SEED_INCREMENT = 11634580027462260723
MASK32, MASK64 = 2**32 - 1, 2**64 - 1


def output(state: int) -> int:
    shifted = ((state >> 18 ^ state) >> 27) & MASK32
    turns = state >> 59
    return (shifted >> turns | shifted << (32 - turns)) & MASK32


def seed_from_u64(state: int) -> bytes:
    """16 bytes: in each step the state goes on before a word of it is given."""
    seed = b""
    for _ in range(4):
        state = (state * MULTIPLIER + SEED_INCREMENT) & MASK64
        seed += output(state).to_bytes(4, "little")
    return seed


class Pcg32:
    def __init__(self, start: int) -> None:
        seed = seed_from_u64(start)
        self.increment = int.from_bytes(seed[8:], "little") | 1
        self.state = (int.from_bytes(seed[:8], "little") + self.increment) & MASK64
        self.step()

    def step(self) -> None:
        self.state = (self.state * MULTIPLIER + self.increment) & MASK64

    def next_word(self) -> int:
        word = output(self.state)
        self.step()
        return word

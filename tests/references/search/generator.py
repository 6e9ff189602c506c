"""The generator of playouts and of random moves: PCG XSL RR 128/64, in plain Python.

The crates `rand_pcg` and `rand_core` of Rust have the same, by the name of Pcg64.
"""
from __future__ import annotations

MULTIPLIER = 0x2360ED051FC65DA44385DF649FCCF645
SEED_MULTIPLIER = 0x5851F42D4C957F2D  # of PCG XSH RR 64/32, which makes a seed of a number
SEED_INCREMENT = 0xA17654E46FBE17F3
SEED_BYTES = 32


def rotated(word: int, count: int, bits: int) -> int:
    """Returns a word of so many bits, rotated to the right."""
    return (word >> count | word << (bits - count)) % 2**bits


class Pcg64:
    """A generator, by its state and its increment, which is odd: both below 2^128."""

    def __init__(self, state: int, increment: int) -> None:
        self.increment = increment
        self.state = state + increment
        self.step()

    @classmethod
    def of_stream(cls, state: int, stream: int) -> Pcg64:
        """Returns the generator of a state and the number of a stream."""
        return cls(state, (2 * stream + 1) % 2**128)

    @classmethod
    def of_bytes(cls, seed: bytes) -> Pcg64:
        """Returns the generator of a seed of 32 bytes, the low ones first.

        They are a state, and an increment whose last bit is set.
        """
        return cls(int.from_bytes(seed[:16], "little"), int.from_bytes(seed[16:], "little") | 1)

    @classmethod
    def of_number(cls, number: int) -> Pcg64:
        """Returns the generator of a number below 2^64, as `seed_from_u64` does."""
        return cls.of_bytes(seed_of(number))

    def step(self) -> None:
        """Makes the next state."""
        self.state = (self.state * MULTIPLIER + self.increment) % 2**128

    def __iter__(self) -> Pcg64:
        return self

    def __next__(self) -> int:
        """Returns the next word, below 2^64.

        Both halves of the next state are xored, and rotated by its highest six bits.
        """
        self.step()
        return rotated((self.state >> 64) ^ self.state % 2**64, self.state >> 122, 64)


def seed_of(number: int) -> bytes:
    """Returns the 32 bytes of a number below 2^64: eight words of PCG XSH RR 64/32."""
    seed, state = b"", number
    while len(seed) < SEED_BYTES:
        state = (state * SEED_MULTIPLIER + SEED_INCREMENT) % 2**64
        word = rotated((state >> 18 ^ state) >> 27 & 2**32 - 1, state >> 59, 32)
        seed += word.to_bytes(4, "little")
    return seed

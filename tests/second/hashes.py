"""SHA-256 (FIPS 180-4), HMAC-SHA-256 (FIPS 198-1) and the running hash, with the limits and refusals of the rules page.

Whole messages go to hashlib and hmac. hashlib cannot start from a given state, so the running hash has a compression of its
own, written from the standard; the self-test holds it to hashlib.
"""
from __future__ import annotations

import hashlib
import hmac
from dataclasses import dataclass
from typing import Optional, Union

from refusal import Refusal

LONGEST_MESSAGE = 131_072
LONGEST_MAC_INPUT = 65_536
BLOCK = 64
WORD_MASK = 0xFFFF_FFFF
LENGTH_REFUSED = Refusal(12)

Digest = Union[bytes, Refusal]


def sha256(message: bytes) -> Digest:
    """The hash of a whole message."""
    if len(message) > LONGEST_MESSAGE:
        return LENGTH_REFUSED
    return hashlib.sha256(message).digest()


def mac(key: bytes, message: bytes) -> Digest:
    """HMAC of a message under a key."""
    if max(len(key), len(message)) > LONGEST_MAC_INPUT:
        return LENGTH_REFUSED
    return hmac.new(key, message, hashlib.sha256).digest()


# The compression. The constants are worked out from primes, as sections 4.2.2 and 5.3.3 define them.


def first_primes(count: int) -> list[int]:
    primes: list[int] = []
    candidate = 2
    while len(primes) < count:
        if all(candidate % p for p in primes):
            primes.append(candidate)
        candidate += 1
    return primes


def whole_root(n: int, degree: int) -> int:
    """The largest r with r ** degree <= n."""
    low, high = 0, n + 1
    while high - low > 1:
        middle = (low + high) // 2
        if middle**degree <= n:
            low = middle
        else:
            high = middle
    return low


def fraction_of_root(n: int, degree: int) -> int:
    """The first 32 bits behind the point of the root of n."""
    return whole_root(n << (32 * degree), degree) & WORD_MASK


INITIAL_WORDS = tuple(fraction_of_root(p, 2) for p in first_primes(8))
ROUND_CONSTANTS = tuple(fraction_of_root(p, 3) for p in first_primes(64))


def rotated(x: int, n: int) -> int:
    """A word rotated right by n bits."""
    return (x >> n | x << (32 - n)) & WORD_MASK


def schedule(block: bytes) -> list[int]:
    """The 64 words that the rounds take from a block."""
    w = [int.from_bytes(block[i : i + 4], "big") for i in range(0, BLOCK, 4)]
    for t in range(16, 64):
        near = rotated(w[t - 2], 17) ^ rotated(w[t - 2], 19) ^ (w[t - 2] >> 10)
        far = rotated(w[t - 15], 7) ^ rotated(w[t - 15], 18) ^ (w[t - 15] >> 3)
        w.append((near + w[t - 7] + far + w[t - 16]) & WORD_MASK)
    return w


def compressed(words: tuple[int, ...], block: bytes) -> tuple[int, ...]:
    """The hash value after one block."""
    a, b, c, d, e, f, g, h = words
    for constant, word in zip(ROUND_CONSTANTS, schedule(block)):
        choice = (e & f) ^ (~e & g)
        majority = (a & b) ^ (a & c) ^ (b & c)
        sum_of_e = rotated(e, 6) ^ rotated(e, 11) ^ rotated(e, 25)
        sum_of_a = rotated(a, 2) ^ rotated(a, 13) ^ rotated(a, 22)
        t1 = h + sum_of_e + choice + constant + word
        t2 = sum_of_a + majority
        a, b, c, d, e, f, g, h = (t1 + t2) & WORD_MASK, a, b, c, (d + t1) & WORD_MASK, e, f, g
    return tuple((old + new) & WORD_MASK for old, new in zip(words, (a, b, c, d, e, f, g, h)))


def after_blocks(words: tuple[int, ...], blocks: bytes) -> tuple[int, ...]:
    """The hash value after whole blocks."""
    for i in range(0, len(blocks), BLOCK):
        words = compressed(words, blocks[i : i + BLOCK])
    return words


# The running hash, on any state whatever.


@dataclass(frozen=True)
class State:
    """A hash under way: the first total % 64 bytes of the block are filled."""

    words: tuple[int, ...]
    block: bytes
    total: int

    def filled(self) -> bytes:
        return self.block[: self.total % BLOCK]


START = State(INITIAL_WORDS, bytes(BLOCK), 0)


def take_in(state: State, more: bytes) -> tuple[Optional[Refusal], State]:
    """The refusal, if there is one, and the state that is handed back."""
    total = state.total + len(more)
    if total > LONGEST_MESSAGE:
        return LENGTH_REFUSED, state
    waiting = state.filled() + more
    whole = len(waiting) - len(waiting) % BLOCK
    words = after_blocks(state.words, waiting[:whole])
    return None, State(words, waiting[whole:].ljust(BLOCK, b"\0"), total)


def padding(total: int) -> bytes:
    """What the standard puts behind a message of total bytes."""
    zeros = (BLOCK - 9 - total) % BLOCK
    return b"\x80" + bytes(zeros) + (8 * total).to_bytes(8, "big")


def finish(state: State) -> Digest:
    """The digest of what a state has taken in."""
    if state.total > LONGEST_MESSAGE:
        return LENGTH_REFUSED
    words = after_blocks(state.words, state.filled() + padding(state.total))
    return b"".join(word.to_bytes(4, "big") for word in words)


def self_test() -> list[str]:
    """Where the running hash differs from hashlib: every length to some blocks and a longer one, whole and in two parts."""
    faults = []
    message = bytes(i % 251 for i in range(10_000))
    for length in (*range(200), len(message)):
        expected = hashlib.sha256(message[:length]).digest()
        for cut in sorted({0, length // 2, max(length - 1, 0)}):
            _, state = take_in(START, message[:cut])
            _, state = take_in(state, message[cut:length])
            if finish(state) != expected:
                faults.append(f"the running hash of {length} bytes, cut at {cut}, is not hashlib's")
    return faults

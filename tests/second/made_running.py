"""Calls of the running hash, by value and lent: every edge of the total and of the count, and states that no message reaches.

What a chain of calls leaves is worked out by the running hash by value; where that is wrong, the cases of `vectors` show it.
"""
from __future__ import annotations

from typing import Iterator, NamedTuple

import hashes
from call import FINISH, LENT_FINISH, LENT_TAKE_IN, TAKE_IN, Call, call, state_bytes
from hashes import BLOCK, LONGEST_MESSAGE, State
from made_traces import Draw

LIMIT = LONGEST_MESSAGE

TOTALS = (
    *(0, 1, 55, 56, 63, 64, 65),
    *(LIMIT + by for by in (-65, -64, -63, -1, 0, 1, 63, 64, 65)),
    *(2**32 - 1, 2**32, 2**32 + 1, 2**63, 2**64 - 64, 2**64 - 1),
)
COUNTS = (0, 1, 63, 64, 65, 127, 128)


class Running(NamedTuple):
    """One of the two running hashes, by the numbers of its calls."""

    take_in_number: int
    finish_number: int

    def take_in(self, state: State, more: bytes) -> Call:
        return call(self.take_in_number, state_bytes(state), more)

    def finish(self, state: State) -> Call:
        return call(self.finish_number, state_bytes(state))


BY_VALUE, LENT = Running(TAKE_IN, FINISH), Running(LENT_TAKE_IN, LENT_FINISH)


def full(draw: Draw, length: int) -> bytes:
    """Bytes of which none is 0, so that none is lost among zeros."""
    return bytes(1 + draw.below(255) for _ in range(length))


def words(draw: Draw) -> tuple[int, ...]:
    """Mostly any words, at times all the same extreme."""
    if draw.chance(5):
        return (draw.of((0, 0xFFFF_FFFF)),) * 8
    return tuple(int.from_bytes(draw.bytes(4), "little") for _ in range(8))


def block(draw: Draw, total: int) -> bytes:
    """Mostly full of bytes, at times with a single one behind the filled part: the first there, the last, or any."""
    if draw.chance(70):
        return full(draw, BLOCK)
    filled = total % BLOCK
    at = draw.of((filled, BLOCK - 1, filled + draw.below(BLOCK - filled)))
    return full(draw, filled) + bytes(at - filled) + full(draw, 1) + bytes(BLOCK - 1 - at)


def any_state(draw: Draw, total: int) -> State:
    return State(words(draw), block(draw, total), total)


def edges(draw: Draw, running: Running) -> Iterator[Call]:
    """Every total with every count, and every total finished."""
    for total in TOTALS:
        for count in COUNTS:
            yield running.take_in(any_state(draw, total), full(draw, count))
        yield running.finish(any_state(draw, total))


def limits(draw: Draw, running: Running) -> Iterator[Call]:
    """One byte less than is left, as many as are left, and one more."""
    for left in (0, 1, 2, 63, 64, 65, 128, 200):
        for count in sorted({max(left - 1, 0), left, left + 1}):
            yield running.take_in(any_state(draw, LIMIT - left), full(draw, count))


def wrapping(draw: Draw, running: Running) -> Iterator[Call]:
    """The sum is at 2^32 or 2^64, or a little below or above it."""
    for top in (2**32, 2**64):
        for count in (1, 2, 63, 64, 65, 300):
            for below in sorted({count - 1, count, count + 1} - {0}):
                yield running.take_in(any_state(draw, top - below), full(draw, count))


def single_bits(draw: Draw, running: Running) -> Iterator[Call]:
    """Totals with one bit set, and with few bytes behind it."""
    for bit in range(14, 64):
        yield running.take_in(any_state(draw, 2**bit), full(draw, draw.below(3)))
        yield running.finish(any_state(draw, 2**bit + draw.below(2)))


def fillings(draw: Draw, running: Running) -> Iterator[Call]:
    """Every length of the filled part: nothing is taken in, and it is finished."""
    for filled in range(BLOCK):
        total = filled + BLOCK * draw.below(LIMIT // BLOCK)
        yield running.take_in(any_state(draw, total), b"")
        yield running.finish(any_state(draw, total))


def run(draw: Draw, count: int) -> bytes:
    """Many bytes, which are a drawn piece over and over, with the end drawn too."""
    piece = full(draw, 251)
    return (piece * (count // len(piece) + 1))[: count - 9] + full(draw, 9)


def long_ones(draw: Draw, running: Running) -> Iterator[Call]:
    """To the limit at once, and one past it; one less of them by value."""
    whole = ((0, LIMIT),) if running == LENT else ()
    for total, count in (*whole, (65, LIMIT - 65), (0, LIMIT + 1)):
        yield running.take_in(any_state(draw, total), run(draw, count))


def any_takings(draw: Draw, running: Running) -> Iterator[Call]:
    for _ in range(60):
        yield running.take_in(any_state(draw, draw.below(LIMIT + 200)), full(draw, draw.below(400)))


class Chain:
    """Calls in a row on one state: each is given what the one before has to leave."""

    def __init__(self, running: Running, state: State) -> None:
        self.running, self.state = running, state
        self.calls: list[Call] = []

    def take_in(self, more: bytes) -> None:
        self.calls.append(self.running.take_in(self.state, more))
        _, self.state = hashes.take_in(self.state, more)

    def finish(self) -> None:
        self.calls.append(self.running.finish(self.state))


def messages(draw: Draw, running: Running) -> Iterator[Call]:
    """Messages from the start, in parts, finished on the way and twice at the end."""
    for parts in ((3,), (0, 55, 1, 0, 8), (64, 64, 0, 1), (1,) * 8, (63, 2, 127, 64, 0, 200), (500, 13, 51, 64)):
        chain = Chain(running, hashes.START)
        for part in parts:
            chain.take_in(full(draw, part))
            chain.finish()
        chain.finish()
        yield from chain.calls


def last_bytes(draw: Draw, running: Running) -> Iterator[Call]:
    """To the limit from somewhat below it: parts that do not fit are refused, and then others fit."""
    for left in (1, 64, 190):
        chain = Chain(running, any_state(draw, LIMIT - left))
        for part in (left + 1, 0, left // 2, left + 1, left - left // 2 + 1, left - left // 2, 1, 0, 64):
            chain.take_in(full(draw, part))
            chain.finish()
        yield from chain.calls


def too_many(draw: Draw, running: Running) -> Iterator[Call]:
    """A state with a total over the limit stays as it is."""
    for total in (LIMIT + 1, 2**32, 2**64 - 64, 2**64 - 1):
        chain = Chain(running, any_state(draw, total))
        for part in (0, 1, 64):
            chain.take_in(full(draw, part))
            chain.finish()
        yield from chain.calls


def calls(draw: Draw) -> Iterator[Call]:
    makers = (edges, limits, wrapping, single_bits, fillings, long_ones, any_takings, messages, last_bytes, too_many)
    for running in (LENT, BY_VALUE):
        for maker in makers:
            yield from maker(draw, running)

"""Calls of the step reader: every bit of a step, places around every edge, and traces of other lengths."""
from __future__ import annotations

from typing import Iterator

import page
from call import MOST, NEXT, PLACE, Call, call, place_bytes
from made_running import full
from made_traces import Draw
from page import step_bytes

STEP = 12

# The bits of a step that have to be zero.
ZEROS = (53, 54, 55, *range(72, 96))


def read(trace: bytes, place: int) -> Call:
    return call(NEXT, trace, place_bytes(place))


def far_places(steps: int) -> tuple[int, ...]:
    """Places past the end. Of some, 12 times the place or its lower bits are in the trace again."""
    wraps = [top // STEP + by for top in (2**32, 2**64) for by in (0, 1)]
    return (steps, steps + 1, 2**16, 2**30, 2**32, 2**32 + 1, *wraps, 2**60, 2**62, 2**63, 2**63 + 1, 2**64 - 1)


def clean_step(draw: Draw) -> bytes:
    pc, cpu, dma = (draw.below(65_536) for _ in range(3))
    return step_bytes(pc, cpu, dma, draw.below(32), draw.below(256), draw.below(256))


def clean_trace(draw: Draw, steps: int) -> bytes:
    return b"".join(clean_step(draw) for _ in range(steps))


def soiled(trace: bytes, step: int, bit: int) -> bytes:
    """The trace with one bit of a step set."""
    byte, bits = STEP * step + bit // 8, 1 << bit % 8
    return trace[:byte] + bytes((trace[byte] | bits,)) + trace[byte + 1 :]


def places(draw: Draw) -> Iterator[Call]:
    for steps in (0, 1, 2, 3, 40):
        trace = clean_trace(draw, steps)
        for place in (*sorted({0, max(steps - 1, 0)}), *far_places(steps)):
            yield read(trace, place)


def walks(draw: Draw) -> Iterator[Call]:
    """From the first step to the end, which is asked for twice. One trace has all flags."""
    flags = b"".join(step_bytes(0x0102, 0x0304, 0x0506, flags, 0x07, 0x08) for flags in range(32))
    for trace in (page.TRACE, flags, clean_trace(draw, 40)):
        for place in (*range(len(trace) // STEP + 1), len(trace) // STEP):
            yield read(trace, place)


def single_step_bits(draw: Draw) -> Iterator[Call]:
    """Alone, and in the second of three steps."""
    for bit in range(8 * STEP):
        yield read((1 << bit).to_bytes(STEP, "little"), 0)
        yield read(soiled(clean_trace(draw, 3), 1, bit), 1)


def unclean(draw: Draw) -> Iterator[Call]:
    """One zero bit is set: the places before it, at it (twice, since it does not move), behind it, and the end."""
    for number, bit in enumerate(ZEROS):
        trace = soiled(clean_trace(draw, 3), number % 3, bit)
        for place in (0, 1, 2, number % 3, 3):
            yield read(trace, place)
    for step in (0, 1, 20, 38, 39):
        trace = soiled(soiled(clean_trace(draw, 40), step, draw.of(ZEROS)), 39, draw.of(ZEROS))
        for place in sorted({0, max(step - 1, 0), step, min(step + 1, 39), 40, 2**62}):
            yield read(trace, place)


def wrong_lengths(draw: Draw) -> Iterator[Call]:
    """Bytes that are no whole step; the step at the place may be unclean, or the place past the end."""
    for over in range(1, STEP):
        for steps in (0, 1, 3):
            trace = clean_trace(draw, steps) + full(draw, over)
            yield read(trace, 0)
            yield read(trace, draw.of((max(steps - 1, 0), steps, steps + 1, *far_places(steps))))
        yield read(soiled(clean_trace(draw, 2), 0, draw.of(ZEROS)) + bytes(over), 0)


def long_traces(draw: Draw) -> Iterator[Call]:
    """As many steps as there may be, one more, and as many as a call can have."""
    piece = clean_trace(draw, 64)
    most = piece * 64
    for place in (0, 4_095, 4_096):
        yield read(most, place)
    yield read(soiled(most, 4_095, 95), 4_095)
    yield read(most + piece[:STEP], 4_096)
    yield read(soiled(most + piece[:STEP], 0, 53), 0)
    yield read((piece * 342)[: (MOST - PLACE.size) // STEP * STEP], 2**64 - 1)


def any_traces(draw: Draw) -> Iterator[Call]:
    """Bytes drawn at random, most of their zeros put right."""
    for _ in range(60):
        steps = 1 + draw.below(6)
        trace = clean_trace(draw, steps)
        if draw.chance(40):
            trace = soiled(trace, draw.below(steps), draw.of(ZEROS))
        if draw.chance(10):
            trace = draw.bytes(len(trace))
        yield read(trace, draw.below(steps + 1))


def calls(draw: Draw) -> Iterator[Call]:
    for maker in (single_step_bits, places, walks, unclean, wrong_lengths, long_traces, any_traces):
        yield from maker(draw)

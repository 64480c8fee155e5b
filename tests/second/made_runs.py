"""The input of the program `judge_cases`: run files, each behind its length.

Those made for a ground come first, then the largest, some that read what others left, and drawn ones.
"""
from __future__ import annotations

import struct
from typing import Iterator, NamedTuple

import board
import made_files
import made_layouts
import page
from board import DMA, READS, WRITES
from made_files import JUDGED, Case, filed, reads, renumbered, segment
from made_layouts import about_ar
from made_memories import places_of
from made_traces import Draw, spoilt, sweep, walk
from page import AR_FROM_KR, CLEAN, UNCLEAN, step_bytes

# The longest file that the program reads, and the longest text of any file.
LONGEST_FRAME, LONGEST_TEXT = 49_153, 52_125


# ---- Files of the greatest sizes


def longest() -> bytes:
    """The file with the longest text: as many steps as there can be, each of which exposes two bytes and stores one."""
    flags = READS | WRITES | DMA
    steps = (step_bytes(0, 0xE000 + 91 * k % 256, 0xE000 + 57 * k % 256, flags, k % 251) for k in range(4_092))
    return filed(b"", b"".join(steps))


def many_segments(count: int) -> bytes:
    """Segments of one byte, in pairs that touch."""
    return b"".join(segment(0x1000 + 2 * k - k % 2, bytes((k % 255 + 1,))) for k in range(count))


def large_cases() -> Iterator[Case]:
    top = longest()
    yield Case(top, JUDGED)
    yield Case(filed(b"", step_bytes(2) * 4_092), JUDGED)
    yield Case(top + b"\0", "refused 15 0")
    yield Case(b"\xff" * LONGEST_FRAME, "refused 15 0")
    yield Case(filed(segment(0x1000, b"\x61" * 9), CLEAN * 4_091), "refused 15 0")
    yield Case(filed(segment(0x1000, b"\x61" * 8), CLEAN * 4_091), JUDGED)
    yield Case(filed(b"\0" * 14, b"\xff" * 49_091, AR_FROM_KR), "refused 15 0")
    yield Case(renumbered(top, {5: 49_103}), "refused 13 2")
    yield Case(top[:-1], "refused 13 2")
    yield Case(filed(b"", spoilt(CLEAN * 4_092, 4_091, 11, 0x80)), "refused 9 4091")
    yield Case(filed(b"", spoilt(CLEAN * 4_092, 1_234, 6, 0x80)), "refused 9 1234")
    yield Case(filed(segment(0x1000, b"\x61"), CLEAN * 4_091 + CLEAN[:7]), "refused 7 0")


def large_memories() -> Iterator[Case]:
    contents = bytes(a % 253 + 1 for a in range(49_100))
    yield Case(filed(segment(0x0000, contents[:49_076]), reads((0xBFB3, 0xBFB4))), JUDGED)
    yield Case(filed(segment(0x4034, contents)), JUDGED)
    yield Case(filed(segment(0x4035, contents)), "refused 14 0")
    yield Case(filed(segment(0x4034, contents, 49_101)), "refused 14 0")
    yield Case(filed(many_segments(9_817) + segment(0xFFFD, b"\x51\x52\x53"), reads((0xFFFD,))), JUDGED)
    yield Case(filed(many_segments(9_817) + segment(0xFFFE, b"\x51\x52\x53"), CLEAN), "refused 14 9817")
    yield Case(filed(many_segments(9_820) + segment(0xFFFF, b"", 1)), "refused 14 9820")


# ---- What is read


def read_cases() -> Iterator[Case]:
    """Each byte by the CPU and by the DMA, alone and together; and what an earlier file left in the memory."""
    values = segment(0x8000, bytes(range(256)))
    yield Case(filed(values, reads(range(0x8000, 0x8100))), JUDGED)
    yield Case(filed(values, b"".join(step_bytes(0, a, flags=READS) for a in range(0x80FF, 0x7FFF, -1))), JUDGED)
    yield Case(filed(values, b"".join(step_bytes(0, dma=a, flags=DMA) for a in range(0x8000, 0x8100))), JUDGED)
    everywhere = (0x0000, 0x0001, *range(0x0800, 0x10000, 0x03FF), 0xFFFE, 0xFFFF)
    stores = b"".join(step_bytes(0, a, flags=WRITES, cpu_data=0xC3) for a in everywhere)
    leavers = (filed(segment(0x0800, b"\xff" * 26_000)), filed(b"", stores), filed(segment(0x9000, b"\xff" * 28_672)))
    for leaver in (*leavers, filed(segment(0x0800, b"\xff" * 26_000), UNCLEAN)):
        yield Case(leaver)
        yield Case(filed(segment(0x0C00, b"\x71"), reads(everywhere)), JUDGED)
    yield Case(filed(b"", stores + reads(everywhere)), JUDGED)


# ---- Drawn files


class Parts(NamedTuple):
    layout: bytes
    memory: bytes
    trace: bytes


def drawn_segments(draw: Draw, most: int) -> bytes:
    made, start = b"", draw.below(0x1000)
    for _ in range(draw.below(most + 1)):
        contents = bytes(draw.below(256) for _ in range(1 + draw.below(12)))
        if start + len(contents) > board.MEMORY_BYTES:
            break
        made += segment(start, contents)
        start += len(contents) + (0 if draw.chance(30) else draw.below(0x3000))
    return made


def drawn_parts(draw: Draw, steps: int) -> Parts:
    layout = draw.of(made_layouts.GOOD)
    return Parts(layout, drawn_segments(draw, 8), walk(draw, places_of(layout), steps))


def changed_bytes(draw: Draw, body: bytes) -> bytes:
    """One byte is another, is lost or comes in, or some bytes are lost at the end or come in there."""
    at, kind = draw.below(len(body) + 1), draw.below(10)
    if kind < 6 and at < len(body):
        other = draw.of((0, 0xFF, body[at] + 1, body[at] - 1, body[at] ^ (1 << draw.below(8)), draw.below(256)))
        return body[:at] + bytes((other % 256,)) + body[at + 1 :]
    if kind == 6:
        return body[:at] + body[at + 1 :]
    if kind == 7:
        return body[:at] + bytes((draw.below(256),)) + body[at:]
    if kind == 8:
        return body[: -1 - draw.below(12)]
    return body + bytes(draw.below(256) for _ in range(1 + draw.below(12)))


def changed_parts(draw: Draw, parts: Parts) -> bytes:
    """A file with changes in one body, in two, or in the whole file, one in three of these in the contents; none about AR."""
    layout, memory, trace = parts
    for _ in range(1 + draw.below(2)):
        body = draw.below(5)
        if body == 0:
            at = draw.below(24)
            layout = layout[:at] + bytes((layout[at] ^ (1 << draw.below(8)),)) + layout[at + 1 :]
        elif body < 3:
            memory = changed_bytes(draw, memory)
        else:
            trace = changed_bytes(draw, trace)
    file = filed(memory, trace, layout)
    if draw.chance(25):
        file = changed_bytes(draw, file) if draw.below(3) else changed_bytes(draw, file[:24]) + file[24:]
    return changed_parts(draw, parts) if about_ar(file[24:48]) else file


def drawn_cases(draw: Draw) -> Iterator[Case]:
    """Sweeps and walks on drawn memories, and files with changes."""
    for layout in made_layouts.GOOD[:3]:
        steps = sweep(places_of(layout))
        for i in range(0, len(steps), 500):
            yield Case(filed(drawn_segments(draw, 30), b"".join(steps[i : i + 500]), layout), JUDGED)
    for _ in range(40):
        parts = drawn_parts(draw, 20 + draw.below(100))
        yield Case(filed(parts.memory, parts.trace, parts.layout), JUDGED)
    for _ in range(100):
        yield Case(changed_parts(draw, drawn_parts(draw, draw.below(12))))


def cases() -> list[Case]:
    makers = (large_cases, large_memories, read_cases)
    return [*made_files.cases(), *(case for maker in makers for case in maker()), *drawn_cases(Draw(2026))]


def framed(file: bytes) -> bytes:
    return struct.pack("<I", len(file)) + file


def stdin(made: list[Case]) -> bytes:
    """The files, then a length that is too great, and behind it a file that is not judged any more."""
    frames = b"".join(framed(case.file) for case in made)
    return frames + struct.pack("<I", LONGEST_FRAME + 1) + framed(page.FILE)

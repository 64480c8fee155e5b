"""Run files for cases: for each ground of the rules page some that are refused for it, alone and with others, or just not.

Each tells the line that it has to print first, so that this does not hang on the second implementation.
"""
from __future__ import annotations

import struct
from itertools import combinations, product
from typing import Iterator, NamedTuple, Optional, Sequence

import board
import made_layouts
import page
from board import DMA, READS
from made_layouts import PAGE, changed, sized
from made_traces import SPOILERS, spoilt
from page import AR_FROM_KR, CLEAN, CR_TO_AR, REVERSED_AR_SHORT_KR, SHORT_MR_SHORT_CTR, UNCLEAN, step_bytes

JUDGED = "step cause cpu dma"


class Case(NamedTuple):
    """A file, and its first line if that is known."""

    file: bytes
    says: Optional[str] = None


def filed(memory: bytes = b"", trace: bytes = b"", layout: bytes = page.LAYOUT) -> bytes:
    """A file of three bodies, with the contents that belong to them."""
    at = 24 + len(layout)
    numbers = (24, len(layout), at, len(memory), at + len(memory), len(trace))
    return struct.pack("<6I", *numbers) + layout + memory + trace


def renumbered(file: bytes, numbers: dict[int, int]) -> bytes:
    """The file with other numbers in its contents, in which offsets and lengths are counted from 0 to 5."""
    head = [numbers.get(at, number) for at, number in enumerate(struct.unpack("<6I", file[:24]))]
    return struct.pack("<6I", *head) + file[24:]


def segment(start: int, contents: bytes, length: Optional[int] = None) -> bytes:
    """A segment, which may name another length than its own."""
    return struct.pack("<HH", start, len(contents) if length is None else length) + contents


def reads(addresses: Sequence[int]) -> bytes:
    """Each address is read by the CPU, and by the DMA in the contrary order."""
    return b"".join(step_bytes(0, cpu, dma, READS | DMA) for cpu, dma in zip(addresses, reversed(addresses)))


# ---- The page's file


def page_cases() -> Iterator[Case]:
    """Whole, cut at every length, and with bytes behind."""
    yield Case(page.FILE, JUDGED)
    for length in range(len(page.FILE)):
        yield Case(page.FILE[:length], f"refused 13 {(length >= 48) + (length >= 59)}")
    for more in (b"\0", b"\0\0", b"\xff\xff\xff", CLEAN, page.FILE):
        yield Case(page.FILE + more, "refused 13 2")


# ---- Contents


def number_cases() -> Iterator[Case]:
    """One number of the page's contents is another: by one, in each of its bytes, or by as much as can be."""
    for at, number in enumerate(struct.unpack("<6I", page.CONTENTS)):
        near = (number - 12, number - 1, number + 1, number + 12)
        for other in (*near, *(number + 2**k for k in (8, 15, 16, 24, 31)), 0, 2**16 - 1, 2**31, 2**32 - 16, 2**32 - 1):
            # Another length of the memory that fits moves the trace.
            moves = at == 3 and 0 <= other <= len(page.FILE) - 48
            if other >= 0:
                yield Case(renumbered(page.FILE, {at: other}), f"refused 13 {2 if moves else at // 2}")


def wrapped_cases() -> Iterator[Case]:
    """Numbers whose sum is right modulo 2^32, or fits so."""
    size, wrap = len(page.FILE), 2**32
    for end in (0, 1, 24, 47):
        rest = {4: end, 5: size - end}
        yield Case(renumbered(page.FILE, {3: wrap - 48 + end, **rest}), "refused 13 1")
        yield Case(renumbered(page.FILE, {1: (end - 24) % wrap, 2: end, 3: 0, **rest}), "refused 13 0")
    for below in (1, 16, 2**31):
        yield Case(renumbered(page.FILE, {0: wrap - below, 1: 48 + below}), "refused 13 0")
        yield Case(renumbered(page.FILE, {2: wrap - below, 3: 59 + below}), "refused 13 1")
        yield Case(renumbered(page.FILE, {4: wrap - below, 5: size + below}), "refused 13 2")
    yield Case(renumbered(page.FILE, {5: wrap - 59}), "refused 13 2")
    yield Case(renumbered(page.FILE, {5: wrap - 59 + 24}), "refused 13 2")
    yield Case(renumbered(page.FILE, {2: wrap - 1, 3: wrap - 1, 4: wrap - 1, 5: wrap - 1}), "refused 13 1")


def placed_cases() -> Iterator[Case]:
    """Bodies with a gap, with bytes in common, in another order, or not of that length."""
    layout, memory, trace = page.LAYOUT, page.MEMORY_BODY, page.TRACE

    def placed(*numbers: int, bodies: bytes) -> bytes:
        return struct.pack("<6I", *numbers) + bodies

    yield Case(placed(25, 24, 49, 11, 60, 84, bodies=b"\0" + layout + memory + trace), "refused 13 0")
    yield Case(placed(24, 24, 49, 11, 60, 84, bodies=layout + b"\0" + memory + trace), "refused 13 1")
    yield Case(placed(24, 24, 48, 11, 60, 84, bodies=layout + memory + b"\0" + trace), "refused 13 2")
    yield Case(placed(24, 24, 48, 11, 59, 84, bodies=layout + memory + trace + b"\0"), "refused 13 2")
    yield Case(placed(24, 24, 132, 11, 48, 84, bodies=layout + trace + memory), "refused 13 1")
    yield Case(placed(35, 24, 24, 11, 59, 84, bodies=memory + layout + trace), "refused 13 0")
    yield Case(placed(24, 24, 47, 12, 59, 84, bodies=layout + memory + trace), "refused 13 1")
    yield Case(placed(24, 24, 48, 11, 48, 95, bodies=layout + memory + trace), "refused 13 2")
    yield Case(placed(24, 24, 24, 24, 48, 0, bodies=layout), "refused 13 1")
    yield Case(placed(24, 24, 24, 0, 24, 24, bodies=layout), "refused 13 1")
    yield Case(placed(0, 24, 24, 0, 24, 0, bodies=b""), "refused 13 0")
    yield Case(placed(24, 0, 24, 0, 24, 0, bodies=b""), "refused 13 0")
    yield Case(placed(24, 0, 24, 11, 35, 84, bodies=memory + trace), "refused 13 0")
    yield Case(placed(24, 24, 48, 0, 0, 0, bodies=layout), "refused 13 2")
    for other in (layout[:12], layout[:23], layout + b"\0", layout * 2):
        yield Case(filed(memory, trace, other), "refused 13 0")


def contents_cases() -> Iterator[Case]:
    yield from number_cases()
    yield from wrapped_cases()
    yield from placed_cases()
    for count in (1, 2, 3):
        for places in combinations(range(3), count):
            yield Case(renumbered(page.FILE, {2 * place: 7 for place in places}), f"refused 13 {places[0]}")
    for length in (1, 22, 24, 25, 47, 48, 49, 72, 500):
        yield Case(bytes(length), "refused 13 0")
        yield Case(b"\xff" * length, "refused 13 0")
    empty = filed()
    for file, says in ((empty, JUDGED), (empty[:-1], "refused 13 0"), (empty + b"\0", "refused 13 2")):
        yield Case(file, says)


# ---- Layouts


def layout_cases() -> Iterator[Case]:
    """Layouts of every shape. They have 24 bytes, or entry 0 fails."""
    for text, refusal in page.LAYOUTS:
        yield Case(filed(page.MEMORY_BODY, page.TRACE, bytes.fromhex(text)), JUDGED if refusal is None else str(refusal))
    about_ar = (*made_layouts.GOOD_ABOUT_AR, *made_layouts.REFUSED_ABOUT_AR)
    for layout in (*made_layouts.layouts(), *about_ar):
        known = None if len(layout) == board.LAYOUT_BYTES else "refused 13 0"
        yield Case(filed(segment(0x10, b"\x5a"), reads((0x10, 0x11)), layout), known)
    for place, (name, (lowest, highest)) in enumerate(zip(made_layouts.NAMES, PAGE)):
        yield Case(filed(layout=changed(PAGE, **{name: (highest, lowest)})), f"refused 3 {place}")
    for place, name, sizes in ((1, "kr", (63, 65)), (3, "mr", (1, 95)), (4, "ctr", (31, 33))):
        for size in sizes:
            ends = sized(PAGE[place][0], size)
            yield Case(filed(layout=changed(PAGE, **{name: ends})), f"refused 4 {place}")


# ---- Segments

# Behind one another, with gaps and without; none of them in KR or XS of the page's layout.
ROW = (
    segment(0x0000, b"\x10"),
    segment(0x0001, b"\x11\x12"),
    segment(0x0004, b"\x13"),
    segment(0x1000, b"\x14\x15\x16"),
    segment(0x1003, b"\x17"),
    segment(0x7FFF, b"\x18\x19"),
    segment(0x8001, b"\x1a"),
)
# Where each ends.
ENDS = (0x0001, 0x0003, 0x0005, 0x1003, 0x1004, 0x8001, 0x8002)
BEHIND = segment(0xC000, b"\x1b") + segment(0xFFFF, b"\x1c")


def around(segments: Sequence[tuple[int, bytes]]) -> list[int]:
    """The addresses at the edges of segments, within and without."""
    edges = {a for start, s in segments for a in (start - 1, start, start + len(s) - 1, start + len(s))}
    return sorted(a for a in edges if 0 <= a < board.MEMORY_BYTES)


GOOD_SEGMENTS: tuple[tuple[tuple[int, bytes], ...], ...] = (
    (),
    ((0x0000, b"\x21"),),
    ((0x0001, b"\x21"),),
    ((0xFFFF, b"\x21"),),
    ((0xFFFE, b"\x21"),),
    ((0xFFFE, b"\x21\x22"),),
    ((0xFF00, bytes(range(256))),),
    ((0xFF00, bytes(range(255, 0, -1))),),
    ((0x1000, b"\x21"), (0x1001, b"\x22")),
    ((0x1000, b"\x21"), (0x1002, b"\x22")),
    ((0x1000, b"\x21\x22\x23"), (0x1003, b"\x24\x25"), (0x1005, b"\x26")),
    ((0x0000, b"\x21"), (0xFFFF, b"\x22")),
    ((0x0000, bytes(range(1, 200))), (0xFF39, bytes(range(200, 1, -1)))),
    ((0x00FF, b"\x21\x22"), (0x0101, bytes(255)), (0x0200, b"\x23" * 256), (0x0300, b"\x24")),
    ((0x7FFF, b"\x21\x22"), (0x8001, b"\x23" * 300)),
    tuple((a, bytes((a % 251 + 1,))) for a in range(0x2000, 0x2040)),
)


def good_segments() -> Iterator[Case]:
    for segments in GOOD_SEGMENTS:
        body = b"".join(segment(start, contents) for start, contents in segments)
        yield Case(filed(body, reads(around(segments) or [0, 1, 0x8000, 0xFFFF])), JUDGED)
    yield Case(filed(b"".join(ROW) + BEHIND, reads(range(0, 8))), JUDGED)


def wrong_segments(bound: int) -> Iterator[bytes]:
    """Segments that fail wherever they stand, if those before end at the bound."""
    yield segment(bound, b"")
    yield segment(0xFFFF, b"")
    yield segment(0xFFFF, b"\x31\x32")
    yield segment(0xFFF0, b"\x33" * 17)
    yield segment(0xFF00, b"\x34" * 300)
    if bound > 0:
        yield segment(bound - 1, b"\x35")
        yield segment(bound - 1, b"\x35\x36")
        yield segment(0x0000, b"\x37")


def unfinished_segments(bound: int) -> Iterator[bytes]:
    """Segments that fail since the body ends too soon."""
    for cut in (1, 2, 3):
        yield segment(bound, b"\x38")[:cut]
    yield segment(bound, b"", 1)
    yield segment(bound, b"\x39", 2)
    yield segment(bound, b"\x39" * 20, 21)
    yield segment(bound, b"\x39" * 20, 0xFFFF - bound)
    yield segment(bound, b"\x39" * 20, 20 + 256)


def refused_segments() -> Iterator[Case]:
    for place in (0, 1, 2, 7):
        before, bound = b"".join(ROW[:place]), ENDS[place - 1] if place else 0
        says = f"refused 14 {place}"
        for wrong in wrong_segments(bound):
            for behind in (b"", BEHIND, segment(0x0000, b"")):
                yield Case(filed(before + wrong + behind, CLEAN), says)
        for wrong in unfinished_segments(bound):
            yield Case(filed(before + wrong, CLEAN), says)
        yield Case(filed(before + segment(bound, BEHIND, len(BEHIND) + 1), CLEAN), says)


def wrapped_segments() -> Iterator[Case]:
    """A segment behind one that ends at 65,536, and segments that end at addresses modulo 65,536."""
    for last in (segment(0xFFFF, b"\x41"), segment(0xFFF0, b"\x41" * 16)):
        for start in (0x0000, 0x0001, 0xFFF0, 0xFFFF):
            yield Case(filed(last + segment(start, b"\x42"), CLEAN), "refused 14 1")
    yield Case(filed(segment(0xFFFE, b"\x43" * 4) + segment(0x0002, b"\x44"), CLEAN), "refused 14 0")
    yield Case(filed(segment(0xC000, b"\x45" * 0x4000), reads((0xBFFF, 0xC000, 0xFFFF, 0x0000))), JUDGED)
    yield Case(filed(segment(0xC000, b"\x45" * 0x4001), CLEAN), "refused 14 0")


# ---- Traces

# Each bit of a step that has to be zero, by its byte.
ZERO_BITS = [(6, 1 << bit) for bit in (5, 6, 7)] + [(byte, 1 << bit) for byte in (9, 10, 11) for bit in range(8)]


def trace_cases() -> Iterator[Case]:
    memory = page.MEMORY_BODY
    for length in (*range(1, 37), 47, 49, 71, 73, 1_199, 1_201):
        says = "refused 7 0" if length % 12 else JUDGED
        yield Case(filed(memory, (CLEAN * 101)[:length]), says)
    for length in (1, 7, 11, 13, 23):
        yield Case(filed(b"", b"\xff" * length), "refused 7 0")
    for number, (byte, bits) in enumerate(ZERO_BITS):
        for place in sorted({number % 7, 0, 6}):
            yield Case(filed(memory, spoilt(page.TRACE, place, byte, bits)), f"refused 9 {place}")
    for (one, other), (byte, bits) in zip(combinations(range(7), 2), SPOILERS * 4):
        yield Case(filed(memory, spoilt(spoilt(page.TRACE, other, byte, bits), one, 11, 1)), f"refused 9 {one}")
    yield Case(filed(memory, UNCLEAN), "refused 9 0")
    yield Case(filed(memory, step_bytes(0xFFFF, 0xFFFF, 0xFFFF, 0x1F, 0xFF, 0xFF)), JUDGED)


# ---- Several grounds

LAYOUTS = (
    (None, page.LAYOUT),
    ("refused 3 5", REVERSED_AR_SHORT_KR),
    ("refused 4 3", SHORT_MR_SHORT_CTR),
    ("refused 5 0", CR_TO_AR),
    ("refused 6 0", AR_FROM_KR),
)
MEMORIES = ((None, page.MEMORY_BODY), ("refused 14 1", page.MEMORY_BODY[:-1]), ("refused 14 0", b"\0"))
TRACES = (
    (None, page.TRACE),
    ("refused 7 0", page.TRACE[:-1]),
    ("refused 9 0", UNCLEAN + CLEAN),
    ("refused 7 0", UNCLEAN + b"\xff"),
)
CONTENTS = ((None, {}), ("refused 13 0", {0: 0}), ("refused 13 1", {2: 0}), ("refused 13 2", {4: 0}))


def order_cases() -> Iterator[Case]:
    """All grounds with all others; the first in the page's order is said."""
    for contents, layout, memory, trace in product(CONTENTS, LAYOUTS, MEMORIES, TRACES):
        grounds = [ground for ground, _ in (contents, layout, memory, trace) if ground]
        if len(grounds) == 4 or contents[0] is None:
            file = renumbered(filed(memory[1], trace[1], layout[1]), contents[1])
            yield Case(file, grounds[0] if grounds else JUDGED)


def cases() -> list[Case]:
    segments = (good_segments, refused_segments, wrapped_segments)
    makers = (page_cases, contents_cases, layout_cases, *segments, trace_cases, order_cases)
    return [case for maker in makers for case in maker()]

"""Calls that check a layout and that judge steps, traces and run files.

Each layout has one memory, which its steps and traces share. A call that is refused for something that is looked at before the
memory is lent a short one.
"""
from __future__ import annotations

from typing import Iterator

import made_files
import made_layouts
import made_runs
import page
from board import DMA, DMA_WRITES, INTERRUPT, WRITES, Layout, Monitor
from call import FILE, LAYOUT, MOST, STEP, TRACE, Call, call, monitor_bytes
from drawn_calls import drawn_layout, visits
from made_files import JUDGED, filed, reads, segment
from made_layouts import PAGE, changed, sized
from made_memories import BASES, edged, laid, of_length, places_of, regions_of
from made_traces import SPOILERS, Draw, any_start, spoilt, storing, sweep, walk
from page import CLEAN, UNCLEAN, step_bytes

FREE = monitor_bytes(Monitor(False, 0xC000))
PAGE_MEMORY = laid(BASES[0], [(0x6A00, b"\x5a"), (0xE000, b"\x11\x22")])

# Layouts that are refused, five for each ground. Those in the second half also have later grounds.
WRONG_LAYOUTS = (
    *(page.LAYOUT[:length] for length in (0, 20, 23)),
    page.LAYOUT + b"\0",
    page.LAYOUT * 2,
    *(changed(PAGE, **{name: (high, low)}) for name, (low, high) in zip(made_layouts.NAMES, PAGE)),
    *(changed(PAGE, kr=sized(0x6A00, size)) for size in (63, 65)),
    changed(PAGE, mr=sized(0x230, 95)),
    *(changed(PAGE, ctr=sized(0x300, size)) for size in (31, 33)),
    *(changed(PAGE, cr=(0, highest)) for highest in (0, 1, 0xFF, 0x22F, 0xDFFF)),
    changed(PAGE, xs=(0x31F, 0x7FF)),
    changed(PAGE, mr=sized(0x2A1, 96)),
    changed(PAGE, kr=sized(0x9FC1, 64)),
    changed(PAGE, ar=(0x6A3F, 0x6AFF)),
    changed(PAGE, ctr=sized(0xFFE0, 32)),
)

# Memories that are not of the right length.
SHORT = (0, 1, 24, 256, 4_096)
LONG = (65_535, 65_537)


def layout_calls(draw: Draw) -> Iterator[Call]:
    others = (*made_layouts.REFUSED, *made_layouts.ALL_GOOD, *WRONG_LAYOUTS, *made_layouts.ABOUT_AR)
    for layout in (*made_layouts.layouts(), *others):
        yield call(LAYOUT, layout)
    for _ in range(200):
        yield drawn_layout(draw)
    yield call(LAYOUT, of_length(4_096))


# ---- Steps


def marked_steps() -> Iterator[Call]:
    """The page's, and some for their effects; any first byte but 0 of the monitor means held."""
    for number, (last_pc, step, _) in enumerate(page.MARKED):
        held = bytes(((1, 2, 0x80, 0xFF)[number % 4],)) if last_pc is None else b"\0"
        last = (0xA010, 0xA0FF, 0xC000)[number % 3] if last_pc is None else last_pc
        yield call(STEP, PAGE_MEMORY, page.LAYOUT, step, held + last.to_bytes(2, "little"), of_length(4))
    for number, (step, _, _) in enumerate(page.EFFECTS[:4]):
        free = monitor_bytes(Monitor(False, step[1] << 8 & 0xF000))
        yield call(STEP, PAGE_MEMORY, page.LAYOUT, step, free, of_length(5 + number))


def other_resets(regions: Layout) -> Iterator[tuple[Monitor, bytes]]:
    """What no marked step is reset for: an interrupt of code in CR, the DMA at KR and at XS, and the DMA beside code in CR."""
    away, inside = Monitor(False, 0), Monitor(False, regions.cr[-1])
    low = regions.cr[0]
    yield inside, step_bytes(low, flags=INTERRUPT)
    yield away, step_bytes(0, dma=regions.kr[-1], flags=DMA)
    yield away, step_bytes(0, dma=regions.xs[0], flags=DMA | DMA_WRITES)
    yield inside, step_bytes(low, dma=regions.mr[-1], flags=DMA)


def other_steps(draw: Draw) -> Iterator[Call]:
    """One under each layout but the page's: the other resets, and at last one of any kind."""
    for number, layout in enumerate(made_layouts.GOOD[1:]):
        made = (*other_resets(regions_of(layout)), any_start(draw, places_of(layout)))
        monitor, step = made[number % len(made)]
        yield call(STEP, edged(draw, layout), layout, step, monitor_bytes(monitor), of_length(4 + draw.below(3)))


def refused_steps() -> Iterator[Call]:
    """Each refusal alone, and with later grounds. A memory of another length comes before all others."""
    good, worst, (byte, bits) = storing(1), b"\xff" * 11, SPOILERS[0]
    for length in (*SHORT, *LONG):
        yield call(STEP, of_length(length), page.LAYOUT, good, FREE, of_length(4))
    for length in SHORT:
        yield call(STEP, of_length(length), page.LAYOUT[:23], worst, FREE, b"")
    for number, layout in enumerate(WRONG_LAYOUTS):
        later = number % 2 == 1
        yield call(STEP, BASES[number % 4], layout, worst if later else good, FREE, b"" if later else of_length(4))
    for length, room in ((0, 0), (11, 4), (13, 3), (24, 8), (49_164, 16_388)):
        yield call(STEP, PAGE_MEMORY, page.LAYOUT, (storing(1) * 4_097)[:length], FREE, of_length(room))
    for room, step in ((0, good), (1, good), (3, good), (2, spoilt(good, 0, byte, bits)), (3, UNCLEAN)):
        yield call(STEP, PAGE_MEMORY, page.LAYOUT, step, FREE, of_length(room))
    for number, (byte, bits) in enumerate(SPOILERS[1:]):
        yield call(STEP, PAGE_MEMORY, page.LAYOUT, spoilt(good, 0, byte, bits), FREE, of_length(4 + number))


def step_calls(draw: Draw) -> Iterator[Call]:
    yield from marked_steps()
    yield from refused_steps()
    yield from other_steps(draw)
    yield call(STEP, PAGE_MEMORY, page.LAYOUT, storing(1), FREE, of_length(131_073))


# ---- Traces


def trace_call(memory: bytes, layout: bytes, trace: bytes, more: int = 0) -> Call:
    return call(TRACE, memory, layout, trace, of_length(len(trace) // 3 + more))


def wrong_visits(draw: Draw, layout: bytes) -> bytes:
    """Visits that go wrong at one point, each from a start at address 0, before which a held monitor is let go."""
    let_go = step_bytes(0) + step_bytes(0)
    return b"".join(let_go + visits(draw, places_of(layout), 1, True) for _ in range(60))


def judged_traces(draw: Draw) -> Iterator[Call]:
    """Of a layout, on one memory: sweeps, visits that go wrong, walks, lawful visits. Some begin away from address 0."""
    yield trace_call(PAGE_MEMORY, page.LAYOUT, page.TRACE, 3)
    yield trace_call(PAGE_MEMORY, page.LAYOUT, b"")
    for number, layout in enumerate(made_layouts.GOOD):
        memory, places = edged(draw, layout), places_of(layout)
        away = step_bytes(draw.of((places.low, places.high, 1, 0xFFFF))) * (number % 2)
        trace = away + b"".join(sweep(places)) + wrong_visits(draw, layout)
        trace += walk(draw, places, 400 if number else 4_096 - len(trace) // 12)
        yield trace_call(memory, layout, trace, number)
        if number % 2 == 0:
            yield trace_call(memory, layout, visits(draw, places, 60, False), number)


def trace_about_ar(draw: Draw) -> Call:
    """About AR, which is CR."""
    layout = made_layouts.GOOD_ABOUT_AR[1]
    return trace_call(edged(draw, layout), layout, walk(draw, places_of(layout), 60))


def refused_traces() -> Iterator[Call]:
    good, worst, hundred = storing(2), b"\xff" * 11, storing(100)
    for length in (*SHORT, *LONG, 131_073):
        yield call(TRACE, of_length(length), page.LAYOUT, good, of_length(8))
    for length in SHORT:
        yield call(TRACE, of_length(length), page.LAYOUT[:23], worst, b"")
    for number, layout in enumerate(WRONG_LAYOUTS):
        later = number % 2 == 0
        yield call(TRACE, BASES[number % 4], layout, worst if later else good, b"" if later else of_length(8))
    for length, room in ((1, 0), (11, 4), (13, 8), (23, 3), (49_164, 16_388)):
        yield call(TRACE, PAGE_MEMORY, page.LAYOUT, (UNCLEAN * 4_097)[:length], of_length(room))
    for trace, room in ((good, 7), (good, 4), (good, 0), (hundred, 399), (CLEAN + UNCLEAN, 6)):
        yield call(TRACE, PAGE_MEMORY, page.LAYOUT, trace, of_length(room))
    for place, (byte, bits) in zip((0, 1, 57, 98, 99), SPOILERS):
        unclean = spoilt(spoilt(hundred, 99, 11, 1), place, byte, bits)
        yield call(TRACE, PAGE_MEMORY, page.LAYOUT, unclean, of_length(400))


def trace_calls(draw: Draw) -> Iterator[Call]:
    yield from judged_traces(draw)
    yield trace_about_ar(draw)
    yield from refused_traces()
    yield trace_call(PAGE_MEMORY, page.LAYOUT, storing(40), MOST - len(PAGE_MEMORY) - 24 - 16 * 40)


# ---- Run files


def early_files() -> Iterator[Call]:
    """Refused for their contents or their length, before the memory and the room are looked at; and then for the memory."""
    for case in (*made_files.page_cases(), *made_files.contents_cases()):
        if case.says is not None and case.says.startswith("refused 13"):
            yield call(FILE, case.file, b"\x3c", b"")
    for case in made_runs.large_cases():
        if case.says == "refused 15 0":
            yield call(FILE, case.file, b"", b"\xa5")
    yield call(FILE, filed(trace=CLEAN * 4_092) + bytes(2), of_length(256), of_length(16))
    for number, length in enumerate((*SHORT, *LONG, 131_073)):
        file = page.FILE if number % 2 == 0 else filed(b"\0", UNCLEAN, page.CR_TO_AR)
        yield call(FILE, file, of_length(length), of_length(28))


LATE = (
    # The layout; half of them with a memory body and a trace that fail too.
    *(filed(b"\0" * (number % 2), CLEAN, layout) for number, layout in enumerate(WRONG_LAYOUTS) if len(layout) == 24),
    # Segments.
    filed(segment(0x1000, b""), CLEAN),
    filed(segment(0xFFFF, b"\x31\x32"), UNCLEAN[:11]),
    filed(segment(0x1000, b"\x33\x34") + segment(0x1001, b"\x35"), CLEAN),
    filed(segment(0xFFFF, b"\x33") + segment(0x0000, b"\x34"), CLEAN),
    filed(segment(0x1000, b"\x33") + b"\0\0\0", CLEAN),
    # The trace; the room is of 24 bytes.
    filed(segment(0xE000, b"\x36"), CLEAN[:11]),
    filed(segment(0xE000, b"\x36"), UNCLEAN + CLEAN[:1]),
    filed(b"", storing(1)[:1]),
    filed(b"", (storing(7) + CLEAN)[:95]),
    filed(segment(0xFFFF, b"\x36"), CLEAN + CLEAN[:1]),
    filed(b"", storing(7)),
    filed(segment(0xE000, b"\x36"), storing(8)),
    filed(page.MEMORY_BODY, page.TRACE),
    filed(b"", UNCLEAN * 7),
    filed(b"", storing(3_000)),
    filed(b"", UNCLEAN),
    filed(b"", CLEAN + UNCLEAN * 2),
    *(filed(page.MEMORY_BODY, spoilt(storing(6), place, *SPOILERS[place])) for place in (2, 3, 5)),
)


def judged_files(draw: Draw) -> Iterator[Call]:
    """What a file leaves in the memory is all of it: the base that was there shows nowhere."""
    yield call(FILE, page.FILE, BASES[1], of_length(31))
    yield call(FILE, filed(), BASES[1], b"")
    yield call(FILE, made_runs.longest(), BASES[2], of_length(4 * 4_092))
    everywhere = (0x0000, 0x0001, *range(0x0800, 0x10000, 0x03FF), 0xFFFE, 0xFFFF)
    stores = b"".join(step_bytes(0, a, flags=WRITES, cpu_data=a % 251) for a in everywhere)
    trace = step_bytes(0x1000, 0xE000, flags=WRITES, cpu_data=0xFF) + stores + reads(everywhere)
    yield call(FILE, filed(segment(0x0C00, b"\x71" * 9), trace), BASES[3], of_length(len(trace) // 3 + 1))
    large = [case.file for case in made_runs.large_memories() if case.says == JUDGED]
    for file in (large[-1], filed(segment(0xFFFE, b"\x21\x22"))):
        yield call(FILE, file, BASES[1], of_length(8))
    for number, steps in enumerate((30, 100, 300)):
        layout, memory, trace = made_runs.drawn_parts(draw, steps)
        yield call(FILE, filed(memory, trace, layout), BASES[number], of_length(4 * steps + number))


def file_calls(draw: Draw) -> Iterator[Call]:
    yield from early_files()
    for number, file in enumerate(LATE):
        yield call(FILE, file, BASES[number % 4], of_length(24))
    yield from judged_files(draw)


def calls(draw: Draw) -> Iterator[Call]:
    for maker in (layout_calls, step_calls, trace_calls, file_calls):
        yield from maker(draw)

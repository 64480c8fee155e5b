"""Calls and run files drawn at random, most of them around the edges of regions, lengths, totals and places.

A call is wrong in none, one or some of the ways that it can be refused for, each by itself. Layouts that are about AR's size,
or about AR sharing with CR in its first 32 bytes, are those of made_layouts and no others.
"""
from __future__ import annotations

import struct
from typing import Callable

import hashes
import made_layouts
from board import LAYOUT_BYTES, MEMORY_BYTES
from call import ATTEST, CHECK, FILE, HASH, LAYOUT, MAC, MOST, NEXT, STEP, TOKEN, TRACE, Call, call, place_bytes
from made_files import filed, segment
from made_layouts import HEAD, about_ar
from made_memories import BASES, edged, laid, of_length, places_of, regions_of
from made_reading import ZEROS, clean_trace, far_places, soiled
from made_running import BY_VALUE, COUNTS, LENT, LIMIT, TOTALS, Running, any_state, full, run
from made_runs import Parts, changed_parts, drawn_segments
from made_tokens import moved, reply_of, token_of, turned
from made_traces import Draw, Places, any_start, changed_step, inside_step, outside_step, walk

# ---- Layouts

FIXED = {1: 64, 4: 32}
DrawnLayout = Callable[[Draw], bytes]


def drawn_size(draw: Draw, place: int) -> int:
    if place in FIXED:
        return FIXED[place]
    if place == 3:
        return draw.of((96, 96, 97, 96 + draw.below(500)))
    if place == 5:
        return HEAD + draw.of((1, 2, 3, 1 + draw.below(400), 1 + draw.below(30_000)))
    return draw.of((1, 2, 3, 1 + draw.below(400), 1 + draw.below(2_000)))


def fresh_layout(draw: Draw) -> bytes:
    """Regions in any order, side by side or not, often from address 0 or to the highest. At times AR goes on into CR."""
    sizes = [drawn_size(draw, place) for place in range(6)]
    shared = draw.chance(25)
    # What AR has before CR.
    lead = HEAD + draw.of((0, 0, 1, draw.below(400))) if shared else 0
    sizes[0] += lead
    order = sorted(range(5 if shared else 6), key=lambda _: draw.below(2**31))
    gaps = [draw.of((0, 0, 0, 1, draw.below(4_000))) for _ in order]
    spare = MEMORY_BYTES - sum(sizes[place] for place in order) - sum(gaps[1:])
    start = draw.of((1 if order[0] == 0 else 0, 1, spare, 1 + draw.below(spare)))
    ends = [(0, 0)] * 6
    for place, gap in zip(order, [0, *gaps[1:]]):
        ends[place] = (start + gap, start + gap + sizes[place] - 1)
        start = ends[place][1] + 1
    if shared:
        start, high = ends[0]
        low = start + lead
        ends[0], ends[5] = (low, high), (start, draw.of((high, high, low, (low + high) // 2)))
    return struct.pack("<12H", *(end for pair in ends for end in pair))


def good_layout(draw: Draw) -> bytes:
    return fresh_layout(draw) if draw.chance(50) else draw.of(made_layouts.ALL_GOOD)


def changed_layout(draw: Draw, layout: bytes) -> bytes:
    """Another length; or a region reversed, of another size, from 0, moved to another, or changed in an end or a bit."""
    kind, place, other = draw.below(7), draw.below(6), draw.below(6)
    if kind == 0 or len(layout) != LAYOUT_BYTES:
        return (layout * 3)[: draw.of((0, 1, 12, 20, 22, 23, 25, 26, 28, 48))]
    if kind == 1:
        at = draw.below(len(layout))
        return turned(layout, at, 1 << draw.below(8))
    ends = [list(pair) for pair in struct.iter_unpack("<HH", layout)]
    low, high = ends[place]
    if kind == 2:
        ends[place] = [high, low] if high > low else [low + 1, low]
    elif kind == 3:
        sized = draw.of((1, 3, 4))
        ends[sized][1] = ends[sized][0] + draw.of((31, 32, 63, 64, 95, 96)) - draw.below(2)
    elif kind == 4:
        ends[0] = [0, draw.of((0, ends[0][1]))]
    elif kind == 5:
        (lowest, highest), size = ends[other], high - low + 1
        start = draw.of((highest, highest + 1, lowest - size + 1, lowest - size))
        ends[place] = [start, start + size - 1]
    else:
        ends[place][draw.below(2)] += draw.of((-1, 1))
    return struct.pack("<12H", *(end % 65_536 for pair in ends for end in pair))


def wrong_layout(draw: Draw) -> bytes:
    """Mostly refused."""
    layout = changed_layout(draw, good_layout(draw))
    layout = changed_layout(draw, layout) if draw.chance(30) else layout
    return wrong_layout(draw) if about_ar(layout) else layout


def layout_about_ar(draw: Draw) -> bytes:
    """About AR: a good one."""
    return draw.of(made_layouts.GOOD_ABOUT_AR)


def drawn_layout(draw: Draw) -> Call:
    return call(LAYOUT, good_layout(draw) if draw.chance(30) else wrong_layout(draw))


# ---- Steps, traces and files

WRONG_MEMORIES = (0, 1, 24, 256, 4_096, 65_535, 65_537, 131_072, 131_073)


def wrong_memory(draw: Draw) -> bytes:
    """Mostly a short one."""
    return of_length(draw.of(WRONG_MEMORIES if draw.chance(20) else WRONG_MEMORIES[:5]), draw.below(len(BASES)))


def room_for(draw: Draw, steps: int, wrong: bool) -> bytes:
    """As many bytes as are wanted, some more, or many more; or if it is to be wrong, some less."""
    wanted = 4 * steps
    if wrong:
        return of_length(draw.of((0, 1, max(wanted - 1, 0), max(wanted - 4, 0), 3 * steps, draw.below(wanted + 1))))
    more = 131_073 if draw.chance(1) else draw.of((0, 0, 1, 3, draw.below(40)))
    return of_length(wanted + more, draw.below(len(BASES)))


def spoilt(draw: Draw, trace: bytes) -> bytes:
    """A trace with one or two steps unclean, if it has any."""
    for _ in range(1 + draw.below(2)):
        if len(trace) >= 12:
            trace = soiled(trace, draw.below(len(trace) // 12), draw.of(ZEROS))
    return trace


def visits(draw: Draw, places: Places, count: int, wrong: bool) -> bytes:
    """Whole visits of CR, in which nothing resets; or all is lawful but one step."""
    made = [outside_step(draw, places, 0)]
    for _ in range(count):
        made += [outside_step(draw, places, draw.of(places.outside)) for _ in range(draw.below(3))]
        inside = [places.low, *(draw.of(places.inside) for _ in range(draw.below(5))), places.high]
        made += [inside_step(draw, places, pc) for pc in (inside if places.low < places.high else inside[:1])]
        made.append(outside_step(draw, places, draw.of(places.outside)))
    if wrong:
        at = draw.below(len(made))
        made[at] = changed_step(draw, places, made[at])
    return b"".join(made)


def drawn_trace(draw: Draw, layout: bytes) -> bytes:
    """Walks and visits, mostly short; one in some hundred has as many steps as there may be, or one more or less."""
    kind, places = draw.below(100), places_of(layout)
    if kind == 0:
        return (walk(draw, places, 64) * 65)[: 12 * draw.of((4_095, 4_096, 4_096, 4_097))]
    if kind < 40:
        return visits(draw, places, 1 + draw.below(4), draw.chance(60))
    return walk(draw, places, draw.of((0, 1, 2, draw.below(12), draw.below(60))))


def grounds(draw: Draw, *names: str, percent: int = 8) -> set[str]:
    """What is to be wrong."""
    return {name for name in names if draw.chance(percent)}


def drawn_step_call(draw: Draw, drawn: DrawnLayout = good_layout) -> Call:
    wrong, layout = grounds(draw, "memory", "layout", "length", "room", "zeros"), drawn(draw)
    monitor, step = any_start(draw, places_of(layout))
    memory = wrong_memory(draw) if "memory" in wrong else edged(draw, layout)
    step = spoilt(draw, step) if "zeros" in wrong else step
    step = (step * 3)[: draw.of((0, 1, 11, 13, 24, 36))] if "length" in wrong else step
    held = draw.of((1, 2, 0x80, 0xFF)) if monitor.held else 0
    remembered = bytes((held,)) + monitor.last_pc.to_bytes(2, "little")
    layout = wrong_layout(draw) if "layout" in wrong else layout
    return call(STEP, memory, layout, step, remembered, room_for(draw, 1, "room" in wrong))


def drawn_trace_call(draw: Draw, drawn: DrawnLayout = good_layout) -> Call:
    wrong, layout = grounds(draw, "memory", "layout", "length", "room", "zeros"), drawn(draw)
    trace = drawn_trace(draw, layout)
    memory = wrong_memory(draw) if "memory" in wrong else edged(draw, layout)
    trace = spoilt(draw, trace) if "zeros" in wrong else trace
    trace = trace + draw.bytes(1 + draw.below(11)) if "length" in wrong else trace
    room = room_for(draw, len(trace) // 12, "room" in wrong)
    return call(TRACE, memory, wrong_layout(draw) if "layout" in wrong else layout, trace, room)


def drawn_memory_body(draw: Draw) -> bytes:
    """Segments, at times with one that ends at the highest address, or a byte past it."""
    if draw.chance(80):
        return drawn_segments(draw, 8)
    size = 1 + draw.below(20)
    return segment(draw.below(0x1000), draw.bytes(3)) + segment(65_536 - size, draw.bytes(size + draw.chance(20)))


def drawn_file(draw: Draw) -> bytes:
    """A file, most of them with something changed; one in some hundred is as long as it may be, or a byte longer."""
    layout = good_layout(draw)
    parts = Parts(layout, drawn_memory_body(draw), drawn_trace(draw, layout))
    kind = draw.below(100)
    if kind < 3:
        length = 49_152 + draw.of((-1, 0, 0, 1)) - 48 - len(parts.memory)
        trace = (parts.trace + clean_trace(draw, 1)) * 4_096
        return filed(parts.memory, trace[:length], layout)
    if kind < 45:
        return filed(parts.memory, parts.trace, layout)
    if kind < 60:
        return filed(parts.memory, spoilt(draw, parts.trace), wrong_layout(draw) if draw.chance(60) else layout)
    return changed_parts(draw, parts)


def drawn_file_call(draw: Draw) -> Call:
    wrong, file = grounds(draw, "memory", "room"), drawn_file(draw)
    memory = wrong_memory(draw) if "memory" in wrong else draw.of(BASES)
    return call(FILE, file, memory, room_for(draw, len(file) // 12, "room" in wrong))


# ---- Board and station


def drawn_challenges(draw: Draw, wrong: bool) -> tuple[bytes, bytes]:
    """A counter and a challenge, which is greater unless it is to be wrong. Mostly they differ from some byte on."""
    at = draw.below(32)
    head, low = draw.bytes(at), draw.below(255)
    high = low + 1 + draw.below(255 - low)
    behind = [draw.of((bytes(31 - at), b"\xff" * (31 - at), draw.bytes(31 - at))) for _ in range(2)]
    lower, higher = head + bytes((low,)) + behind[0], head + bytes((high,)) + behind[1]
    if not wrong:
        return lower, higher
    return higher, draw.of((lower, higher, moved(higher, -1)))


def drawn_attest_call(draw: Draw, drawn: DrawnLayout = good_layout) -> Call:
    layout = drawn(draw)
    wrong = grounds(draw, "memory", "layout") | grounds(draw, "challenge", "token", percent=20)
    regions, key = regions_of(layout), draw.bytes(64)
    counter, challenge = drawn_challenges(draw, "challenge" in wrong)
    token = token_of(key, challenge)
    if "token" in wrong:
        near = turned(token, draw.below(32), 1 << draw.below(8))
        token = draw.of((near, near, token_of(key, counter), token_of(turned(key, 63), challenge)))
    request = [(regions.kr[0], key), (regions.ctr[0], counter), (regions.mr[0], challenge + token)]
    memory = wrong_memory(draw) if "memory" in wrong else laid(edged(draw, layout), request)
    return call(ATTEST, memory, wrong_layout(draw) if "layout" in wrong else layout)


def of_other_length(draw: Draw, string: bytes) -> bytes:
    """Mostly a byte more or less."""
    return (string * 5)[: draw.of((0, 1, len(string) - 1, len(string) + 1, len(string) + 1, 2 * len(string)))]


def drawn_token_call(draw: Draw) -> Call:
    wrong, key, challenge = grounds(draw, "key", "challenge"), draw.bytes(64), draw.bytes(32)
    key = of_other_length(draw, key) if "key" in wrong else key
    return call(TOKEN, key, of_other_length(draw, challenge) if "challenge" in wrong else challenge)


def drawn_length(draw: Draw, most: int) -> int:
    """Around a block's edges, or any that is short, or rarely a long one, up to the most that is hashed or a little more."""
    if draw.chance(3):
        return most + draw.of((-64, -1, 0, 0, 1, 1, 64, 65_536))
    return draw.of((0, 1, 54, 55, 56, 63, 64, 65, 119, 120, 127, 128, draw.below(300), draw.below(3_000)))


def drawn_message(draw: Draw, length: int) -> bytes:
    return draw.bytes(length) if length < 300 else run(draw, length)


def drawn_check_call(draw: Draw) -> Call:
    """The right reply in one of two, and else nearly the right one, or for another key, challenge or region."""
    wrong, key, challenge = grounds(draw, "key", "challenge", "reply"), draw.bytes(64), draw.bytes(32)
    region = drawn_message(draw, drawn_length(draw, 65_536))
    reply = reply_of(key, challenge, region)
    if draw.chance(50) and region:
        near, token = turned(reply, draw.below(32), 1 << draw.below(8)), token_of(key, challenge)
        other_key = reply_of(turned(key, draw.below(64)), challenge, region)
        other_region = reply_of(key, challenge, turned(region, len(region) - 1))
        reply = draw.of((near, token, token_of(token, region), other_key, other_region))
    key = of_other_length(draw, key) if "key" in wrong else key
    challenge = of_other_length(draw, challenge) if "challenge" in wrong else challenge
    return call(CHECK, key, challenge, of_other_length(draw, reply) if "reply" in wrong else reply, region)


# ---- Hashes


def drawn_hash_call(draw: Draw) -> Call:
    return call(HASH, drawn_message(draw, drawn_length(draw, LIMIT)))


def drawn_mac_call(draw: Draw) -> Call:
    key = draw.of((0, 1, 63, 64, 65, draw.below(200), drawn_length(draw, 65_536)))
    return call(MAC, drawn_message(draw, key), drawn_message(draw, drawn_length(draw, 65_536)))


def drawn_total(draw: Draw) -> int:
    return draw.of((draw.of(TOTALS), draw.below(LIMIT), LIMIT - draw.below(200), draw.below(300)))


def drawn_take_in(draw: Draw, running: Running) -> Call:
    """Some states are on the way of a message; a count may be what is just left, or one more."""
    total = drawn_total(draw)
    counts = (draw.of(COUNTS), draw.below(200), max(min(LIMIT - total, 300), 0), max(min(LIMIT + 1 - total, 300), 0))
    more = run(draw, LIMIT - 300 + draw.below(301)) if draw.below(1_000) == 0 else full(draw, draw.of(counts))
    _, under_way = hashes.take_in(hashes.START, full(draw, draw.below(200)))
    return running.take_in(under_way if draw.chance(20) else any_state(draw, total), more)


def drawn_finish(draw: Draw, running: Running) -> Call:
    return running.finish(any_state(draw, drawn_total(draw)))


def drawn_next_call(draw: Draw) -> Call:
    steps = draw.of((0, 1, 2, draw.below(8), draw.below(40)))
    trace = clean_trace(draw, steps)
    trace = spoilt(draw, trace) if draw.chance(50) else trace
    trace = trace + draw.bytes(1 + draw.below(11)) if draw.chance(10) else trace
    if draw.below(300) == 0:
        trace = (clean_trace(draw, 64) * 65)[: 12 * draw.of((4_096, 4_097))]
    steps = len(trace) // 12
    place = draw.of(far_places(steps)) if draw.chance(15) else draw.below(steps + 1)
    return call(NEXT, trace, place_bytes(place))


# How often each is drawn, in parts of all.
MAKERS: tuple[tuple[int, Callable[[Draw], Call]], ...] = (
    (8, drawn_layout),
    (12, drawn_step_call),
    (12, drawn_trace_call),
    (10, drawn_attest_call),
    (4, drawn_token_call),
    (8, drawn_check_call),
    (6, drawn_hash_call),
    (6, drawn_mac_call),
    (7, lambda draw: drawn_take_in(draw, BY_VALUE)),
    (5, lambda draw: drawn_finish(draw, BY_VALUE)),
    (7, lambda draw: drawn_take_in(draw, LENT)),
    (5, lambda draw: drawn_finish(draw, LENT)),
    (10, drawn_next_call),
    (12, drawn_file_call),
    # About AR.
    (1, lambda draw: call(LAYOUT, draw.of(made_layouts.ABOUT_AR))),
    (1, lambda draw: drawn_step_call(draw, layout_about_ar)),
    (1, lambda draw: drawn_trace_call(draw, layout_about_ar)),
    (1, lambda draw: drawn_attest_call(draw, layout_about_ar)),
)
DECK = tuple(maker for times, maker in MAKERS for _ in range(times))


def drawn_call(draw: Draw) -> Call:
    """One that is not cut for the length of its arguments."""
    made = draw.of(DECK)(draw)
    while sum(map(len, made.arguments)) > MOST:
        made = draw.of(DECK)(draw)
    return made

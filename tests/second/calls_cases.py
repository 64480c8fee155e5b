"""The files of the program `calls`, and what their calls have to meet, so that the comparison does not go blind."""
from __future__ import annotations

import struct
from collections import Counter
from typing import Iterator, Optional

import board
import calls
import marked
import page
import runfile
from call import ATTEST, CHECK, FILE, FINISH, HASH, LAYOUT, LENT_FINISH, LENT_TAKE_IN, MAC, MOST, NEXT, PLACE, STATE, STEP
from call import TAKE_IN, TOKEN, TRACE
from board import DMA, DMA_WRITES, Layout, Step, Totals
from calls import Made
from made_calls import stdin
from made_layouts import HEAD, about_ar
from made_memories import regions_of
from made_reading import ZEROS
from made_running import LIMIT
from made_tokens import token_of

# The refusals that each call can give.
REFUSALS = {
    LAYOUT: range(2, 7),
    STEP: range(1, 10),
    TRACE: range(1, 10),
    ATTEST: (*range(1, 7), 10, 11),
    **dict.fromkeys((TOKEN, CHECK, HASH, MAC, TAKE_IN, FINISH, LENT_TAKE_IN, LENT_FINISH), (12,)),
    NEXT: (7, 9),
    FILE: (1, *range(3, 10), 13, 14, 15),
}

CAUSES = (*range(11), 15)

# The bytes that the files have at most together.
MOST_STORED = 22_200_000


def word(done: Made) -> str:
    """A call's answer in a word or two, and the call."""
    first, number, *_ = (*done.answer.first.split(" "), "")
    return f"{f'refused {number}' if first == 'refused' else first} by call {done.number}"


def length_met(name: str, given: bytes, right: int) -> Iterator[str]:
    if len(given) > LIMIT:
        yield f"{name} of more than {LIMIT} bytes"
    if abs(len(given) - right) == 1:
        yield f"{name} of {len(given)} bytes"


# ---- Layouts


def layout_met(done: Made, kind: str) -> Iterator[str]:
    """Where AR is in a good layout."""
    layout, = done.arguments
    if kind.startswith("refused"):
        return
    ar, cr = regions_of(layout).ar, regions_of(layout).cr
    if about_ar(layout):
        yield f"{kind} about AR"
    elif cr[0] in ar:
        yield f"{kind} with CR {'right behind' if ar[HEAD] == cr[0] else 'further behind'} AR's first bytes"
    elif len(ar) == HEAD + 1:
        yield f"{kind} with the least AR"


# ---- Steps, traces and files


def lawful(regions: Layout, step: Step, flags: int) -> Iterator[str]:
    """What the page says is no ground for a reset by itself."""
    if step.pc in regions.kr or step.pc in regions.xs:
        yield "a fetch in KR or XS"
    if flags & (DMA | DMA_WRITES) == DMA_WRITES:
        yield "bit 4 alone"
        if any(step.dma_address in region for region in (regions.kr, regions.xs, regions.ctr)):
            yield "bit 4 alone in KR, XS or CTR"
    if step.cpu_reads and step.cpu_writes:
        yield "a read with a write"
    if step.cpu_writes and (step.cpu_address in regions.kr or step.cpu_address in regions.cr):
        yield "a store of the CPU to ROM"
    if step.dma_writes and step.dma_address in regions.cr:
        yield "a store of the DMA to ROM"


def steps_met(layout: bytes, trace: bytes, room: bytes, last: Optional[int]) -> Iterator[str]:
    """Causes, exposures, and visits of CR: whole ones, and ones that go wrong. Without a last PC the monitor is held."""
    regions, within = regions_of(layout), False
    cr = regions.cr
    for i in range(0, len(trace), 12):
        step, (cause, exposed) = board.decode(trace[i : i + 12]), room[i // 3 : i // 3 + 2]
        inside, was_inside = step.pc in cr, last is not None and last in cr
        yield f"cause {cause}"
        yield f"exposed {exposed}"
        if cause == 0 and step.cpu_writes and step.dma_active and step.cpu_address == step.dma_address:
            yield "two stores at one address" if step.dma_writes else "a DMA read at the CPU's store"
        yield from (f"{what} that passes" for what in lawful(regions, step, trace[i + 6]) if not cause)
        if last is None and step.pc == 0:
            yield f"held with PC 0 and cause {cause}"
        if inside and not was_inside:
            within = cause == 0
        if within and cause:
            yield f"a visit that ends by cause {cause}"
        if within and not inside and not cause:
            yield "a whole visit"
        within = within and inside and not cause
        last = None if cause else step.pc


def page_met(done: Made, layout: bytes, trace: bytes, last: Optional[int]) -> Iterator[str]:
    """The page's own examples, come out as it says."""
    if layout != page.LAYOUT:
        return
    if done.number == STEP:
        made = (last, trace, done.answer.room[0])
        yield from (f"marked step {number}" for number, marked in enumerate(page.MARKED) if marked == made)
        return
    _, steps, _, resets = done.answer.first.split(" ")
    if runfile.report(Totals(int(steps), int(resets)), done.answer.room) == page.REPORT:
        yield "the page's whole case"


def judging_met(done: Made, kind: str) -> Iterator[str]:
    """What a call meets that judges a step, a trace or a file."""
    memory, room = done.arguments[1 if done.number == FILE else 0], done.arguments[-1]
    yield from (f"{what} by call {done.number}" for what in length_met("memory", memory, board.MEMORY_BYTES))
    yield from (f"{what} by call {done.number}" for what in length_met("room", room, 0))
    if kind.startswith("refused"):
        return
    last = None
    if done.number == FILE:
        file = done.arguments[0]
        layout, (start,) = file[24:48], struct.unpack_from("<I", file, 16)
        trace = file[start:]
    else:
        layout, trace = done.arguments[1:3]
    if done.number == STEP:
        held, low, high = done.arguments[3]
        last = None if held else low + 256 * high
        yield f"{kind} with the first byte {'0' if not held else '1' if held == 1 else 'another'}"
    steps = list(steps_met(layout, trace, done.answer.room, last))
    yield from (f"{what} by call {done.number}" for what in (*steps, *page_met(done, layout, trace, last)))
    if "a whole visit" in steps and not done.answer.first.endswith("resets 0"):
        yield f"{kind} of whole visits and resets"
    if "a whole visit" in steps and done.answer.first.endswith("resets 0"):
        yield f"{kind} of whole visits and no reset"
    if done.number != STEP and steps[:1] == ["cause 15"]:
        yield f"{kind} from away from address 0"
    if not trace:
        yield f"{kind} of no step"
    if len(trace) == 12 * board.MOST_STEPS:
        yield f"{kind} of {board.MOST_STEPS} steps"
    if len(room) > len(trace) // 3:
        yield f"{kind} with room behind the answers"


# ---- Board and station


def attest_met(done: Made, kind: str) -> Iterator[str]:
    memory, layout = done.arguments
    yield from (f"{what} by call {done.number}" for what in length_met("memory", memory, board.MEMORY_BYTES))
    if kind.split(" by")[0] not in ("accepted", "refused 10", "refused 11"):
        return
    regions = regions_of(layout)
    key, counter = (memory[region[0] : region[-1] + 1] for region in (regions.kr, regions.ctr))
    challenge, token = (memory[start : start + 32] for start in (regions.mr[0], regions.mr[32]))
    unlike = [at for at in range(32) if challenge[at] != counter[at]]
    if not unlike:
        yield f"{kind} with an equal challenge"
    elif len({challenge[at] > counter[at] for at in (unlike[0], unlike[-1])}) == 2:
        yield f"{kind}, and the last byte that differs says otherwise"
    wrong = [at for at, byte in enumerate(token_of(key, challenge)) if byte != token[at]]
    if len(wrong) == 1:
        yield f"{kind} with byte {wrong[0]} of the token wrong"
    elif wrong:
        yield f"{kind} with another token"


# ---- The running hash and the reader


def running_met(done: Made, kind: str) -> Iterator[str]:
    *_, block, total = STATE.unpack(done.arguments[0])
    stale = any(block[total % 64 :])
    total += sum(map(len, done.arguments[1:]))
    if stale:
        yield f"{kind} with a stale tail"
        if done.arguments[1:] == [b""]:
            yield f"{kind} of nothing with a stale tail"
    if total in (LIMIT, LIMIT + 1):
        yield f"{kind} at {total}"
    for bits in (32, 64):
        if total >= 2**bits and total % 2**bits <= LIMIT:
            yield f"{kind} where {bits} bits of the total are within the limit"
    if len(done.arguments) == 1:
        yield f"{kind} with {total % 64} bytes filled"


def reader_met(done: Made, kind: str) -> Iterator[str]:
    trace, (place,) = done.arguments[0], PLACE.unpack(done.arguments[1])
    numbers = [int.from_bytes(trace[at : at + 12], "little") for at in range(0, len(trace), 12)]
    soiled = [number for number, step in enumerate(numbers) if any(step >> bit & 1 for bit in ZEROS)]
    if place >= len(numbers):
        yield f"{kind} past the end"
    for bits in (32, 64):
        if 12 * place >= 2**bits and 12 * place % 2**bits + 12 <= len(trace):
            yield f"{kind} where {bits} bits of 12 times the place are in the trace"
    if place < len(numbers):
        yield from (f"{kind} with bit {bit} set" for bit in ZEROS if numbers[place] >> bit & 1)
        if any(number < place for number in soiled):
            yield f"{kind} behind an unclean step"
        if any(number > place for number in soiled):
            yield f"{kind} before an unclean step"
        if numbers[place] >> 51 & 3 == 2:
            yield f"{kind} that writes with no DMA"
    if len(trace) in (49_152, 49_164):
        yield f"{kind} of {len(trace)} bytes"
    yield f"{kind} of a trace with {len(trace) % 12} bytes over"


def follows(done: Made, before: Optional[Made]) -> bool:
    """Whether a call is given the state or the place that the one before left."""
    if before is None or not TAKE_IN <= done.number <= NEXT:
        return False
    if done.number == NEXT:
        place = f"place {PLACE.unpack(done.arguments[1])[0]}"
        return done.arguments[0] == before.arguments[0] and before.answer.further == (place,)
    return before.answer.further == (f"state {done.arguments[0].hex()}",)


def met(done: Made, before: Optional[Made]) -> Iterator[str]:
    """What a call meets: its answer, its place if it is refused, and more by what it is."""
    kind = word(done)
    yield kind
    if kind.startswith("refused"):
        yield f"{kind} at {done.answer.first.split(' ')[2]}"
    if follows(done, before):
        yield f"{kind} on what the call before left"
    if sum(map(len, done.arguments)) == MOST:
        yield f"as many bytes as a call can have by call {done.number}"
    if done.number == LAYOUT:
        yield from layout_met(done, kind)
    elif done.number in (STEP, TRACE, FILE):
        yield from judging_met(done, kind)
    elif done.number == ATTEST:
        yield from attest_met(done, kind)
    elif done.number in (HASH, MAC):
        yield from (f"{kind} of {length} bytes" for length in map(len, done.arguments))
    elif TAKE_IN <= done.number <= LENT_FINISH:
        yield from running_met(done, kind)
    elif done.number == NEXT:
        yield from reader_met(done, kind)


# ---- How often each has to be met at least


def least_of_judging() -> Iterator[tuple[str, int]]:
    for number in (STEP, TRACE, ATTEST, FILE):
        yield from ((f"refused 3 by call {number} at {place}", 1) for place in range(6))
        yield from ((f"refused 4 by call {number} at {place}", 1) for place in (1, 3, 4))
        yield from ((f"memory of {length} bytes by call {number}", 1) for length in (65_535, 65_537))
    yield from ((f"refused 3 by call {LAYOUT} at {place}", 5) for place in range(6))
    yield from ((f"refused 4 by call {LAYOUT} at {place}", 5) for place in (1, 3, 4))
    yield from ((f"refused 9 by call {TRACE} at {place}", 1) for place in (0, 1, 57, 98, 99))
    yield from ((f"refused 9 by call {FILE} at {place}", 1) for place in (0, 1, 2, 3, 5))
    yield from ((f"refused 13 by call {FILE} at {place}", 20) for place in range(3))
    yield from ((f"refused 14 by call {FILE} at {place}", 2) for place in range(2))
    yield from ((f"room of more than {LIMIT} bytes by call {number}", 1) for number in (STEP, TRACE))
    yield from ((f"memory of more than {LIMIT} bytes by call {number}", 1) for number in (TRACE, ATTEST, FILE))
    yield from ((f"marked step {number} by call {STEP}", 1) for number in range(len(page.MARKED)))
    yield from ((f"the page's whole case by call {number}", 1) for number in (TRACE, FILE))
    yield from ((f"cause {cause} by call {number}", least) for number, least in ((STEP, 1), (TRACE, 20)) for cause in CAUSES)
    yield from ((f"exposed {exposed} by call {TRACE}", 20) for exposed in range(4))
    yield from ((f"exposed {exposed} by call {FILE}", 5) for exposed in (0, 1, 3))
    yield from ((f"{what} by call {TRACE}", 5) for what in ("two stores at one address", "a DMA read at the CPU's store"))
    passing = ("a fetch in KR or XS", "bit 4 alone in KR, XS or CTR", "a read with a write")
    passing += ("a store of the CPU to ROM", "a store of the DMA to ROM")
    yield from ((f"{what} that passes by call {TRACE}", 100) for what in passing)
    yield from ((f"held with PC 0 and cause {cause} by call {TRACE}", 20) for cause in (0, 1, 5, 7, 8, 10))
    yield f"steps by call {TRACE} of no step", 1
    yield f"a whole visit by call {TRACE}", 200
    yield from ((f"a visit that ends by cause {cause} by call {TRACE}", 5) for cause in (2, 4, 6, 9))
    yield f"steps by call {TRACE} of whole visits and no reset", 3
    yield f"steps by call {TRACE} of whole visits and resets", 5
    yield f"steps by call {TRACE} of 4096 steps", 1
    yield from ((f"steps by call {number} from away from address 0", least) for number, least in ((TRACE, 2), (FILE, 1)))
    yield from ((f"held by call {STEP} with the first byte {byte}", 1) for byte in ("0", "1", "another"))
    judged = (f"held by call {STEP}", f"steps by call {TRACE}", f"steps by call {FILE}")
    yield from ((f"{kind} with room behind the answers", 2) for kind in judged)
    yield from ((kind, 5) for kind in (f"good by call {LAYOUT}", *judged))
    behind = [f"with CR {where} behind AR's first bytes" for where in ("right", "further")]
    yield from ((f"good by call {LAYOUT} {what}", 5) for what in ("about AR", "with the least AR", *behind))


def least_of_answering() -> Iterator[tuple[str, int]]:
    yield f"accepted by call {ATTEST}", 10
    for kind, times in (("accepted", 5), ("refused 10", 2)):
        yield f"{kind} by call {ATTEST}, and the last byte that differs says otherwise", times
    yield f"refused 10 by call {ATTEST} with an equal challenge", 2
    yield from ((f"refused {refusal} by call {ATTEST} with another token", 2) for refusal in (10, 11))
    yield from ((f"refused 11 by call {ATTEST} with byte {at} of the token wrong", 1) for at in range(32))
    yield f"token by call {TOKEN}", 20
    yield from ((f"{answer} by call {CHECK}", 20) for answer in ("yes", "no"))
    yield from ((f"hash by call {HASH} of {length} bytes", 1) for length in (*range(200), 65_536, 131_072))
    yield from ((f"mac by call {MAC} of {length} bytes", 1) for length in (0, 1, 63, 64, 65, 65_536))
    yield f"refused 12 by call {HASH} of 131073 bytes", 1
    yield f"refused 12 by call {MAC} of 65537 bytes", 4


def least_of_running(take_in: int, finish: int) -> Iterator[tuple[str, int]]:
    hashed = [f"taken by call {take_in}", f"refused 12 by call {take_in}"]
    hashed += [f"hash by call {finish}", f"refused 12 by call {finish}"]
    yield from ((kind, 20) for kind in hashed)
    yield from ((f"{kind} with a stale tail", 20) for kind in hashed)
    yield f"taken by call {take_in} of nothing with a stale tail", 20
    yield from ((f"{kind} on what the call before left", 5) for kind in hashed)
    for bits in (32, 64):
        yield f"refused 12 by call {take_in} where {bits} bits of the total are within the limit", 5
    yield f"refused 12 by call {finish} where 32 bits of the total are within the limit", 5
    yield from ((f"{kind} by call {take_in} at {total}", 5) for kind, total in (("taken", LIMIT), ("refused 12", LIMIT + 1)))
    yield from ((f"{kind} by call {finish} at {total}", 1) for kind, total in (("hash", LIMIT), ("refused 12", LIMIT + 1)))
    yield from ((f"hash by call {finish} with {filled} bytes filled", 1) for filled in range(64))


def least_of_reading() -> Iterator[tuple[str, int]]:
    step, end, unclean, other = (f"{kind} by call {NEXT}" for kind in ("step", "end", "refused 9", "refused 7"))
    yield from ((kind, 20) for kind in (step, end, unclean, other, f"{step} on what the call before left"))
    yield from ((f"{end} where {bits} bits of 12 times the place are in the trace", 5) for bits in (32, 64))
    yield from ((f"{kind} on what the call before left", 5) for kind in (end, unclean))
    for how in ("before an unclean step", "behind an unclean step", "that writes with no DMA"):
        yield f"{step} {how}", 5
    yield f"{other} past the end", 5
    yield f"{other} with bit 53 set", 1
    yield from ((f"{unclean} with bit {bit} set", 1) for bit in ZEROS)
    yield from ((f"{other} of a trace with {over} bytes over", 1) for over in range(12))
    yield from ((f"{kind} bytes", 1) for kind in (f"{step} of 49152", f"{end} of 49152", f"{other} of 49164"))


def least() -> dict[str, int]:
    refused = {f"refused {refusal} by call {number}": 5 for number, some in REFUSALS.items() for refusal in some}
    running = (*least_of_running(TAKE_IN, FINISH), *least_of_running(LENT_TAKE_IN, LENT_FINISH))
    others = (*least_of_judging(), *least_of_answering(), *running, *least_of_reading())
    return {**refused, **dict(others), f"as many bytes as a call can have by call {TRACE}": 1}


def blindness(made: list[Optional[Made]]) -> Iterator[str]:
    """What the calls do not meet. Only the last is cut."""
    tally: Counter[str] = Counter()
    for before, done in zip((None, *made), made):
        if done is not None:
            tally.update(met(done, before))
    yield from (f"{what}: {tally[what]}" for what, times in least().items() if tally[what] < times)
    yield from marked.unmarked(marked.of_call(done.number, done.arguments) for done in made if done is not None)
    known = {f"refused {refusal} by call {number}" for number, some in REFUSALS.items() for refusal in some}
    told = {word(done) for done in made if done is not None}
    yield from (f"{what} cannot be" for what in sorted(told - known) if what.startswith("refused"))
    if made.index(None) != len(made) - 1 or len(made) <= 1_500:
        yield f"{len(made) - 1} calls, and then the end is not cut"


def files() -> dict[str, bytes]:
    """The program's files, by name."""
    given = stdin()
    made = list(calls.made(given))
    blind = list(blindness(made))
    assert not blind, f"the cases of calls are blind: {blind}"
    stdout = "".join(f"{line}\n" for done in made for line in calls.lines(done)).encode("ascii")
    assert len(given) + len(stdout) <= MOST_STORED, f"the files of calls have {len(given) + len(stdout)} bytes"
    return {"stdin": given, "stdout": stdout}

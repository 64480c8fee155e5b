"""Steps and traces for cases, around the edges of a layout's regions.

No rule is worked out here, so that what is tried does not hang on the second implementation.
"""
from __future__ import annotations

from itertools import product
from typing import Iterator, Sequence, TypeVar

from board import DMA, DMA_WRITES, INTERRUPT, READS, STEP_BYTES, WRITES, Layout, Monitor
from page import step_bytes

T = TypeVar("T")

TOP = 0xFFFF
CPU_ACCESSES = (0, READS, WRITES, READS | WRITES)
DMA_ACCESSES = (0, DMA, DMA | DMA_WRITES)


class Draw:
    """Numbers drawn in a fixed order, the same with every Python."""

    def __init__(self, seed: int) -> None:
        self.state = seed

    def below(self, limit: int) -> int:
        self.state = (self.state * 6364136223846793005 + 1442695040888963407) % 2**64
        return (self.state >> 33) % limit

    def of(self, things: Sequence[T]) -> T:
        return things[self.below(len(things))]

    def chance(self, percent: int) -> bool:
        return self.below(100) < percent

    def bytes(self, length: int) -> bytes:
        return bytes(self.below(256) for _ in range(length))


class Places:
    """Addresses of interest in a layout."""

    def __init__(self, layout: Layout) -> None:
        near = {0, 1, TOP}
        for region in layout:
            low, high = region[0], region[-1]
            near |= {low - 1, low, low + 1, (low + high) // 2, high - 1, high, high + 1}
        self.all = sorted(a for a in near if 0 <= a <= TOP)
        self.low, self.high = layout.cr[0], layout.cr[-1]
        self.key = layout.kr[0]
        self.inside = [a for a in self.all if a in layout.cr]
        self.outside = [a for a in self.all if a not in layout.cr]
        self.public = [a for a in self.all if not (a in layout.kr or a in layout.xs or a in layout.ctr)]
        self.doors = sorted({0, TOP, self.low - 1, *self.inside, self.high + 1} & set(self.all))
        self.own = [a for a in self.all if a in layout.xs or a in layout.mr or a in layout.ctr]


# Each zero bit of the flags, and each zero byte.
SPOILERS = ((6, 0x20), (6, 0x40), (6, 0x80), (9, 0x01), (10, 0x80), (11, 0x10))


def storing(steps: int) -> bytes:
    """Steps that each store a byte into AR of the page's layout."""
    return b"".join(step_bytes(0, 0xE000 + i, flags=WRITES, cpu_data=(91 * i + steps) % 256) for i in range(steps))


def spoilt(trace: bytes, place: int, byte: int, bits: int) -> bytes:
    """The trace with bits set in a byte of the step at a place."""
    at = STEP_BYTES * place + byte
    return trace[:at] + bytes((trace[at] | bits,)) + trace[at + 1 :]


# Sweeps: each combination once. Code outside CR comes from address 0; code in CR has come in by its lowest address.


def accesses(places: Places) -> Iterator[tuple[int, int, int]]:
    """Every access of the CPU and of the DMA at every address of interest: addresses and flags."""
    for address in places.all:
        for flags in CPU_ACCESSES[1:]:
            yield address, 0, flags
        for flags in (DMA, DMA | DMA_WRITES):
            yield 0, address, flags


def outside_sweep(places: Places) -> Iterator[bytes]:
    for number, (cpu, dma, flags) in enumerate(accesses(places)):
        yield step_bytes(0)
        yield step_bytes(places.outside[number % len(places.outside)], cpu, dma, flags, number % 256, 255 - number % 256)


def inside_sweep(places: Places) -> Iterator[bytes]:
    for number, (cpu, dma, flags) in enumerate(accesses(places)):
        yield from (step_bytes(0), step_bytes(0), step_bytes(places.low))
        yield step_bytes(places.inside[number % len(places.inside)], cpu, dma, flags, number % 256, 255 - number % 256)


def held_sweep(places: Places) -> Iterator[bytes]:
    """A reset, and then the same access from anywhere and with PC 0."""
    for number, (cpu, dma, flags) in enumerate(accesses(places)):
        yield step_bytes(0, cpu=places.key, flags=READS)
        for pc in (places.all[number % len(places.all)], 0):
            yield step_bytes(pc, cpu, dma, flags | number % 2 * INTERRUPT, number % 256, 255 - number % 256)


def move_sweep(places: Places) -> Iterator[bytes]:
    """From every PC around the edges of CR to every other."""
    for number, (last, pc) in enumerate(product(places.doors, repeat=2)):
        entry = places.low if last in places.inside else 0
        yield from (step_bytes(0), step_bytes(0), step_bytes(entry), step_bytes(last))
        yield step_bytes(pc, flags=INTERRUPT if number % 5 == 4 else 0)


def sweep(places: Places) -> list[bytes]:
    return [*outside_sweep(places), *inside_sweep(places), *held_sweep(places), *move_sweep(places)]


# Walks: lawful steps, with one in seven changed in one field.


def outside_step(draw: Draw, places: Places, pc: int) -> bytes:
    """Code outside CR, and the DMA, at public addresses, often at the same one."""
    cpu = draw.of(places.public)
    dma = cpu if draw.chance(40) else draw.of(places.public)
    flags = draw.of(CPU_ACCESSES) | draw.of((*DMA_ACCESSES, DMA_WRITES)) | draw.of((0, 0, INTERRUPT))
    return step_bytes(pc, cpu, dma, flags, draw.below(256), draw.below(256))


def inside_step(draw: Draw, places: Places, pc: int) -> bytes:
    """Code in CR, which writes only where it may; no DMA and no interrupt."""
    access = draw.of(CPU_ACCESSES)
    cpu = draw.of(places.own if access & WRITES else places.all)
    return step_bytes(pc, cpu, draw.of(places.all), access | draw.of((0, DMA_WRITES)), draw.below(256), draw.below(256))


def changed_step(draw: Draw, places: Places, step: bytes) -> bytes:
    """The step with another PC, CPU address or DMA address, or with flag bits turned."""
    field = draw.below(5)
    if field < 3:
        return step[: 2 * field] + draw.of(places.all).to_bytes(2, "little") + step[2 * field + 2 :]
    turned = draw.of((READS, WRITES, INTERRUPT, DMA, DMA | DMA_WRITES, INTERRUPT | DMA))
    return step[:6] + bytes((step[6] ^ turned,)) + step[7:]


def part_of_walk(draw: Draw, places: Places) -> Iterator[bytes]:
    """Some steps outside CR, or a visit of CR: in by the lowest address, out by the highest."""
    if draw.chance(50):
        for _ in range(1 + draw.below(4)):
            yield outside_step(draw, places, draw.of(places.outside))
    else:
        between = [draw.of(places.inside) for _ in range(draw.below(6))]
        for pc in (places.low, *between, places.high):
            yield inside_step(draw, places, pc)
        yield outside_step(draw, places, draw.of(places.outside))


def walk(draw: Draw, places: Places, steps: int) -> bytes:
    """After a changed step there is mostly a start from address 0, and another in case the first was a reset too."""
    made = [outside_step(draw, places, 0) if draw.chance(90) else changed_step(draw, places, step_bytes(0))]
    while len(made) < steps:
        for step in part_of_walk(draw, places):
            if draw.chance(15):
                made.append(changed_step(draw, places, step))
                if draw.chance(80):
                    made += [step_bytes(0), outside_step(draw, places, 0)]
                    break
            else:
                made.append(step)
    return b"".join(made[:steps])


def any_start(draw: Draw, places: Places) -> tuple[Monitor, bytes]:
    """Anything remembered, and a step of any kind at any addresses. Two in three of those in CR come from there."""
    pc = draw.of((0, draw.of(places.outside), draw.of(places.inside)))
    last_pc = draw.of(places.inside if pc in places.inside and draw.below(3) else places.all)
    cpu, dma = draw.of(CPU_ACCESSES[1:]), draw.of((*DMA_ACCESSES[1:], DMA_WRITES))
    flags = draw.of((cpu, dma, cpu | dma)) | (INTERRUPT if draw.chance(25) else 0)
    step = step_bytes(pc, draw.of(places.all), draw.of(places.all), flags, draw.below(256), draw.below(256))
    return Monitor(draw.chance(30), last_pc), step

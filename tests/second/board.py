"""The check of a layout and the monitor, for one step and for a trace, straight from the rules page.

Every call takes any bytes. Memory and answer room are lent as bytearrays, and a refused call leaves them as they are.
"""
from __future__ import annotations

import struct
from itertools import combinations
from typing import NamedTuple, Union

from refusal import Refusal

MEMORY_BYTES = 65_536
LAYOUT_BYTES = 24
STEP_BYTES = 12
ANSWER_BYTES = 4
MOST_STEPS = 4_096

# The flag bits of a step.
READS, WRITES, INTERRUPT, DMA, DMA_WRITES = 1, 2, 4, 8, 16


class Layout(NamedTuple):
    """Each region is the range of its addresses."""

    cr: range
    kr: range
    xs: range
    mr: range
    ctr: range
    ar: range


def check_layout(layout: bytes) -> Union[Layout, Refusal]:
    """The layout, or the first of the refusals 2 to 6."""
    if len(layout) != LAYOUT_BYTES:
        return Refusal(2)
    ends = list(struct.iter_unpack("<HH", layout))
    for place, (lowest, highest) in enumerate(ends):
        if lowest > highest:
            return Refusal(3, place)
    regions = Layout(*(range(lowest, highest + 1) for lowest, highest in ends))
    if len(regions.kr) != 64:
        return Refusal(4, 1)
    if len(regions.mr) < 96:
        return Refusal(4, 3)
    if len(regions.ctr) != 32:
        return Refusal(4, 4)
    if 0 in regions.cr:
        return Refusal(5)
    for (one, here), (other, there) in combinations(regions._asdict().items(), 2):
        if {one, other} != {"ar", "cr"} and set(here) & set(there):
            return Refusal(6)
    return regions


class Step(NamedTuple):
    pc: int
    cpu_address: int
    dma_address: int
    cpu_reads: bool
    cpu_writes: bool
    interrupt: bool
    dma_active: bool
    dma_writes: bool
    cpu_data: int
    dma_data: int


def decode(step: bytes) -> Step:
    """The step that 12 bytes tell. The DMA writes only where it is active."""
    pc, cpu, dma, flags, cpu_data, dma_data = struct.unpack("<HHHBBB3x", step)
    active = bool(flags & DMA)
    return Step(
        pc,
        cpu,
        dma,
        cpu_reads=bool(flags & READS),
        cpu_writes=bool(flags & WRITES),
        interrupt=bool(flags & INTERRUPT),
        dma_active=active,
        dma_writes=active and bool(flags & DMA_WRITES),
        cpu_data=cpu_data,
        dma_data=dma_data,
    )


def zeros_are_zero(step: bytes) -> bool:
    """Whether bits 5 to 7 of the flags and the last three bytes are zero."""
    return step[6] & 0b1110_0000 == 0 and step[9:] == b"\0\0\0"


class Monitor(NamedTuple):
    """What the monitor remembers."""

    held: bool
    last_pc: int


START = Monitor(True, 0)


def applying(layout: Layout, last_pc: int, step: Step) -> set[int]:
    """Which of the rules 1 to 10 apply."""
    cr, kr, xs, mr, ctr, _ = layout
    lowest, highest = cr[0], cr[-1]
    inside, was_inside = step.pc in cr, last_pc in cr
    address = step.cpu_address
    rules = set()
    if not inside and step.cpu_reads and address in kr:
        rules.add(1)
    if was_inside and last_pc != highest and not inside:
        rules.add(2)
    if not was_inside and inside and step.pc != lowest:
        rules.add(3)
    if step.interrupt and inside:
        rules.add(4)
    if not inside and (step.cpu_reads or step.cpu_writes) and address in xs:
        rules.add(5)
    if inside and step.cpu_writes and not (address in xs or address in mr or address in ctr):
        rules.add(6)
    if step.dma_active and step.dma_address in kr:
        rules.add(7)
    if step.dma_active and step.dma_address in xs:
        rules.add(8)
    if step.dma_active and inside:
        rules.add(9)
    if not inside and step.cpu_writes and address in ctr:
        rules.add(10)
    if step.dma_writes and step.dma_address in ctr:
        rules.add(10)
    return rules


def cause_of(layout: Layout, monitor: Monitor, step: Step) -> int:
    """Why the step resets, or 0."""
    if monitor.held and step.pc != 0:
        return 15
    rules = applying(layout, monitor.last_pc, step)
    if monitor.held:
        rules &= {1, 5, 7, 8, 10}
    return min(rules, default=0)


def store(layout: Layout, memory: bytearray, address: int, value: int) -> None:
    if address not in layout.cr and address not in layout.kr:
        memory[address] = value


def judge(layout: Layout, monitor: Monitor, step: Step, memory: bytearray) -> tuple[bytes, Monitor]:
    """The four answer bytes, and what the monitor then remembers. The stores are done in the memory."""
    cause = cause_of(layout, monitor, step)
    after = Monitor(cause != 0, step.pc)
    if cause != 0:
        return bytes((cause, 0, 0, 0)), after
    exposed, cpu_byte, dma_byte = 0, 0, 0
    if step.cpu_reads and step.pc not in layout.cr:
        exposed += 1
        cpu_byte = memory[step.cpu_address]
    if step.dma_active and not step.dma_writes:
        exposed += 2
        dma_byte = memory[step.dma_address]
    if step.cpu_writes:
        store(layout, memory, step.cpu_address, step.cpu_data)
    if step.dma_writes:
        store(layout, memory, step.dma_address, step.dma_data)
    return bytes((0, exposed, cpu_byte, dma_byte)), after


class Totals(NamedTuple):
    steps: int
    resets: int


def check_call(memory: bytes, layout: bytes, steps: list[bytes], right_length: bool, room: bytes) -> Union[Layout, Refusal]:
    """The layout, or the first of the refusals 1 to 9."""
    if len(memory) != MEMORY_BYTES:
        return Refusal(1)
    regions = check_layout(layout)
    if isinstance(regions, Refusal):
        return regions
    if not right_length:
        return Refusal(7)
    if len(room) < ANSWER_BYTES * len(steps):
        return Refusal(8)
    for place, step in enumerate(steps):
        if not zeros_are_zero(step):
            return Refusal(9, place)
    return regions


def judge_step(
    memory: bytearray, layout: bytes, step: bytes, monitor: Monitor, room: bytearray
) -> Union[Monitor, Refusal]:
    """The call for one step: what the monitor then remembers."""
    regions = check_call(memory, layout, [step], len(step) == STEP_BYTES, room)
    if isinstance(regions, Refusal):
        return regions
    room[:ANSWER_BYTES], after = judge(regions, monitor, decode(step), memory)
    return after


def judge_trace(memory: bytearray, layout: bytes, trace: bytes, room: bytearray) -> Union[Totals, Refusal]:
    """The call for a trace: the number of steps and of those that reset."""
    steps = [trace[i : i + STEP_BYTES] for i in range(0, len(trace), STEP_BYTES)]
    right_length = len(trace) % STEP_BYTES == 0 and len(steps) <= MOST_STEPS
    regions = check_call(memory, layout, steps, right_length, room)
    if isinstance(regions, Refusal):
        return regions
    monitor, answers = START, []
    for step in steps:
        answer, monitor = judge(regions, monitor, decode(step), memory)
        answers.append(answer)
    room[: ANSWER_BYTES * len(steps)] = b"".join(answers)
    return Totals(len(steps), sum(answer[0] != 0 for answer in answers))

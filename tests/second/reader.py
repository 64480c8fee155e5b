"""The step reader: a trace and a place in it.

A step is taken apart as one number of 96 bits, the lowest byte first, and put together again from its fields.
"""
from __future__ import annotations

from dataclasses import dataclass
from enum import Enum
from typing import Iterator, NamedTuple, Optional, Union

import page
from refusal import Refusal

STEP_BYTES = 12
MOST_STEPS = 4_096

# How many bits each field has, from the lowest on. One without a name has to be zero.
WIDTHS = (
    ("pc", 16),
    ("cpu_address", 16),
    ("dma_address", 16),
    ("flags", 5),
    ("", 3),
    ("cpu_data", 8),
    ("dma_data", 8),
    ("", 24),
)


class Step(NamedTuple):
    """Flag bit 0 is CPU read, 1 CPU write, 2 interrupt, 3 DMA active, 4 DMA writes."""

    pc: int = 0
    cpu_address: int = 0
    dma_address: int = 0
    flags: int = 0
    cpu_data: int = 0
    dma_data: int = 0

    def stands_for(self) -> bytes:
        """Its 12 bytes."""
        number, at = 0, 0
        for name, width in WIDTHS:
            if name:
                number += getattr(self, name) << at
            at += width
        return number.to_bytes(STEP_BYTES, "little")


def decoded(step: bytes) -> Optional[Step]:
    """The step that 12 bytes tell, or none if a bit that has to be zero is set."""
    fields: dict[str, int] = {}
    rest = int.from_bytes(step, "little")
    for name, width in WIDTHS:
        rest, bits = divmod(rest, 2**width)
        if name:
            fields[name] = bits
        elif bits:
            return None
    return Step(**fields)


class End(Enum):
    END = "end"


@dataclass
class Reader:
    trace: bytes
    place: int = 0

    def next(self) -> Union[Step, End, Refusal]:
        """Refusal 7, then the end, then refusal 9, then the step. Only a step moves the place."""
        steps, over = divmod(len(self.trace), STEP_BYTES)
        if over or steps > MOST_STEPS:
            return Refusal(7)
        if self.place >= steps:
            return End.END
        step = decoded(self.trace[STEP_BYTES * self.place :][:STEP_BYTES])
        if step is None:
            return Refusal(9, self.place)
        self.place += 1
        return step


# The page's trace, read by hand.
PAGE_STEPS = (
    Step(),
    Step(pc=0xC000, cpu_address=0xE001, flags=0b1),
    Step(pc=0xC002, cpu_address=0x6A00, flags=0b1),
    Step(pc=0xC004),
    Step(dma_address=0xE000, flags=0b1000),
    Step(pc=0xA000, cpu_address=0x6A00, flags=0b1),
    Step(pc=0xC006),
)


def page_faults() -> Iterator[str]:
    reader = Reader(page.TRACE)
    seen = [(reader.next(), reader.place) for _ in range(9)]
    if seen != [*((step, at + 1) for at, step in enumerate(PAGE_STEPS)), (End.END, 7), (End.END, 7)]:
        yield f"the page's trace is read as {seen}"
    if b"".join(step.stands_for() for step in PAGE_STEPS) != page.TRACE:
        yield "the page's steps stand for other bytes"


# Two steps and their bytes.
ENCODED = (
    (Step(0x0201, 0x0403, 0x0605, 0b11111, 0x08, 0x09), "0102 0304 0506 1f 08 09 000000"),
    (Step(0xFFFF, 0x8000, 0x0080, 0b10010, 0xFE, 0x7F), "ffff 0080 8000 12 fe 7f 000000"),
)

CLEAN = bytes(12)
OTHER = bytes.fromhex("0102 0304 0506 1f 08 09 000000")
UNCLEAN = bytes.fromhex("0102 0304 0506 3f 08 09 000000")

# The trace, the place, and the answer.
ANSWERED = (
    (b"", 0, End.END),
    (b"", 2**64 - 1, End.END),
    (CLEAN, 1, End.END),
    (CLEAN, 2**62, End.END),
    (UNCLEAN, 1, End.END),
    (UNCLEAN, 0, Refusal(9, 0)),
    (CLEAN + UNCLEAN, 0, Step()),
    (CLEAN + UNCLEAN, 1, Refusal(9, 1)),
    (UNCLEAN + OTHER, 1, ENCODED[0][0]),
    (CLEAN * 4_096, 4_095, Step()),
    (CLEAN * 4_096, 4_096, End.END),
    (CLEAN * 4_097, 0, Refusal(7)),
    (CLEAN * 4_097, 4_097, Refusal(7)),
    (UNCLEAN[:11], 0, Refusal(7)),
    (UNCLEAN[:11], 1, Refusal(7)),
    (UNCLEAN + CLEAN[:1], 0, Refusal(7)),
)


def answer_faults() -> Iterator[str]:
    for trace, place, expected in ANSWERED:
        reader = Reader(trace, place)
        answer = reader.next()
        if answer != expected or reader != Reader(trace, place + isinstance(expected, Step)):
            yield f"{len(trace)} bytes at place {place} are answered by {answer}, and then the place is {reader.place}"


def encoded_faults() -> Iterator[str]:
    for step, text in ENCODED:
        if Reader(bytes.fromhex(text)).next() != step or step.stands_for() != bytes.fromhex(text):
            yield f"{text} is not {step}"
    for bit in (53, 54, 55, *range(72, 96)):
        if Reader((1 << bit).to_bytes(12, "little")).next() != Refusal(9):
            yield f"bit {bit} of a step may be set"


def self_test() -> list[str]:
    """Where the reader differs from the page's trace and from cases worked out by hand."""
    return [*page_faults(), *answer_faults(), *encoded_faults()]

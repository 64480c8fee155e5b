"""The rules page's own examples, the whole case of a run and the marked steps, and others worked out by hand."""
from __future__ import annotations

import struct
from typing import Iterator, NamedTuple, Optional

import board
import runfile
from board import DMA, DMA_WRITES, INTERRUPT, READS, WRITES, Monitor
from refusal import Refusal


def step_bytes(pc: int, cpu: int = 0, dma: int = 0, flags: int = 0, cpu_data: int = 0, dma_data: int = 0) -> bytes:
    return struct.pack("<HHHBBB3x", pc, cpu, dma, flags, cpu_data, dma_data)


# The whole case as a run file: the contents, and the bodies of layout, memory and trace.

CONTENTS = bytes.fromhex("18000000 18000000 30000000 0b000000 3b000000 54000000")

LAYOUT = bytes.fromhex("00a0ffa0 006a3f6a 0004ff07 30028f02 00031f03 00e0ffff")

MEMORY_BODY = bytes.fromhex("006a0100 5a 00e00200 1122")

TRACE = bytes.fromhex(
    "000000000000 000000000000"
    "00c001e00000 010000000000"
    "02c0006a0000 010000000000"
    "04c000000000 000000000000"
    "0000000000e0 080000000000"
    "00a0006a0000 010000000000"
    "06c000000000 000000000000"
)

FILE = CONTENTS + LAYOUT + MEMORY_BODY + TRACE

REPORT = """\
step cause cpu dma
0 0 - -
1 0 22 -
2 1 - -
3 15 - -
4 0 - 11
5 0 - -
6 2 - -
steps 7 resets 3
"""

# What the memory body says: each a start and the bytes from there on; all other bytes of the memory are 0.
SEGMENTS = ((0x6A00, bytes.fromhex("5a")), (0xE000, bytes.fromhex("1122")))


class Marked(NamedTuple):
    """A marked step under the page's layout. Without a last PC the monitor is held."""

    last_pc: Optional[int]
    step: bytes
    cause: int


MARKED = (
    Marked(None, step_bytes(0), 0),
    Marked(None, step_bytes(2), 15),
    Marked(None, step_bytes(0, cpu=0x6A3F, flags=READS), 1),
    Marked(0xC000, step_bytes(0xC002, cpu=0x6A3F, flags=READS), 1),
    Marked(0xC000, step_bytes(0xC002, cpu=0x6A40, flags=READS), 0),
    Marked(0xC000, step_bytes(0xA000), 0),
    Marked(0xC000, step_bytes(0xA002, flags=INTERRUPT), 3),
    Marked(0xA0FF, step_bytes(0xC000), 0),
    Marked(0xA0FE, step_bytes(0xC000), 2),
    Marked(0xA000, step_bytes(0xA010, cpu=0x028F, flags=WRITES), 0),
    Marked(0xA000, step_bytes(0xA010, cpu=0x0290, flags=WRITES), 6),
    Marked(0xC000, step_bytes(0xC002, cpu=0x0400, flags=WRITES), 5),
    Marked(0xC000, step_bytes(0xC002, dma=0x0310, flags=DMA), 0),
    Marked(0xC000, step_bytes(0xC002, dma=0x0310, flags=DMA | DMA_WRITES), 10),
)

# Further steps of the same form, worked out by hand.
UNMARKED = (
    Marked(None, step_bytes(0xC002, cpu=0x6A3F, flags=READS), 15),
    Marked(None, step_bytes(0, flags=INTERRUPT), 0),
    Marked(None, step_bytes(0, dma=0x031F, flags=DMA | DMA_WRITES), 10),
    Marked(0xA000, step_bytes(0xA0FF, cpu=0x031F, flags=WRITES), 0),
    Marked(0xA0FF, step_bytes(0xA000, cpu=0x07FF, dma=0x6A00, flags=WRITES | DMA), 7),
    Marked(0xC000, step_bytes(0xA000, dma=0xE000, flags=DMA), 9),
    Marked(0xC000, step_bytes(0xC002, dma=0x07FF, flags=DMA), 8),
    # Held with PC 0: the other rules that are tried.
    Marked(None, step_bytes(0, cpu=0x0400, flags=WRITES), 5),
    Marked(None, step_bytes(0, dma=0x6A00, flags=DMA), 7),
    Marked(None, step_bytes(0, dma=0x07FF, flags=DMA | DMA_WRITES), 8),
    # A fetch is no data read.
    Marked(0xC000, step_bytes(0x6A00), 0),
    Marked(0xC000, step_bytes(0x07FF), 0),
    # Bit 4 without bit 3: in KR, in XS, in CTR, and beside code in CR.
    Marked(0xC000, step_bytes(0xC002, dma=0x6A00, flags=DMA_WRITES), 0),
    Marked(0xC000, step_bytes(0xC002, dma=0x0400, flags=DMA_WRITES), 0),
    Marked(0xC000, step_bytes(0xC002, dma=0x0310, flags=DMA_WRITES), 0),
    Marked(0xA000, step_bytes(0xA001, dma=0xE000, flags=DMA_WRITES), 0),
    # A store to ROM from outside CR is no reset.
    Marked(0xC000, step_bytes(0xC002, cpu=0x6A3F, flags=WRITES), 0),
    Marked(0xC000, step_bytes(0xC002, cpu=0xA0FF, dma=0xA000, flags=WRITES | DMA | DMA_WRITES), 0),
)


def memory() -> bytearray:
    """The whole case's memory."""
    contents = bytearray(board.MEMORY_BYTES)
    for start, segment in SEGMENTS:
        contents[start : start + len(segment)] = segment
    return contents


def whole_case_faults() -> Iterator[str]:
    room = bytearray(b"\xa5" * 31)
    totals = board.judge_trace(memory(), LAYOUT, TRACE, room)
    if isinstance(totals, Refusal) or runfile.report(totals, room) != REPORT:
        yield "the page's whole case comes out otherwise"
    if room[28:] != b"\xa5\xa5\xa5":
        yield "the room behind the answers was changed"


def marked_faults() -> Iterator[str]:
    """A held monitor's last PC makes no difference."""
    for number, (last_pc, step, cause) in enumerate(MARKED + UNMARKED):
        for last in (0x0000, 0xA010, 0xA0FF, 0xC000, 0xFFFF) if last_pc is None else (last_pc,):
            room = bytearray(4)
            after = board.judge_step(memory(), LAYOUT, step, Monitor(last_pc is None, last), room)
            if room[0] != cause or after != Monitor(cause != 0, board.decode(step).pc):
                yield f"marked step {number} with last PC {last:04x} has cause {room[0]}"


# Steps of a monitor that is not held, with last PC A000 where the PC is in CR and C000 otherwise: the answer, and then the
# byte at the CPU's address.
EFFECTS = (
    (step_bytes(0xC002, 0xE000, 0xE000, READS | WRITES | DMA | DMA_WRITES, 0x77, 0x88), "00011100", 0x88),
    (step_bytes(0xC002, 0xE000, 0xE000, WRITES | DMA, 0x77, 0x88), "00020011", 0x77),
    (step_bytes(0xC002, 0xE000, 0xE000, READS | DMA_WRITES, 0x77, 0x88), "00011100", 0x11),
    (step_bytes(0xC002, 0x6A00, 0xA000, WRITES | DMA | DMA_WRITES, 0x77, 0x88), "00000000", 0x5A),
    (step_bytes(0xA002, 0xE000, 0xE000, READS), "00000000", 0x11),
    (step_bytes(0xA002, 0x0230, 0x0000, READS | WRITES, 0x77), "00000000", 0x77),
    (step_bytes(0xA002, 0x0230, 0x0000, WRITES | INTERRUPT, 0x77), "04000000", 0x00),
)


def effect_faults() -> Iterator[str]:
    for number, (step, answer, byte) in enumerate(EFFECTS):
        contents, room, told = memory(), bytearray(4), board.decode(step)
        board.judge_step(contents, LAYOUT, step, Monitor(False, told.pc & 0xF000), room)
        if room.hex() != answer or contents[told.cpu_address] != byte or contents[0xA000] != 0:
            yield f"effect {number}: {room.hex()} and then {contents[told.cpu_address]:02x}"


# Layouts and what their check says.
LAYOUTS = (
    ("00a0ffa0 006a3f6a 0004ff07 30028f02 00031f03 e09fffa0", None),
    ("21002100 c0ffffff 22002200 23008200 8300a200 00002000", None),
    ("00a0ffa0 00003f00 0004ff07 30029002 00031f03 00e0ffff", None),
    ("00a0ffa0 006a406a 0004ff07 30028f02 00031f03 00e0ffff", Refusal(4, 1)),
    ("00a0ffa0 006a3f6a 0004ff07 30028e02 00031f03 00e0ffff", Refusal(4, 3)),
    ("00a0ffa0 006a3f6a 0004ff07 30028f02 00031e03 00e0ffff", Refusal(4, 4)),
    ("00000000 006a3f6a 0004ff07 30028f02 00031f03 00e0ffff", Refusal(5)),
    ("00a0ffa0 006a3f6a 1f03ff07 30028f02 00031f03 00e0ffff", Refusal(6)),
    ("ffa000a0 006a3f6a ff070004 30028f02 00031f03 00e0ffff", Refusal(3, 0)),
    # About AR: it is CR, and it has one address.
    ("00a0ffa0 006a3f6a 0004ff07 30028f02 00031f03 00a0ffa0", None),
    ("01000100 c0ffffff 02000200 03006200 63008200 00000000", None),
)
LAYOUTS_ABOUT_AR = tuple(bytes.fromhex(layout) for layout, _ in LAYOUTS[-2:])


def layout_faults() -> Iterator[str]:
    for layout, refusal in LAYOUTS:
        answer = board.check_layout(bytes.fromhex(layout))
        if (answer if isinstance(answer, Refusal) else None) != refusal:
            yield f"layout {layout}: {answer}"


REVERSED_AR_SHORT_KR = bytes.fromhex("00a0ffa0 006a3e6a 0004ff07 30028f02 00031f03 ffff00e0")
SHORT_MR_SHORT_CTR = bytes.fromhex("00a0ffa0 006a3f6a 0004ff07 30028e02 00031e03 00e0ffff")
CR_TO_AR = bytes.fromhex("0000ffdf 006a3f6a 0004ff07 30028f02 00031f03 00e0ffff")
AR_FROM_KR = bytes.fromhex("00a0ffa0 006a3f6a 0004ff07 30028f02 00031f03 3f6aff6a")
CLEAN, UNCLEAN = step_bytes(0), step_bytes(0, flags=0x20)

# The refusal; memory bytes, layout, trace, room bytes; whether the call for one step refuses the same.
REFUSALS = (
    ("refused 1 0", 65_535, LAYOUT[:23], CLEAN, 4, True),
    ("refused 2 0", 65_536, LAYOUT[:23], CLEAN, 4, True),
    ("refused 3 5", 65_536, REVERSED_AR_SHORT_KR, CLEAN, 4, True),
    ("refused 4 3", 65_536, SHORT_MR_SHORT_CTR, CLEAN, 4, True),
    ("refused 5 0", 65_536, CR_TO_AR, CLEAN[:11], 0, True),
    ("refused 6 0", 65_536, AR_FROM_KR, CLEAN[:11], 0, True),
    ("refused 7 0", 65_536, LAYOUT, UNCLEAN[:11], 0, True),
    ("refused 7 0", 65_536, LAYOUT, CLEAN * 4_097, 4 * 4_097, True),
    ("refused 8 0", 65_536, LAYOUT, UNCLEAN, 3, True),
    ("refused 8 0", 65_536, LAYOUT, CLEAN + UNCLEAN, 7, False),
    ("refused 9 0", 65_536, LAYOUT, UNCLEAN, 4, True),
    ("refused 9 1", 65_536, LAYOUT, CLEAN + UNCLEAN + UNCLEAN, 12, False),
)


def refusal_faults() -> Iterator[str]:
    for expected, memory_bytes, layout, trace, room_bytes, step_too in REFUSALS:
        lent, room = bytearray(b"\x3c" * memory_bytes), bytearray(b"\xa5" * room_bytes)
        answers = [board.judge_trace(lent, layout, trace, room)]
        if step_too:
            answers.append(board.judge_step(lent, layout, trace, board.START, room))
        yield from (f"{answer} where {expected} is right" for answer in answers if str(answer) != expected)
        if lent != b"\x3c" * memory_bytes or room != b"\xa5" * room_bytes:
            yield f"{expected} changed a lent byte"


def self_test() -> list[str]:
    """Where the second implementation differs from these."""
    return [*whole_case_faults(), *marked_faults(), *effect_faults(), *layout_faults(), *refusal_faults()]


def files() -> dict[str, bytes]:
    """The files of the program `judge`, by name: the page's own."""
    return {"stdin": FILE, "stdout": REPORT.encode()}

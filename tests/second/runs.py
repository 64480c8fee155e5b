"""Run files worked out by hand. All have the page's layout, or one that fails, from byte 24 to byte 47."""
from __future__ import annotations

from typing import Iterator

import page
from board import DMA, READS, WRITES, Totals
from page import AR_FROM_KR, CLEAN, CR_TO_AR, LAYOUT, REVERSED_AR_SHORT_KR, SHORT_MR_SHORT_CTR, UNCLEAN, step_bytes
from runfile import judge, judge_file

TWO_READS = step_bytes(0, 0x0000, 0xFFFF, READS | DMA) + step_bytes(0xC000, 0x0001, 0x0002, READS | DMA)
STORED_READ = step_bytes(0, 0xE000, flags=READS | WRITES, cpu_data=0x0A) + step_bytes(0xC000, 0xE000, flags=READS)
KEY_READ = step_bytes(0, 0x6A3F, flags=READS)


def filed(contents: str, memory: str = "", trace: bytes = b"", layout: bytes = LAYOUT) -> bytes:
    return bytes.fromhex(contents) + layout + bytes.fromhex(memory) + trace


# Contents of files with these bytes of memory body and trace.
NONE_NONE = "18000000 18000000 30000000 00000000 30000000 00000000"
NONE_12 = "18000000 18000000 30000000 00000000 30000000 0c000000"
NONE_24 = "18000000 18000000 30000000 00000000 30000000 18000000"
FIVE_NONE = "18000000 18000000 30000000 05000000 35000000 00000000"
FIVE_11 = "18000000 18000000 30000000 05000000 35000000 0b000000"
FIVE_12 = "18000000 18000000 30000000 05000000 35000000 0c000000"
FIVE_24 = "18000000 18000000 30000000 05000000 35000000 18000000"
TEN_NONE = "18000000 18000000 30000000 0a000000 3a000000 00000000"
TEN_24 = "18000000 18000000 30000000 0a000000 3a000000 18000000"

# Files that are judged: the lines between the header and the totals, and the totals.
JUDGED = (
    ([], "steps 0 resets 0", filed(NONE_NONE)),
    (["0 0 00 00", "1 0 00 00"], "steps 2 resets 0", filed(NONE_24, "", TWO_READS)),
    (["0 1 - -"], "steps 1 resets 1", filed(NONE_12, "", KEY_READ)),
    (["0 0 00 -", "1 0 0a -"], "steps 2 resets 0", filed(NONE_24, "", STORED_READ)),
    (["0 0 00 ff", "1 0 00 00"], "steps 2 resets 0", filed(FIVE_24, "ffff0100 ff", TWO_READS)),
    (["0 0 ab 00", "1 0 cd 00"], "steps 2 resets 0", filed(TEN_24, "00000100 ab 01000100 cd", TWO_READS)),
    (["0 0 ab 00", "1 0 00 cd"], "steps 2 resets 0", filed(TEN_24, "00000100 ab 02000100 cd", TWO_READS)),
    (["0 0 00 07", "1 0 00 70"], "steps 2 resets 0", filed(TEN_24, "02000100 70 ffff0100 07", TWO_READS)),
)

REFUSED = {
    # The file's bytes do not reach, or reach too far.
    "refused 15 0": [b"\xff" * 49_153, filed(NONE_24, "", CLEAN * 4_093)[:49_152] + b"\0"],
    "refused 13 0": [
        *(page.FILE[:length] for length in (0, 23, 24, 47)),
        filed("17000000 18000000 30000000 00000000 30000000 00000000"),
        filed("18000000 17000000 2f000000 00000000 2f000000 00000000", layout=LAYOUT[:23]),
        filed("18000000 19000000 31000000 00000000 31000000 00000000", "00"),
        filed("18000000 e8ffffff 00000000 00000000 00000000 30000000"),
        filed("18000100 18000000 2f000000 ffffffff 00000000 00000000"),
    ],
    "refused 13 1": [
        *(page.FILE[:length] for length in (48, 58)),
        filed("18000000 18000000 2f000000 00000000 30000000 00000000"),
        filed("18000000 18000000 31000000 00000000 31000000 00000000", "00"),
        filed("18000000 18000000 30000000 01000000 31000000 00000000"),
        filed("18000000 18000000 30000000 d0ffffff 00000000 30000000"),
        filed("18000000 18000000 3c000000 05000000 30000000 0c000000", "", CLEAN + bytes.fromhex("00000100 ab")),
        filed("18000000 18000000 00000000 00000000 00000000 00000000"),
    ],
    "refused 13 2": [
        *(page.FILE[:length] for length in (59, 131, 142)),
        page.FILE + b"\0",
        page.FILE + CLEAN,
        filed("18000000 18000000 30000000 00000000 2f000000 01000000"),
        filed("18000000 18000000 30000000 00000000 31000000 00000000"),
        filed("18000000 18000000 30000000 00000000 30000000 01000000"),
        filed("18000000 18000000 30000000 00000000 30000000 d0ffffff"),
        filed("18000000 18000000 30000000 00000000 30000000 0b000000", "", CLEAN),
        filed("18000000 18000000 30000000 00000000 30000000 0b000000", "ab000000", UNCLEAN, CR_TO_AR),
    ],
    # The layout, with a memory body and a trace that fail too.
    "refused 3 5": [filed(FIVE_11, "ffff0200 ff", UNCLEAN[:11], REVERSED_AR_SHORT_KR)],
    "refused 4 3": [filed(FIVE_11, "ffff0200 ff", UNCLEAN[:11], SHORT_MR_SHORT_CTR)],
    "refused 5 0": [filed(FIVE_11, "ffff0200 ff", UNCLEAN[:11], CR_TO_AR)],
    "refused 6 0": [filed(FIVE_11, "ffff0200 ff", UNCLEAN[:11], AR_FROM_KR)],
    # The memory body, with a trace that fails in some of them.
    "refused 14 0": [
        *(filed(f"18000000 18000000 30000000 0{n}000000 3{n}000000 00000000", "ab" * n) for n in (1, 2, 3)),
        filed("18000000 18000000 30000000 04000000 34000000 00000000", "00100000"),
        filed("18000000 18000000 30000000 04000000 34000000 0c000000", "00100100", CLEAN),
        filed(FIVE_NONE, "00100200 ab"),
        filed(FIVE_NONE, "00100000 ab"),
        filed("18000000 18000000 30000000 06000000 36000000 00000000", "ffff0200 abcd"),
        filed(FIVE_11, "00100200 ab", UNCLEAN[:11]),
        filed(FIVE_12, "00100200 ab", UNCLEAN),
    ],
    "refused 14 1": [
        *(filed(f"18000000 18000000 30000000 0{n}000000 3{n}000000 00000000", "00100100" + "ab" * (n - 4)) for n in (6, 7, 8)),
        filed(TEN_NONE, "00100100 ab 00100100 cd"),
        filed(TEN_NONE, "00100100 ab ff0f0100 cd"),
        filed(TEN_NONE, "ffff0100 ab 00000100 cd"),
        filed(TEN_NONE, "00100100 ab 01100200 cd"),
        filed("18000000 18000000 30000000 0f000000 3f000000 00000000", "00100100 ab 00100100 cd 00000000 ef"),
    ],
    # The trace.
    "refused 7 0": [filed(FIVE_11, "ffff0100 ff", UNCLEAN[:11])],
    "refused 9 0": [filed(FIVE_12, "ffff0100 ff", UNCLEAN), filed(NONE_24, "", UNCLEAN + UNCLEAN)],
    "refused 9 1": [filed(FIVE_24, "ffff0100 ff", CLEAN + UNCLEAN)],
}


def printed_faults() -> Iterator[str]:
    if len(page.FILE) != 143 or judge(page.FILE) != page.REPORT.encode():
        yield "the page's file is printed otherwise"
    for lines, totals, file in JUDGED:
        expected = "\n".join(["step cause cpu dma", *lines, totals, ""])
        if judge(file) != expected.encode():
            yield f"{file[24:].hex()} is printed as {judge(file)!r}"
    for expected, files in REFUSED.items():
        for number, file in enumerate(files):
            if judge(file) != f"{expected}\n".encode():
                yield f"file {number} of {expected} is printed as {judge(file)[:20]!r}"


# The call: its answer, the bytes of memory and of room that are lent, and the file.
LENT = (
    ("refused 15 0", 0, 0, b"\xff" * 49_153),
    ("refused 13 2", 0, 0, page.FILE[:-1]),
    ("refused 1 0", 65_535, 28, page.FILE),
    ("refused 1 0", 65_537, 28, page.FILE),
    ("refused 1 0", 0, 0, filed(FIVE_11, "ffff0200 ff", UNCLEAN[:11], REVERSED_AR_SHORT_KR)),
    ("refused 6 0", 65_536, 0, filed(FIVE_12, "ffff0200 ff", UNCLEAN, AR_FROM_KR)),
    ("refused 14 0", 65_536, 0, filed(FIVE_12, "ffff0200 ff", UNCLEAN)),
    ("refused 7 0", 65_536, 0, filed(FIVE_11, "ffff0100 ff", UNCLEAN[:11])),
    ("refused 8 0", 65_536, 27, page.FILE),
    ("refused 8 0", 65_536, 7, filed(FIVE_24, "ffff0100 ff", UNCLEAN + CLEAN)),
    ("refused 9 1", 65_536, 8, filed(FIVE_24, "ffff0100 ff", CLEAN + UNCLEAN)),
)


def refusal_faults() -> Iterator[str]:
    for expected, memory_bytes, room_bytes, file in LENT:
        memory, room = bytearray(b"\x3c" * memory_bytes), bytearray(b"\xa5" * room_bytes)
        answer = judge_file(file, memory, room)
        if str(answer) != expected:
            yield f"{answer} where {expected} is right"
        if memory != b"\x3c" * memory_bytes or room != b"\xa5" * room_bytes:
            yield f"{expected} changed a lent byte"


def lent_faults() -> Iterator[str]:
    """What stood in the memory before is nowhere afterwards, and the room behind the answers stays."""
    memory, room = bytearray(b"\x3c" * 65_536), bytearray(b"\xa5" * 31)
    if judge_file(page.FILE, memory, room) != Totals(7, 3) or memory != page.memory():
        yield "the page's file leaves another memory"
    if room != bytes.fromhex("00000000 00012200 01000000 0f000000 00020011 00000000 02000000 a5a5a5"):
        yield f"the page's file leaves the room {room.hex()}"
    stored = page.memory()
    stored[0x6A00], stored[0xE000], stored[0xE001], stored[0xFFFF] = 0x00, 0x0A, 0x00, 0xFF
    if judge_file(filed(FIVE_24, "ffff0100 ff", STORED_READ), memory, room) != Totals(2, 0) or memory != stored:
        yield "what a trace stores is not in the memory"


def self_test() -> list[str]:
    """Where run files are judged otherwise than here."""
    return [*printed_faults(), *refusal_faults(), *lent_faults()]

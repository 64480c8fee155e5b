"""Layouts for cases: good ones of many shapes, and for each ground of the rules page some that are refused or just not.

AR begins with 32 bytes that are not in CR and goes on behind them, but for the layouts of ABOUT_AR, which are about that.
"""
from __future__ import annotations

import struct
from itertools import combinations
from typing import Iterator

import board
import page

Ends = tuple[int, int]

# The bytes at the start of AR that are not in CR.
HEAD = 32

NAMES = ("cr", "kr", "xs", "mr", "ctr", "ar")


def sized(lowest: int, size: int) -> Ends:
    return lowest, lowest + size - 1


def layout_bytes(regions: list[Ends]) -> bytes:
    return b"".join(struct.pack("<HH", *ends) for ends in regions)


def changed(regions: list[Ends], **changes: Ends) -> bytes:
    """The layout with other ends for the regions named."""
    return layout_bytes([changes.get(name, ends) for name, ends in zip(NAMES, regions)])


def shaped(cr: Ends, kr: int, xs: Ends, mr: Ends, ctr: int, ar: Ends) -> bytes:
    """A layout by the ends of the regions, and by the lowest address of those of one size."""
    return layout_bytes([cr, sized(kr, 64), xs, mr, sized(ctr, 32), ar])


PAGE = list(struct.iter_unpack("<HH", page.LAYOUT))

# Far from one another, so that one can be moved to the side of any other.
APART = [sized(0x1000 * (number + 1), size) for number, size in enumerate((0x100, 64, 0x80, 96, 32, 0x200))]

GOOD = (
    page.LAYOUT,
    # All side by side; CR and XS have one address each, and AR has 33.
    shaped((33, 33), 0xFFC0, (34, 34), sized(35, 96), 131, (0, 32)),
    # AR is 32 bytes and then CR, and both end at the highest address.
    shaped((0xF000, 0xFFFF), 0, (0x40, 0xFF), (0x100, 0x1FF), 0x200, (0xF000 - HEAD, 0xFFFF)),
    # CR lies within AR.
    shaped((0x4000, 0x40FF), 0x8000, (0x8040, 0x8040), sized(0x7FA0, 96), 0xFFE0, (0x3F80, 0x4FFF)),
    # CR has two addresses, and one of them is in AR.
    shaped((0x2000, 0x2001), 1, (0x41, 0x60), (0x1E00, 0x1EFF), 0x2100, (0x1F01, 0x2000)),
    # CR stands between KR and XS, and the others behind and before these.
    shaped((0x6A40, 0x6A4F), 0x6A00, (0x6A50, 0x6A5F), sized(0x6A60, 97), 0x69E0, sized(0x6AC1, 33)),
)

# With more of what attestation reads and writes: AR, MR and CTR at the ends of the memory, and of many sizes.
ALL_GOOD = (
    *GOOD,
    # KR at 0, and AR has all that is left, to the highest address.
    shaped((64, 64), 0, (65, 65), sized(66, 96), 162, (194, 0xFFFF)),
    # AR shares all of CR and is larger on both sides.
    shaped((0x8000, 0x80FF), 0x0040, (0x0080, 0x00FF), (0x0100, 0x01FF), 0x0200, (0x8000 - HEAD, 0xFEFF)),
    # MR ends at the highest address, behind CTR and AR.
    shaped((0x1000, 0x10FF), 0x0F00, (0x0E00, 0x0EFF), (0xFFA0, 0xFFFF), 0xFF80, (0xFF00, 0xFF7F)),
    # MR is half of the memory.
    shaped((0x1000, 0x10FF), 0x0F00, (0x0E00, 0x0EFF), (0x8000, 0xFFFF), 0x7FE0, (0x7000, 0x7FDF)),
    # AR of 33 addresses between MR and CTR.
    shaped((0x4000, 0x43FF), 0x3000, (0x3100, 0x31FF), sized(0x2000, 96), 0x2081, sized(0x2060, 33)),
    # AR between CTR and MR, with KR behind.
    shaped((0x4000, 0x43FF), 0x2200, (0x2240, 0x22FF), (0x2160, 0x21FF), 0x2040, (0x2060, 0x215F)),
)

# About AR's size, and about AR sharing with CR in its first 32 bytes. All of these are good.
GOOD_ABOUT_AR = (
    # All side by side; CR, XS and AR have one address each.
    shaped((1, 1), 0xFFC0, (2, 2), sized(3, 96), 99, (0, 0)),
    # AR is CR, and both end at the highest address.
    shaped((0xF000, 0xFFFF), 0, (0x40, 0xFF), (0x100, 0x1FF), 0x200, (0xF000, 0xFFFF)),
    # CR has two addresses, and AR begins with one of them.
    shaped((0x2000, 0x2001), 1, (0x41, 0x60), (0x1F00, 0x1FFF), 0x2100, (0x2001, 0x20FF)),
    # AR of one address and of 32; of one address that is 0, or an end of CR.
    *(changed(APART, ar=sized(0x6000, size)) for size in (1, HEAD)),
    *(changed(APART, ar=(address, address)) for address in (0, 0x1000, 0x10FF)),
    # CR's lowest address is the last of AR's first 32, or the first; its highest is the first.
    *(changed(APART, ar=sized(start, 0x200)) for start in (0x1001 - HEAD, 0x1000, 0x10FF)),
    # The same of an AR of 32.
    changed(APART, ar=sized(0x1001 - HEAD, HEAD)),
    # CR of one address among the first 32 of a larger AR.
    changed(APART, cr=(0x600F, 0x600F)),
)

# The same, with a later ground to refuse the layout.
REFUSED_ABOUT_AR = (
    changed(APART, cr=(0, 0), ar=(0, 0)),
    changed(APART, cr=(0, 0xFFFF)),
    changed(APART, cr=(1, 0xFFFF)),
    changed(APART, ar=(0x203F, 0x203F)),
    changed(PAGE, cr=(0, 0xFFFF)),
)

ABOUT_AR = (*GOOD_ABOUT_AR, *REFUSED_ABOUT_AR, *page.LAYOUTS_ABOUT_AR)


def about_ar(layout: bytes) -> bool:
    """Whether no size is wrong, and AR has under 33 bytes or shares one of its first 32 with CR."""
    if len(layout) != board.LAYOUT_BYTES:
        return False
    ends = list(struct.iter_unpack("<HH", layout))
    sizes = [highest - lowest + 1 for lowest, highest in ends]
    if min(sizes) < 1 or sizes[1] != 64 or sizes[3] < 96 or sizes[4] != 32:
        return False
    (code, end), (start, _) = ends[0], ends[5]
    return sizes[5] <= HEAD or code < start + HEAD and start <= end


def reversed_layouts() -> Iterator[bytes]:
    """Regions reversed, by one address and by many, alone and with a later one, and with every other ground."""
    for name, (lowest, highest) in zip(NAMES, APART):
        yield changed(APART, **{name: (lowest, lowest - 1)})
        yield changed(APART, **{name: (highest, lowest)})
        yield changed(APART, **{name: (0xFFFF, 0), "ar": (0x6001, 0x6000)})
    yield changed(APART, ar=(0x6001, 0x6000), kr=sized(0x2000, 63))
    yield changed(APART, xs=(0x3001, 0x3000), kr=sized(0x2000, 63), cr=(0, 0), mr=sized(0x5000, 96))
    yield layout_bytes([(highest, lowest) for lowest, highest in APART])


def misshaped_layouts() -> Iterator[bytes]:
    """Sizes around the right ones, alone and together, and before a CR with address 0 and shared addresses."""
    for size in (1, 32, 63, 64, 65, 96):
        yield changed(APART, kr=sized(0x2000, size))
    for size in (1, 64, 95, 96, 97, 0x1000):
        yield changed(APART, mr=sized(0x4000, size))
    for size in (1, 31, 32, 33, 64):
        yield changed(APART, ctr=sized(0x5000, size))
    yield changed(APART, kr=sized(0x2000, 65), mr=sized(0x4000, 95), ctr=sized(0x5000, 31))
    yield changed(APART, mr=sized(0x4000, 95), ctr=sized(0x5000, 33))
    yield changed(APART, ctr=sized(0x5000, 31), cr=(0, 0x5000))
    yield changed(APART, kr=sized(0xFFC1, 63))
    yield bytes(24)
    yield b"\xff" * 24


def layouts_from_zero() -> Iterator[bytes]:
    """Regions from address 0 or 1, of which only CR must not hold 0; a CR with 0 that also shares addresses."""
    for lowest in (0, 1):
        for name, size in (("cr", 1), ("cr", 2), ("kr", 64), ("xs", 1), ("mr", 96), ("ctr", 32), ("ar", 33)):
            yield changed(APART, **{name: sized(lowest, size)})
    for highest in (0xFF, 0x1FFF, 0x2000, 0x5FFF):
        yield changed(APART, cr=(0, highest))
    yield changed(APART, cr=(0, 0), ar=sized(1, 33))
    yield changed(APART, cr=(0, 1), xs=(0, 1))


def pairs_of_regions() -> Iterator[bytes]:
    """For each two regions: side by side, and with one address or with many in common, above and below."""
    for (name, (lowest, highest)), (other, ends) in combinations(zip(NAMES, APART), 2):
        size = ends[1] - ends[0] + 1
        for start in (lowest - size, lowest - size + 1, lowest, highest, highest + 1):
            if (name, other) != ("cr", "ar") or not lowest <= start <= highest:
                yield changed(APART, **{other: sized(start, size)})
    # AR may share with CR: all of it, half of it, or one address.
    for start, highest in ((0xFE0, 0x10FF), (0xF00, 0x10FF), (0xFE0, 0x107F), (0xFE0, 0x1000), (0xFDF, 0x1FFF)):
        yield changed(APART, ar=(start, highest))
    for name, ends in (("cr", (1, 0x5FFF)), ("xs", (1, 0xFFFF)), ("ar", (1, 0xFFFF))):
        yield changed(APART, **{name: ends})


def layouts_of_other_lengths() -> Iterator[bytes]:
    for length in (0, 1, 4, 12, 20, 22, 23, 25, 26, 28, 31, 32):
        yield (page.LAYOUT * 2)[:length]
    yield layout_bytes(APART)[::-1][:23]


def layouts() -> list[bytes]:
    makers = (reversed_layouts, misshaped_layouts, layouts_from_zero, pairs_of_regions, layouts_of_other_lengths)
    return [*GOOD, layout_bytes(APART), *(layout for maker in makers for layout in maker())]


# The page's layout with some ground to refuse it; one of them has every ground but the length.
REFUSED = (
    page.LAYOUT[:23],
    page.LAYOUT + b"\0",
    changed(PAGE, mr=(0x28F, 0x230)),
    changed(PAGE, ctr=sized(0x300, 33)),
    changed(PAGE, cr=(0, 0xFF)),
    changed(PAGE, xs=(0x31F, 0x7FF)),
    changed(PAGE, ar=(0xFFFF, 0xE000), kr=sized(0x6A00, 63), cr=(0, 0xFF), xs=(0x31F, 0x7FF)),
    b"",
    page.LAYOUT * 2,
    changed(PAGE, ar=(0xFFFF, 0xE000)),
    changed(PAGE, kr=sized(0x6A00, 65)),
    changed(PAGE, mr=sized(0x230, 95)),
    changed(PAGE, cr=(0, 0)),
    changed(PAGE, ar=(0x28F, 0x2FF)),
    changed(PAGE, ar=(0x31F, 0x3FF)),
    changed(PAGE, ar=(0x6A3F, 0x6AFF)),
)

"""Counts layouts that are about AR, as made_layouts.about_ar says, and do not stand in made_layouts.ABOUT_AR: there is none."""
from __future__ import annotations

from typing import Iterable, Iterator, Optional, Sequence

import exchanges
import page
import runfile
import runs
from call import ATTEST, FILE, LAYOUT, STEP, TRACE
from drawn_calls import drawn_file, good_layout, wrong_layout
from made_layouts import ABOUT_AR, about_ar
from made_traces import Draw


def of_file(file: bytes) -> Optional[bytes]:
    """The layout of a run file, unless its contents fail."""
    bodies = runfile.split(file)
    return bodies.layout if isinstance(bodies, runfile.Bodies) else None


def of_call(number: int, arguments: Sequence[bytes]) -> Optional[bytes]:
    """The layout that a call is given, if it is given one."""
    if number in (STEP, TRACE, ATTEST):
        return arguments[1]
    if number == FILE:
        return of_file(arguments[0])
    return arguments[0] if number == LAYOUT else None


def unmarked(layouts: Iterable[Optional[bytes]]) -> Iterator[str]:
    for layout in layouts:
        if layout is not None and about_ar(layout) and layout not in ABOUT_AR:
            yield f"layout {layout.hex()} is about AR, and not marked so"


def worked_out() -> Iterator[Optional[bytes]]:
    """Those of the cases that are worked out by hand."""
    yield from (page.LAYOUT, exchanges.LAYOUT)
    yield from (bytes.fromhex(layout) for layout, _ in page.LAYOUTS)
    yield from (layout for _, _, layout, *_ in page.REFUSALS)
    yield from (of_file(file) for files in runs.REFUSED.values() for file in files)
    yield from (of_file(file) for *_, file in (*runs.JUDGED, *runs.LENT))


def drawn() -> Iterator[Optional[bytes]]:
    draw = Draw(2028)
    for _ in range(1_000):
        yield good_layout(draw)
        yield wrong_layout(draw)
    for _ in range(200):
        yield of_file(drawn_file(draw))


def self_test() -> list[str]:
    """Those worked out by hand, and some drawn ones. Those of the stored files are counted where they are written."""
    return [*unmarked(worked_out()), *unmarked(drawn())]

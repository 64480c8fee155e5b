"""Makes an input on which two programs differ smaller: fewer calls, shorter arguments, more zeros.

All is done by trying: what still differs is kept. It stops after some time with what it has then.
"""
from __future__ import annotations

import time
from io import BytesIO
from typing import Callable, Iterator, NamedTuple, Sequence

import runfile
from call import FILE, Call
from calls import Cut, arguments
from made_files import filed

Differs = Callable[[bytes], bool]


class Late(Exception):
    """The time is over."""


def pieces(given: bytes) -> list[bytes]:
    """The calls of a stream, each as its bytes; what is no whole call is the last piece."""
    rest, found, at = BytesIO(given), [], 0
    while number := rest.read(1):
        try:
            arguments(rest, number[0])
        except Cut:
            rest.seek(len(given))
        found.append(given[at : rest.tell()])
        at = rest.tell()
    return found


class Parts(NamedTuple):
    """Strings of which a piece is made, and how."""

    strings: list[bytes]
    joined: Callable[[Sequence[bytes]], bytes]


def file_parts(file: bytes) -> Parts:
    """The bodies of a run file, or the file itself if it has none."""
    bodies = runfile.split(file)
    if isinstance(bodies, runfile.Bodies):
        return Parts(list(bodies), lambda strings: filed(strings[1], strings[2], strings[0]))
    return Parts([file], lambda strings: strings[0])


def argument_parts(number: int, found: list[bytes]) -> Parts:
    """The arguments of a call, a run file by its bodies."""
    if number != FILE:
        return Parts(found, lambda strings: Call(number, tuple(strings)).record())
    file = file_parts(found[0])
    count = len(file.strings)
    return Parts(
        [*file.strings, *found[1:]],
        lambda strings: Call(number, (file.joined(strings[:count]), *strings[count:])).record(),
    )


def call_parts(piece: bytes) -> Parts:
    """The strings of a call, or the bytes themselves of what is none."""
    raw = Parts([piece], lambda strings: strings[0])
    try:
        parts = argument_parts(piece[0], arguments(BytesIO(piece[1:]), piece[0]))
    except Cut:
        return raw
    return parts if parts.joined(parts.strings) == piece else raw


def chunks(length: int, unit: int) -> Iterator[tuple[int, int]]:
    """Where to try to leave something out: large pieces first, from the end, and of a long string no very small ones."""
    size, smallest = -(-length // unit) * unit, length // (256 if length < 16_384 else 32)
    while size >= max(unit, smallest):
        yield from ((at, size) for at in range((length - 1) // size * size, -1, -size))
        if size == unit:
            return
        size = max(size // 2 // unit * unit, unit)


class Shrinking:
    def __init__(self, differs: Differs, seconds: float) -> None:
        self.differs, self.end = differs, time.monotonic() + seconds

    def still(self, given: bytes) -> bool:
        if time.monotonic() > self.end:
            raise Late
        return self.differs(given)

    def shorter(self, string: bytes, keeps: Differs) -> bytes:
        """Whole steps are left out first, then any bytes."""
        for unit in (12, 1):
            for at, size in list(chunks(len(string), unit)):
                less = string[:at] + string[at + size :]
                if len(less) < len(string) and keeps(less):
                    string = less
        return string

    def zeroed(self, string: bytes, keeps: Differs, low: int, high: int) -> bytes:
        """The string with zeros from low to high, or as many as can be."""
        if not any(string[low:high]):
            return string
        zeros = string[:low] + bytes(high - low) + string[high:]
        if keeps(zeros):
            return zeros
        if high - low > 1:
            middle = (low + high) // 2
            string = self.zeroed(string, keeps, low, middle)
            string = self.zeroed(string, keeps, middle, high)
        return string

    def smaller_parts(self, parts: Parts, keep: Callable[[bytes], None], around: Callable[[bytes], bytes]) -> None:
        """Each string in turn made zeros, then shorter, then zeros again. What is kept is told at once."""
        strings = parts.strings

        def keeps(at: int, other: bytes) -> bool:
            whole = parts.joined([*strings[:at], other, *strings[at + 1 :]])
            if not self.still(around(whole)):
                return False
            strings[at] = other
            keep(whole)
            return True

        for at in range(len(strings)):
            self.zeroed(strings[at], lambda other: keeps(at, other), 0, len(strings[at]))
            self.shorter(strings[at], lambda other: keeps(at, other))
            self.zeroed(strings[at], lambda other: keeps(at, other), 0, len(strings[at]))


def fewer(shrinking: Shrinking, found: list[bytes]) -> None:
    """Pieces are left out: all behind the first that differs, all before it, and else halves before single ones."""
    low, high = 0, len(found)
    while high - low > 1:
        middle = (low + high) // 2
        low, high = (low, middle) if shrinking.still(b"".join(found[:middle])) else (middle, high)
    del found[high:]
    if shrinking.still(found[-1]):
        del found[:-1]
    for at, size in list(chunks(len(found), 1)):
        less = found[:at] + found[at + size :]
        if less and len(less) < len(found) and shrinking.still(b"".join(less)):
            found[:] = less


def smaller_stream(given: bytes, differs: Differs, seconds: float = 60) -> bytes:
    """A stream of calls that still differs."""
    shrinking, found = Shrinking(differs, seconds), pieces(given)
    if not found:
        return given
    try:
        fewer(shrinking, found)
        for at in range(len(found)):

            def keep(piece: bytes) -> None:
                found[at] = piece

            def around(piece: bytes) -> bytes:
                return b"".join((*found[:at], piece, *found[at + 1 :]))

            shrinking.smaller_parts(call_parts(found[at]), keep, around)
    except Late:
        pass
    return b"".join(found)


def smaller_file(given: bytes, differs: Differs, seconds: float = 60) -> bytes:
    """A run file that still differs."""
    found = [given]

    def keep(file: bytes) -> None:
        found[0] = file

    try:
        Shrinking(differs, seconds).smaller_parts(file_parts(given), keep, lambda file: file)
    except Late:
        pass
    return found[0]

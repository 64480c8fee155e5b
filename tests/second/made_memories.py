"""Memories for calls.

Full memories are most of the stored bytes. Each is one of a few pieces of 251 bytes over and over, which packs to almost
nothing, with some bytes laid over it: at the edges of regions, and a request where one is wanted.
"""
from __future__ import annotations

from functools import lru_cache
from typing import Iterable

import board
from made_traces import Draw, Places

PIECE = 251


def pattern(factor: int) -> bytes:
    """A memory in which bytes that are 251 apart are the same, and others mostly are not."""
    piece = bytes((factor * at + at // 7) % 256 for at in range(PIECE))
    return (piece * (board.MEMORY_BYTES // PIECE + 1))[: board.MEMORY_BYTES]


BASES = tuple(pattern(factor) for factor in (3, 7, 91, 201))


def of_length(length: int, base: int = 0) -> bytes:
    """A memory or a room of any length."""
    return (BASES[base] * (length // board.MEMORY_BYTES + 1))[:length]


def laid(base: bytes, contents: Iterable[tuple[int, bytes]]) -> bytes:
    """The memory with bytes laid over it."""
    memory = bytearray(base)
    for address, some in contents:
        memory[address : address + len(some)] = some
    assert len(memory) == board.MEMORY_BYTES
    return bytes(memory)


@lru_cache(maxsize=256)
def regions_of(layout: bytes) -> board.Layout:
    """Of a layout that is known to be good."""
    regions = board.check_layout(layout)
    assert isinstance(regions, board.Layout)
    return regions


@lru_cache(maxsize=256)
def places_of(layout: bytes) -> Places:
    return Places(regions_of(layout))


def edged(draw: Draw, layout: bytes) -> bytes:
    """A memory in which the bytes at and beside the ends of regions are drawn."""
    return laid(draw.of(BASES), [(address, draw.bytes(1)) for address in places_of(layout).all])

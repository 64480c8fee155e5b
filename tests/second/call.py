"""The calls of the program `calls` as bytes: a byte, the call's number, and then its arguments, each behind its length."""
from __future__ import annotations

import struct
from dataclasses import dataclass

from board import Monitor
from hashes import State

LAYOUT, STEP, TRACE, ATTEST, TOKEN, CHECK, HASH, MAC = range(1, 9)
TAKE_IN, FINISH, LENT_TAKE_IN, LENT_FINISH, NEXT, FILE = range(9, 15)

# A length; a running hash's words, block and total; held and last PC; a reader's place.
LENGTH = struct.Struct("<I")
STATE = struct.Struct("<8I64sQ")
MONITOR = struct.Struct("<BH")
PLACE = struct.Struct("<Q")

# The bytes that one call's arguments have at most, without their lengths.
MOST = 262_144


@dataclass(frozen=True)
class Call:
    number: int
    arguments: tuple[bytes, ...]

    def record(self) -> bytes:
        parts = [bytes((self.number,))]
        for argument in self.arguments:
            parts += (LENGTH.pack(len(argument)), argument)
        return b"".join(parts)


def call(number: int, *arguments: bytes) -> Call:
    return Call(number, arguments)


def state_bytes(state: State) -> bytes:
    return STATE.pack(*state.words, state.block, state.total)


def monitor_bytes(monitor: Monitor) -> bytes:
    return MONITOR.pack(*monitor)


def place_bytes(place: int) -> bytes:
    return PLACE.pack(place)

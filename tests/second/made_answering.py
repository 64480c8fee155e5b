"""Calls of the board's attestation, of the station, and of the hash and HMAC of whole messages.

Each request has a memory of its own, of a piece over and over, with the request laid over it.
"""
from __future__ import annotations

from itertools import product
from typing import Callable, Iterator, Optional

import made_layouts
import page
import published
from call import ATTEST, CHECK, HASH, MAC, TOKEN, Call, call
from drawn_calls import drawn_check_call, drawn_hash_call, drawn_mac_call, drawn_token_call
from made_judging import LONG, SHORT, WRONG_LAYOUTS
from made_memories import BASES, edged, laid, of_length, regions_of
from made_running import LIMIT, run
from made_tokens import moved, one_time_key_of, reply_of, token_of, turned
from made_traces import Draw
from vectors import KEY_LENGTHS, MESSAGE_LENGTHS, PATTERN


def requested(base: bytes, layout: bytes, key: bytes, counter: bytes, challenge: bytes, token: Optional[bytes] = None) -> Call:
    """A request, by default with its token."""
    regions = regions_of(layout)
    asked = challenge + (token_of(key, challenge) if token is None else token)
    return call(ATTEST, laid(base, [(regions.kr[0], key), (regions.ctr[0], counter), (regions.mr[0], asked)]), layout)


LOW, HIGH = bytes(32), b"\xff" * 32
MIDDLE = b"\x7f" * 32


# A counter, a challenge that is not greater, and its token unless it is to have another. The first byte that differs decides.
OLD = (
    (LOW, LOW, None),
    (HIGH, HIGH, LOW),
    (MIDDLE, moved(MIDDLE, -1), LOW),
    (b"\x80" + LOW[1:], b"\x7f" + HIGH[1:], None),
    (MIDDLE[:30] + b"\x80\0", MIDDLE[:31] + b"\xff", LOW),
)


def refused_requests(draw: Draw) -> Iterator[Call]:
    """Refusals 10 and 11, of which 10 comes first: old challenges, a wrong bit in each byte of the token, and other tokens."""
    key, base = draw.bytes(64), edged(draw, page.LAYOUT)
    for counter, challenge, token in OLD:
        yield requested(base, page.LAYOUT, key, counter, challenge, token)
    above = moved(MIDDLE, 1)
    made = token_of(key, above)
    near = [turned(made, at, 1 << at % 8) for at in range(32)]
    for other in (*near, token_of(turned(key, 63), above), one_time_key_of(key, above)):
        yield requested(base, page.LAYOUT, key, MIDDLE, above, other)


def accepted_requests(draw: Draw) -> Iterator[Call]:
    """Under every layout, and challenges that are just greater in one byte."""
    for number, layout in enumerate(made_layouts.ALL_GOOD[:-2]):
        counter = draw.bytes(number) + b"\x40" + draw.bytes(31 - number)
        yield requested(edged(draw, layout), layout, draw.bytes(64), counter, counter[:number] + b"\x41" + LOW[number + 1 :])
    for layout, counter, challenge in zip(made_layouts.ALL_GOOD[-2:], (LOW, moved(HIGH, -1)), (moved(LOW, 1), HIGH)):
        yield requested(BASES[1], layout, LOW * 2, counter, challenge)


def requests_about_ar(draw: Draw) -> Iterator[Call]:
    """About AR, of one byte and as CR."""
    for layout in made_layouts.GOOD_ABOUT_AR[:2]:
        yield requested(edged(draw, layout), layout, draw.bytes(64), MIDDLE, moved(MIDDLE, 1))


def attest_calls(draw: Draw) -> Iterator[Call]:
    for length in (*SHORT, *LONG, 131_073):
        yield call(ATTEST, of_length(length), page.LAYOUT)
    yield call(ATTEST, of_length(256), page.LAYOUT[:23])
    request = requested(BASES[2], page.LAYOUT, draw.bytes(64), MIDDLE, moved(MIDDLE, 1)).arguments[0]
    for number, layout in enumerate(WRONG_LAYOUTS):
        yield call(ATTEST, BASES[number % 4] if number % 3 else request, layout)
    yield from refused_requests(draw)
    yield from accepted_requests(draw)
    yield from requests_about_ar(draw)


# ---- The station


def token_calls(draw: Draw) -> Iterator[Call]:
    """Lengths around the right ones. The key ends with 0, so that a key of 63 bytes gives the same MAC."""
    key, challenge = draw.bytes(63) + bytes(17), draw.bytes(48)
    for k, c in product((0, 1, 63, 64, 65, 80), (0, 31, 32, 33, 48)):
        yield call(TOKEN, key[:k], challenge[:c])
    for key in (bytes(64), b"\xff" * 64, draw.bytes(64)):
        for challenge in (LOW, HIGH, draw.bytes(32)):
            yield call(TOKEN, key, challenge)
    yield call(TOKEN, key, of_length(4_096))
    for _ in range(40):
        yield drawn_token_call(draw)


def wrong_replies(draw: Draw) -> Iterator[Call]:
    """One wrong bit in each byte of the reply; strings that are made on the way to it; another challenge, key and region."""
    key, challenge, region = draw.bytes(64), draw.bytes(31) + b"\x80", draw.bytes(300)
    reply, made = reply_of(key, challenge, region), token_of(key, challenge)
    yield call(CHECK, key, challenge, reply, region)
    others = [turned(reply, at, 0x80 >> at % 8) for at in range(32)]
    others += [made, one_time_key_of(key, challenge), *(token_of(other, region) for other in (key, made, challenge))]
    for other in (*others, reply[::-1], bytes(32)):
        yield call(CHECK, key, challenge, other, region)
    for other in (region[1:], region[:-1], region + b"\0", turned(region, 0), turned(region, 299), region[:150]):
        yield call(CHECK, key, challenge, reply, other)
    yield call(CHECK, turned(key, 63), challenge, reply, region)
    yield call(CHECK, key, moved(challenge, 1), reply, region)


def check_calls(draw: Draw) -> Iterator[Call]:
    yield from wrong_replies(draw)
    key, challenge, region = draw.bytes(63) + bytes(2), draw.bytes(33), of_length(256)
    for k, c, r in product((63, 64, 65), (31, 32, 33), (31, 32, 33)):
        reply = reply_of(key[:k], challenge[:c], region) + bytes(1)
        yield call(CHECK, key[:k], challenge[:c], reply[:r], region)
    key, challenge = draw.bytes(64), draw.bytes(32)
    for length in (0, 1, 2, 63, 64, 65, 1_000, 65_535, 65_536, 65_537):
        region = of_length(length, 1)
        yield call(CHECK, key, challenge, reply_of(key, challenge, region), region)
    for length in (0, 1, 4_096):
        yield call(CHECK, key, challenge, LOW, of_length(length))
    yield from short_ones(draw, drawn_check_call)


# ---- Hashes


def short_ones(draw: Draw, maker: Callable[[Draw], Call]) -> Iterator[Call]:
    made = (maker(draw) for _ in range(60))
    yield from (one for one in made if sum(map(len, one.arguments)) < 10_000)


def hash_calls(draw: Draw) -> Iterator[Call]:
    for example in published.HASHES:
        yield call(HASH, example.message)
    for length in (*range(0, 200), 65_536, LIMIT, LIMIT + 1):
        yield call(HASH, PATTERN[:length])
    for length in (LIMIT + 1, LIMIT + 2, LIMIT + 64, LIMIT + 65):
        yield call(HASH, run(draw, length))
    yield from short_ones(draw, drawn_hash_call)


def mac_calls(draw: Draw) -> Iterator[Call]:
    for case in published.MACS:
        yield call(MAC, case.key, case.message)
    for key in KEY_LENGTHS:
        yield call(MAC, PATTERN[:key], PATTERN[:28])
    for message in MESSAGE_LENGTHS[:5] + MESSAGE_LENGTHS[6:]:
        yield call(MAC, PATTERN[:20], PATTERN[:message])
    yield call(MAC, PATTERN[:65_536], PATTERN[:65_536])
    for key, message in ((65_537, 0), (0, 65_537), (65_600, 64)):
        yield call(MAC, of_length(key), of_length(message))
    for key in (*range(60, 70), 127, 128, 129):
        yield call(MAC, draw.bytes(key), draw.bytes(draw.of((0, 1, 55, 56, 64, 100))))
    yield from short_ones(draw, drawn_mac_call)


def calls(draw: Draw) -> Iterator[Call]:
    for maker in (attest_calls, token_calls, check_calls, hash_calls, mac_calls):
        yield from maker(draw)

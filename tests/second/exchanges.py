"""Exchanges of a board and a station, worked out by hand.

In all of them KR is from 6A00, the challenge at 0230, the token at 0250, the reply at 0270, CTR from 0300.
"""
from __future__ import annotations

import hashlib
import hmac
from typing import Iterator, Optional, Union

import board
import page
from attestation import Accepted, attest, check, token
from refusal import Refusal

# The page's layout, but with bytes of MR behind the reply, to 02CF, and bytes behind AR, which is E100 to EEFF.
LAYOUT = bytes.fromhex("00a0ffa0 006a3f6a 0004ff07 3002cf02 00031f03 00e1ffee")

KEY = bytes(range(100, 164))
FILLED = bytes((11 * a + a // 256) % 256 for a in range(board.MEMORY_BYTES))


def string(number: int) -> bytes:
    """The challenge that is a number."""
    return number.to_bytes(32, "big")


def requested(key: bytes, counter: bytes, challenge: bytes, received: Optional[bytes] = None) -> bytearray:
    """A memory with a request, by default with the token that belongs to it."""
    memory = bytearray(FILLED)
    memory[0x6A00:0x6A40] = key
    memory[0x0300:0x0320] = counter
    memory[0x0230:0x0250] = challenge
    memory[0x0250:0x0270] = hmac.digest(key, challenge, "sha256") if received is None else received
    return memory


def outcome(memory: bytearray, layout: bytes = LAYOUT) -> Union[bytes, int]:
    """The reply that the board stores, or the number of its refusal, which must leave the memory."""
    before = bytes(memory)
    answer = attest(memory, layout)
    if isinstance(answer, Refusal):
        return answer.number if memory == before else -1
    return bytes(memory[0x0270:0x0290])


def exchange_faults() -> Iterator[str]:
    """The page's layout; key and AR are zeros. Token, one-time key and reply for 7 were worked out by another program."""
    key, memory = bytes(64), bytearray(board.MEMORY_BYTES)
    seen: list[object] = []
    for number in (0, 7, 7, 8):
        made = token(key, string(number))
        assert isinstance(made, bytes)
        memory[0x0230:0x0270] = string(number) + made
        memory[0x6A00] = number == 8
        seen.append(outcome(memory, page.LAYOUT))
        seen.append(check(key, string(number), bytes(memory[0x0270:0x0290]), bytes(memory[0xE000:])))
    reply = bytes.fromhex("be24d9b7db5780809ff836ad5891598ed4785051ba4d3b7d29ef4ed0e84ee513")
    if seen != [10, False, reply, True, 10, True, 11, False]:
        yield f"the exchange comes out otherwise: {seen}"
    if token(key, string(7)) != bytes.fromhex("60b85ba1500c4a36096f4d05f3364d86e4edb1bf616c34ca1eaac28f21ab2555"):
        yield "the token for 7 is another"
    one_time_key = bytes.fromhex("4c51cfce4d6672b41ea59118760175a40258119f6374120753fe54fe67e844ce")
    if reply != hmac.new(one_time_key, bytes(8_192), hashlib.sha256).digest():
        yield "the reply for 7 is not that of its one-time key"


def stored_faults() -> Iterator[str]:
    """The memory after an accepted request, byte by byte."""
    memory = requested(KEY, string(255), string(256))
    expected, region = bytearray(memory), memory[0xE100:0xEF00]
    made = hmac.new(KEY, string(256), hashlib.sha256).digest()
    one_time_key = hmac.new(KEY, made, hashlib.sha256).digest()
    reply = hmac.new(one_time_key, region, hashlib.sha256).digest()
    expected[0x0270:0x0290] = reply
    expected[0x0300:0x0320] = string(256)
    if attest(memory, LAYOUT) != Accepted(string(256), reply) or memory != expected:
        yield "an accepted request is answered or stored otherwise"
    if one_time_key == made or reply == hmac.new(made, region, hashlib.sha256).digest():
        yield "the one-time key is the token"


# The challenge, the counter, and whether the one is greater than the other.
COMPARED = (
    (string(0), string(0), False),
    (string(1), string(0), True),
    (string(256), string(255), True),
    (string(255), string(256), False),
    (b"\x01" + bytes(31), bytes(1) + b"\xff" * 31, True),
    (bytes(1) + b"\xff" * 31, b"\x01" + bytes(31), False),
    (b"\x7f" * 31 + b"\x80", b"\x7f" * 32, True),
    (b"\x7f" * 31 + b"\x7e", b"\x7f" * 32, False),
    (b"\x80" + bytes(31), b"\x7f" * 32, True),
    (b"\xff" * 32, b"\xff" * 31 + b"\xfe", True),
    (b"\xff" * 32, b"\xff" * 32, False),
)


def compared_faults() -> Iterator[str]:
    """A challenge that is not greater is refused before a token that differs."""
    for challenge, counter, greater in COMPARED:
        answers = [outcome(requested(KEY, counter, challenge, received)) for received in (None, bytes(32))]
        if answers[0] == 10 if greater else answers[0] != 10:
            yield f"{challenge.hex()} over {counter.hex()} is answered by {answers[0]!r}"
        if answers[1] != (11 if greater else 10):
            yield f"{challenge.hex()} over {counter.hex()} without its token is answered by {answers[1]!r}"


# What a change at an address does to an accepted request.
ALTERED = {
    **dict.fromkeys((*range(0x0230, 0x0270), 0x6A00, 0x6A20, 0x6A3F), "refused 11"),
    **dict.fromkeys((0x0300, 0x031F), "refused 10"),
    **dict.fromkeys((0xE100, 0xE800, 0xEEFF), "another reply"),
    **dict.fromkeys((0x022F, 0x0270, 0x028F, 0x0290, 0x02CF, 0x02FF, 0x0320, 0x0400), "the same reply"),
    **dict.fromkeys((0x0000, 0x69FF, 0x6A40, 0xA000, 0xE0FF, 0xEF00, 0xFFFF), "the same reply"),
}


def altered_faults() -> Iterator[str]:
    right = outcome(requested(KEY, string(4), string(5)))
    for address, expected in ALTERED.items():
        memory = requested(KEY, string(4), string(5))
        memory[address] ^= 1 << address % 8
        answer = outcome(memory)
        if isinstance(answer, int):
            told = f"refused {answer}"
        else:
            told = "the same reply" if answer == right else "another reply"
        if told != expected:
            yield f"a change at {address:04x} is answered by {told}"


def station_faults() -> Iterator[str]:
    memory = requested(KEY, string(4), string(5))
    reply, region = outcome(memory), bytes(memory[0xE100:0xEF00])
    assert isinstance(reply, bytes)
    if check(KEY, string(5), reply, region) is not True:
        yield "the station does not take the board's reply"
    others = [bytes(b ^ (i == at) for i, b in enumerate(reply)) for at in range(32)]
    wrong = [(KEY, string(5), other, region) for other in others]
    wrong += [(KEY, string(5), reply, other) for other in (region[1:], region[:-1], region + b"\0", b"\0" + region)]
    wrong += [(KEY, string(5), reply, b"\xff" + region[1:]), (KEY, string(5), reply, region[:-1] + b"\xff")]
    wrong += [(KEY, string(6), reply, region), (KEY[:-1] + b"\0", string(5), reply, region)]
    for number, given in enumerate(wrong):
        if check(*given) is not False:
            yield f"the station takes the wrong reply {number}"


# Lengths of key, challenge, reply and region that are refused or not.
LENGTHS = (
    ((64, 32, 32, 1), False),
    ((64, 32, 32, 65_536), False),
    ((64, 32, 32, 0), True),
    ((64, 32, 32, 65_537), True),
    ((63, 32, 32, 1), True),
    ((65, 32, 32, 1), True),
    ((64, 31, 32, 1), True),
    ((64, 33, 32, 1), True),
    ((64, 32, 31, 1), True),
    ((64, 32, 33, 1), True),
    ((0, 0, 0, 0), True),
)


def length_faults() -> Iterator[str]:
    for lengths, refused in LENGTHS:
        key, challenge, reply, region = (bytes(length) for length in lengths)
        if check(key, challenge, reply, region) != (Refusal(12) if refused else False):
            yield f"the check of {lengths} bytes is answered otherwise"
        unfit = len(key) != 64 or len(challenge) != 32
        if (token(key, challenge) == Refusal(12)) != unfit:
            yield f"the token for {lengths[:2]} bytes is answered otherwise"


def refusal_faults() -> Iterator[str]:
    """Refusals 1 to 6, also with later grounds; the challenge is equal to CTR."""
    for expected, memory_bytes, layout, *_ in (("refused 1 0", 65_537, LAYOUT), *page.REFUSALS[:6]):
        memory = bytearray(b"\x3c" * memory_bytes)
        answer = attest(memory, layout)
        if str(answer) != expected or memory != b"\x3c" * memory_bytes:
            yield f"{answer} where {expected} is right, or a lent byte changed"


def self_test() -> list[str]:
    """Where attestation and the station differ from these."""
    return [
        *exchange_faults(),
        *stored_faults(),
        *compared_faults(),
        *altered_faults(),
        *station_faults(),
        *length_faults(),
        *refusal_faults(),
    ]

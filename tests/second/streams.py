"""Streams of calls worked out by hand, and what `calls` has to print of them."""
from __future__ import annotations

import hashlib
from typing import Iterator

import exchanges
import page
import published
import vectors
from board import Monitor
from call import ATTEST, CHECK, FILE, FINISH, HASH, LAYOUT, LENT_FINISH, LENT_TAKE_IN, MAC, NEXT, STEP, TAKE_IN, TOKEN, TRACE
from call import call, monitor_bytes, place_bytes
from calls import printed
from page import CLEAN, UNCLEAN

Expected = tuple[bytes, list[str]]

# The first 32 bytes of a state that nothing was taken in by: the initial words of FIPS 180-4, lowest byte first.
INITIAL = bytes.fromhex("67e6096a 85ae67bb 72f36e3c 3af54fa5 7f520e51 8c68059b abd9831f 19cde05b")
ABC = "ba7816bf8f01cfea414140de5dae2223b00361a396177a9cb410ff61f20015ad"


def digest(lent: bytes) -> str:
    return hashlib.sha256(lent).hexdigest()


def page_streams() -> Iterator[Expected]:
    """The page's layout, its whole case as a trace and as a file, and the marked steps."""
    yield call(LAYOUT, page.LAYOUT).record(), ["good"]
    memory, room = bytes(page.memory()), b"\xa5" * 31
    answers = bytes.fromhex("00000000 00012200 01000000 0f000000 00020011 00000000 02000000 a5a5a5")
    told = ["steps 7 resets 3", f"memory {digest(memory)}", f"room {digest(answers)}"]
    yield call(TRACE, memory, page.LAYOUT, page.TRACE, room).record(), told
    yield call(FILE, page.FILE, b"\x3c" * 65_536, room).record(), told
    for last_pc, step, cause in page.MARKED + page.UNMARKED:
        pc = step[0] + 256 * step[1]
        stored = bytearray(memory)
        if cause == 0 and step[6] & 2:
            stored[step[2] + 256 * step[3]] = step[7]
        monitor = monitor_bytes(Monitor(last_pc is None, last_pc or 0))
        lines = [f"held {int(cause != 0)} last {pc}", f"memory {digest(stored)}"]
        for held in (monitor, (b"\x80" if last_pc is None else b"\0") + monitor[1:]):
            given = call(STEP, memory, page.LAYOUT, step, held, b"\xa5" * 5)
            cpu = 1 if cause == 0 and step[6] & 1 and not 0xA000 <= pc <= 0xA0FF else 0
            dma = 2 if cause == 0 and step[6] & 0x18 == 8 else 0
            yield given.record(), [*lines, f"room {digest(bytes((cause, cpu + dma, 0, 0, 0xA5)))}"]


def refused_streams() -> Iterator[Expected]:
    """The lent bytes of a refused call are told as they were."""
    for expected, memory_bytes, layout, trace, room_bytes, step_too in page.REFUSALS:
        memory, room = b"\x3c" * memory_bytes, b"\xa5" * room_bytes
        told = [expected, f"memory {digest(memory)}", f"room {digest(room)}"]
        yield call(TRACE, memory, layout, trace, room).record(), told
        if step_too:
            yield call(STEP, memory, layout, trace, b"\1\0\0", room).record(), told
    for memory_bytes in (0, 65_535, 65_537, 131_073, 262_120):
        memory = b"\x3c" * memory_bytes
        yield call(ATTEST, memory, page.LAYOUT).record(), ["refused 1 0", f"memory {digest(memory)}"]
    memory, room = bytes(65_536), bytes(196_608 - 143)
    told = ["refused 8 0", f"memory {digest(memory)}", f"room {digest(room[:27])}"]
    yield call(FILE, page.FILE, memory, room[:27]).record(), told
    answers = bytes.fromhex("00000000 00012200 01000000 0f000000 00020011 00000000 02000000")
    told = ["steps 7 resets 3", f"memory {digest(page.memory())}", f"room {digest(answers + room[28:])}"]
    yield call(FILE, page.FILE, memory, room).record(), told


def running_streams(take_in: int, finish: int, message: bytes, expected: str) -> Iterator[Expected]:
    """A message taken in by three parts, the second of them empty; what stands behind the filled part does not matter."""
    first, second = message[:20], message[20:]
    state = INITIAL + bytes(64) + bytes(8)
    after = INITIAL + first.ljust(64, b"\0") + len(first).to_bytes(8, "little")
    yield call(take_in, state, first).record(), ["taken", f"state {after.hex()}"]
    soiled = INITIAL + first.ljust(64, b"\xee") + len(first).to_bytes(8, "little")
    yield call(take_in, soiled, b"").record(), ["taken", f"state {after.hex()}"]
    if len(message) < 64:
        whole = INITIAL + message.ljust(64, b"\0") + len(message).to_bytes(8, "little")
        yield call(take_in, after, second).record(), ["taken", f"state {whole.hex()}"]
        soiled = INITIAL + message.ljust(64, b"\xee") + len(message).to_bytes(8, "little")
        for last in (whole, soiled):
            yield call(finish, last).record(), [f"hash {expected}", f"state {last.hex()}"]


def hash_streams() -> Iterator[Expected]:
    yield bytes.fromhex("07 03000000 616263"), [f"hash {ABC}"]
    for _, message, expected in published.HASHES:
        yield call(HASH, message).record(), [f"hash {expected}"]
        yield from running_streams(TAKE_IN, FINISH, message, expected)
        yield from running_streams(LENT_TAKE_IN, LENT_FINISH, message, expected)
    for _, key, message, tag in published.MACS:
        if len(tag) == 64:
            yield call(MAC, key, message).record(), [f"mac {tag}"]
    yield call(HASH, bytes(131_073)).record(), ["refused 12 0"]
    yield call(HASH, bytes(262_144)).record(), ["refused 12 0"]
    for key, message in ((65_537, 0), (0, 65_537), (65_537, 196_607)):
        yield call(MAC, bytes(key), bytes(message)).record(), ["refused 12 0"]
    full = bytes(range(1, 97)) + (131_073).to_bytes(8, "little")
    for number, more in ((TAKE_IN, [b""]), (FINISH, []), (LENT_TAKE_IN, [b""]), (LENT_FINISH, [])):
        yield call(number, full, *more).record(), ["refused 12 0", f"state {full.hex()}"]


def long_streams() -> Iterator[Expected]:
    """The published messages that are longer than a block, through both running hashes: all that is compared is the end."""
    for _, message, expected in published.HASHES:
        for take_in, finish in ((TAKE_IN, FINISH), (LENT_TAKE_IN, LENT_FINISH)):
            state = INITIAL + bytes(72)
            for part in (message[:20], b"", message[20:90], message[90:]):
                told = printed(call(take_in, state, part).record()).decode().split()
                state = bytes.fromhex(told[2])
            yield call(finish, state).record(), [f"hash {expected}", f"state {state.hex()}"]


def exchange_streams() -> Iterator[Expected]:
    """The exchange for 7 of which the token and the reply were worked out by another program; key and AR are zeros."""
    challenge = exchanges.string(7)
    token = bytes.fromhex("60b85ba1500c4a36096f4d05f3364d86e4edb1bf616c34ca1eaac28f21ab2555")
    reply = bytes.fromhex("be24d9b7db5780809ff836ad5891598ed4785051ba4d3b7d29ef4ed0e84ee513")
    yield call(TOKEN, bytes(64), challenge).record(), [f"token {token.hex()}"]
    memory = bytearray(65_536)
    memory[0x0230:0x0270] = challenge + token
    after = bytearray(memory)
    after[0x0270:0x0290], after[0x0300:0x0320] = reply, challenge
    yield call(ATTEST, memory, page.LAYOUT).record(), ["accepted", f"memory {digest(after)}"]
    yield call(ATTEST, after, page.LAYOUT).record(), ["refused 10 0", f"memory {digest(after)}"]
    memory[0x026F] ^= 1
    yield call(ATTEST, memory, page.LAYOUT).record(), ["refused 11 0", f"memory {digest(memory)}"]
    yield call(CHECK, bytes(64), challenge, reply, bytes(8_192)).record(), ["yes"]
    yield call(CHECK, bytes(64), challenge, reply, bytes(8_191)).record(), ["no"]
    yield call(CHECK, bytes(64), challenge, token, bytes(8_192)).record(), ["no"]
    yield call(CHECK, bytes(64), challenge, reply, b"").record(), ["refused 12 0"]
    yield call(TOKEN, bytes(63), challenge).record(), ["refused 12 0"]


def reader_streams() -> Iterator[Expected]:
    for place in range(7):
        step = page.TRACE[12 * place : 12 * place + 12]
        told = [f"step {step.hex()}", f"place {place + 1}"]
        yield call(NEXT, page.TRACE, place_bytes(place)).record(), told
    for place in (7, 2**64 - 1):
        yield call(NEXT, page.TRACE, place_bytes(place)).record(), ["end", f"place {place}"]
    yield call(NEXT, CLEAN + UNCLEAN, place_bytes(1)).record(), ["refused 9 1", "place 1"]
    yield call(NEXT, UNCLEAN[:11], place_bytes(5)).record(), ["refused 7 0", "place 5"]


# Streams that are cut at once: an end inside a call, no call's number, arguments too long, a fixed length that is another.
CUT = (
    "07",
    "07 00",
    "07 000000",
    "07 03000000",
    "07 03000000 6162",
    "08 00000000",
    "08 00000000 00",
    "08 00000000 01000000",
    "00",
    "00 00000000",
    "0f",
    "ff 00000000",
    "07 ffffffff",
    "07 01000400",
    "07 00000480 61",
    "05 00000000 01000400",
    "05 01000000 61 00000400",
    "05 01000000 61 ffffffff",
    "0a 67000000" + "00" * 103,
    "0a 69000000" + "00" * 105,
    "0a 00000000",
    "0c 67000000" + "00" * 103,
    "0c 69000000" + "00" * 105,
    "09 67000000" + "00" * 103 + "00000000",
    "0b 69000000" + "00" * 105 + "00000000",
    "09 68000000" + "00" * 104 + "99ff0300",
    "0b 68000000" + "00" * 104 + "99ff0300",
    "0d 00000000 07000000" + "00" * 7,
    "0d 00000000 09000000" + "00" * 9,
    "02 00000000 00000000 00000000 02000000 0000 00000000",
    "02 00000000 00000000 00000000 04000000 00000000 00000000",
    "02 00000000 00000000 00000000 03000000 000000 feff0300",
)


def cut_streams() -> Iterator[Expected]:
    """Each alone, behind a call that is made, and with a call behind it that is not."""
    good, told = bytes.fromhex("07 03000000 616263"), f"hash {ABC}"
    yield b"", []
    yield good + good, [told, told]
    for text in CUT:
        wrong = bytes.fromhex(text)
        yield wrong, ["cut"]
        yield good + good + wrong, [told, told, "cut"]
    for text in ("00", "0f", "ff 00000000", "07 ffffffff", "07 01000400", "0a 00000000", "0c 69000000" + "00" * 105):
        yield good + bytes.fromhex(text) + 300_000 * b"\0" + good, [told, "cut"]
    longest = call(MAC, b"", bytes(262_144)).record()
    yield longest + good, ["refused 12 0", told]
    for count in range(1, 9):
        yield longest[:count], ["cut"]
    yield longest[:-1], ["cut"]
    yield call(MAC, b"", bytes(262_145)).record(), ["cut"]
    yield call(MAC, bytes(1), bytes(262_144)).record() + good, ["cut"]
    yield call(TOKEN, bytes(131_072), bytes(131_072)).record() + good, ["refused 12 0", told]


def limit_streams() -> Iterator[Expected]:
    """As many bytes as a running hash takes, from the middle of a block on: against the hash of the whole."""
    message = vectors.PATTERN[:131_072]
    for take_in, finish in ((TAKE_IN, FINISH), (LENT_TAKE_IN, LENT_FINISH)):
        state = INITIAL + message[:50].ljust(64, b"\xee") + (50).to_bytes(8, "little")
        told = printed(call(take_in, state, message[50:]).record()).decode().split()
        after = bytes.fromhex(told[2])
        yield call(finish, after).record(), [f"hash {digest(message)}", f"state {after.hex()}"]


def self_test() -> list[str]:
    """Where `calls` prints something else."""
    faults = []
    makers = (page_streams, refused_streams, hash_streams, long_streams, exchange_streams, reader_streams, cut_streams)
    for maker in (*makers, limit_streams):
        for number, (given, expected) in enumerate(maker()):
            told = printed(given).decode().splitlines()
            if told != expected:
                faults.append(f"stream {number} of {maker.__name__} is answered by {told}, and {expected} is right")
    return faults

"""The program `calls`: it reads calls until its input ends, makes each one, and prints what came back.

A call's first line is its answer, or its refusal. Further lines tell what it was lent or handed back, refused or not.
"""
from __future__ import annotations

import hashlib
from io import BytesIO
from typing import Callable, Iterator, NamedTuple, Optional, Union

import attestation
import board
import hashes
import runfile
from board import Monitor, Totals
from call import ATTEST, CHECK, FILE, FINISH, HASH, LAYOUT, LENT_FINISH, LENT_TAKE_IN, MAC, NEXT, STEP, TAKE_IN, TOKEN, TRACE
from call import LENGTH, MONITOR, MOST, PLACE, STATE
from lent import Lent
from reader import End, Reader
from refusal import Refusal


class Answer(NamedTuple):
    """A call's lines, and the room that it was lent as it is then."""

    first: str
    further: tuple[str, ...] = ()
    room: bytes = b""


# Each call, with its arguments as they come.


def layout_call(layout: bytes) -> Answer:
    answer = board.check_layout(layout)
    return Answer(str(answer) if isinstance(answer, Refusal) else "good")


def digest(name: str, lent: bytes) -> str:
    """Of as many bytes as there are: no limit of the page's hash is meant here."""
    return f"{name} {hashlib.sha256(lent).hexdigest()}"


def judged(first: str, memory: bytes, room: bytes) -> Answer:
    return Answer(first, (digest("memory", memory), digest("room", room)), bytes(room))


def step_call(given: bytes, layout: bytes, step: bytes, remembered: bytes, given_room: bytes) -> Answer:
    memory, room = bytearray(given), bytearray(given_room)
    held, last_pc = MONITOR.unpack(remembered)
    after = board.judge_step(memory, layout, step, Monitor(held != 0, last_pc), room)
    first = str(after) if isinstance(after, Refusal) else f"held {int(after.held)} last {after.last_pc}"
    return judged(first, memory, room)


def totals_line(answer: Union[Totals, Refusal]) -> str:
    return str(answer) if isinstance(answer, Refusal) else f"steps {answer.steps} resets {answer.resets}"


def trace_call(given: bytes, layout: bytes, trace: bytes, given_room: bytes) -> Answer:
    memory, room = bytearray(given), bytearray(given_room)
    answer = board.judge_trace(memory, layout, trace, room)
    return judged(totals_line(answer), memory, room)


def file_call(file: bytes, given: bytes, given_room: bytes) -> Answer:
    memory, room = bytearray(given), bytearray(given_room)
    answer = runfile.judge_file(file, memory, room)
    return judged(totals_line(answer), memory, room)


def attest_call(given: bytes, layout: bytes) -> Answer:
    memory = bytearray(given)
    answer = attestation.attest(memory, layout)
    return Answer(str(answer) if isinstance(answer, Refusal) else "accepted", (digest("memory", memory),))


def bytes_line(name: str, answer: Union[bytes, Refusal]) -> str:
    return str(answer) if isinstance(answer, Refusal) else f"{name} {answer.hex()}"


def token_call(key: bytes, challenge: bytes) -> Answer:
    return Answer(bytes_line("token", attestation.token(key, challenge)))


def check_call(key: bytes, challenge: bytes, reply: bytes, region: bytes) -> Answer:
    answer = attestation.check(key, challenge, reply, region)
    if isinstance(answer, Refusal):
        return Answer(str(answer))
    return Answer("yes" if answer else "no")


def hash_call(message: bytes) -> Answer:
    return Answer(bytes_line("hash", hashes.sha256(message)))


def mac_call(key: bytes, message: bytes) -> Answer:
    return Answer(bytes_line("mac", hashes.mac(key, message)))


def taken_line(refusal: Optional[Refusal]) -> str:
    return "taken" if refusal is None else str(refusal)


def state_line(state: Union[hashes.State, Lent]) -> str:
    return f"state {STATE.pack(*state.words, bytes(state.block), state.total).hex()}"


def state_of(given: bytes) -> hashes.State:
    *words, block, total = STATE.unpack(given)
    return hashes.State(tuple(words), block, total)


def take_in_call(given: bytes, more: bytes) -> Answer:
    refusal, after = hashes.take_in(state_of(given), more)
    return Answer(taken_line(refusal), (state_line(after),))


def finish_call(given: bytes) -> Answer:
    state = state_of(given)
    return Answer(bytes_line("hash", hashes.finish(state)), (state_line(state),))


def lent_of(given: bytes) -> Lent:
    *words, block, total = STATE.unpack(given)
    return Lent(tuple(words), bytearray(block), total)


def lent_take_in_call(given: bytes, more: bytes) -> Answer:
    lent = lent_of(given)
    refusal = lent.take_in(more)
    return Answer(taken_line(refusal), (state_line(lent),))


def lent_finish_call(given: bytes) -> Answer:
    lent = lent_of(given)
    answer = lent.finish()
    return Answer(bytes_line("hash", answer), (state_line(lent),))


def next_call(trace: bytes, place: bytes) -> Answer:
    reader = Reader(trace, *PLACE.unpack(place))
    answer = reader.next()
    if isinstance(answer, Refusal):
        first = str(answer)
    else:
        first = "end" if isinstance(answer, End) else f"step {answer.stands_for().hex()}"
    return Answer(first, (f"place {reader.place}",))


# Each call's arguments: the length that one has to have, or none if it may have any.
CALLS: dict[int, tuple[Callable[..., Answer], tuple[Optional[int], ...]]] = {
    LAYOUT: (layout_call, (None,)),
    STEP: (step_call, (None, None, None, MONITOR.size, None)),
    TRACE: (trace_call, (None, None, None, None)),
    ATTEST: (attest_call, (None, None)),
    TOKEN: (token_call, (None, None)),
    CHECK: (check_call, (None, None, None, None)),
    HASH: (hash_call, (None,)),
    MAC: (mac_call, (None, None)),
    TAKE_IN: (take_in_call, (STATE.size, None)),
    FINISH: (finish_call, (STATE.size,)),
    LENT_TAKE_IN: (lent_take_in_call, (STATE.size, None)),
    LENT_FINISH: (lent_finish_call, (STATE.size,)),
    NEXT: (next_call, (None, PLACE.size)),
    FILE: (file_call, (None, None, None)),
}


class Cut(Exception):
    """The input ends inside a call, or the call is none that can be made."""


def bytes_of(given: BytesIO, count: int) -> bytes:
    found = given.read(count)
    if len(found) < count:
        raise Cut
    return found


def arguments(given: BytesIO, number: int) -> list[bytes]:
    """The arguments of the call with this number. A length is looked at before any byte behind it."""
    if number not in CALLS:
        raise Cut
    found: list[bytes] = []
    for fixed in CALLS[number][1]:
        (length,) = LENGTH.unpack(bytes_of(given, LENGTH.size))
        if fixed not in (None, length) or length + sum(map(len, found)) > MOST:
            raise Cut
        found.append(bytes_of(given, length))
    return found


class Made(NamedTuple):
    """A call that was made."""

    number: int
    arguments: list[bytes]
    answer: Answer


def made(given: bytes) -> Iterator[Optional[Made]]:
    """The calls on an input, and at last None if it is cut."""
    rest = BytesIO(given)
    while number := rest.read(1):
        try:
            found = arguments(rest, number[0])
        except Cut:
            yield None
            return
        yield Made(number[0], found, CALLS[number[0]][0](*found))


def lines(done: Optional[Made]) -> list[str]:
    return ["cut"] if done is None else [done.answer.first, *done.answer.further]


def printed(given: bytes) -> bytes:
    """What `calls` prints of an input."""
    return "".join(f"{line}\n" for done in made(given) for line in lines(done)).encode("ascii")

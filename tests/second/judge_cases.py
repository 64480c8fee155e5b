"""What the program `judge_cases` has to print: the text of each file on its input.

Memory and room are filled once and kept from file to file.
"""
from __future__ import annotations

import struct
from collections import Counter
from typing import Iterator, Optional

import board
import marked
import page
import runfile
from made_files import Case
from made_runs import LONGEST_FRAME, LONGEST_TEXT, cases, longest, stdin
from runfile import MOST_BYTES


def frames(given: bytes) -> Iterator[Optional[bytes]]:
    """The files on an input, and at last None if it is cut: if a length is too great, or the input ends before a file does."""
    at = 0
    while at < len(given):
        head = given[at : at + 4]
        length = int.from_bytes(head, "little")
        at += 4 + length
        if len(head) < 4 or length > LONGEST_FRAME or at > len(given):
            yield None
            return
        yield given[at - length : at]


def texts(given: bytes) -> Iterator[bytes]:
    """What is printed of each file."""
    memory = bytearray((7 * a + a // 256) % 256 for a in range(board.MEMORY_BYTES))
    room = bytearray(board.ANSWER_BYTES * board.MOST_STEPS)
    for file in frames(given):
        yield b"cut\n" if file is None else runfile.text(runfile.judge_file(file, memory, room), room)


# What the cases have to meet, so that the comparison does not go blind.


def digits(number: str, name: str) -> str:
    return f"{name} of {len(number)} digits"


def met_by_steps(lines: list[str]) -> Iterator[str]:
    for line in lines:
        number, cause, cpu, dma = line.split(" ")
        yield digits(number, "step number")
        yield f"cause {cause}"
        yield f"CPU {'not ' * (cpu == '-')}exposed, DMA {'not ' * (dma == '-')}exposed"
        yield f"CPU byte {cpu}"
        yield f"DMA byte {dma}"


def met(file: bytes, text: bytes) -> Iterator[str]:
    """What a file meets: its refusal, or its length, its totals and what its steps say."""
    first, *rest = text.decode().splitlines()
    word, *numbers = first.split(" ")
    if word == "refused":
        yield f"refusal {numbers[0]}"
        yield f"refusal {numbers[0]} at {numbers[1]}"
        yield f"refusal {numbers[0]} of {len(file)} bytes"
        return
    _, steps, _, resets = rest.pop().split(" ")
    memory, = struct.unpack_from("<I", file, 12)
    yield "judged"
    yield f"judged of {len(file)} bytes"
    yield f"judged with {steps} steps and a memory body of {memory} bytes"
    yield digits(resets, "resets")
    yield from met_by_steps(rest)


def least() -> dict[str, int]:
    """How often each has to be met at least."""
    often = ["judged", *(f"refusal {number}" for number in (3, 4, 5, 6, 7, 9, 13, 14))]
    often += [f"refusal 13 at {place}" for place in range(3)] + [f"refusal 14 at {place}" for place in (0, 1, 2, 7)]
    often += [f"cause {cause}" for cause in (*range(11), 15)]
    often += [f"CPU {cpu}exposed, DMA {dma}exposed" for cpu in ("", "not ") for dma in ("", "not ")]
    some = [f"refusal 3 at {place}" for place in range(6)] + [f"refusal 4 at {place}" for place in (1, 3, 4)]
    some += [f"refusal 9 at {place}" for place in range(7)] + [f"step number of {n} digits" for n in (1, 2, 3, 4)]
    some += ["refusal 15", "resets of 1 digits", "resets of 2 digits"]
    once = [f"{by} byte {byte:02x}" for by in ("CPU", "DMA") for byte in range(256)]
    once += [f"refusal {number} of {MOST_BYTES} bytes" for number in (7, 9, 13, 14)]
    once += [f"refusal 13 of {length} bytes" for length in range(143)]
    once += ["refusal 9 at 4091", "refusal 14 at 9820", f"judged of {MOST_BYTES} bytes", "resets of 4 digits"]
    once += ["judged with 4092 steps and a memory body of 0 bytes", "judged with 0 steps and a memory body of 49104 bytes"]
    once += ["judged with 1 steps and a memory body of 49092 bytes", "judged with 0 steps and a memory body of 0 bytes"]
    return {**dict.fromkeys(often, 10), **dict.fromkeys(some, 4), **dict.fromkeys(once, 1)}


def blindness(made: list[Case], printed: list[bytes]) -> Iterator[str]:
    """What the cases do not meet, and where a file says something else than it was made for."""
    tally: Counter[str] = Counter()
    for number, (case, text) in enumerate(zip(made, printed)):
        tally.update(met(case.file, text))
        says = text.decode().splitlines()[0]
        if case.says not in (None, says):
            yield f"file {number} says {says} and not {case.says}"
    yield from (f"{what}: {tally[what]}" for what, times in least().items() if tally[what] < times)
    yield from marked.unmarked(marked.of_file(case.file) for case in made)
    yield from (f"{what} by judge" for what in ("refusal 1", "refusal 2", "refusal 8") if tally[what])
    lengths = {case.file: len(text) for case, text in zip(made, printed)}
    if lengths[longest()] != LONGEST_TEXT or max(lengths.values()) != LONGEST_TEXT:
        yield f"the longest text has {max(lengths.values())} bytes"
    if printed[0] != page.REPORT.encode() or printed[len(made) :] != [b"cut\n"]:
        yield "the page's file is not the first, or the end is not cut"


def files() -> dict[str, bytes]:
    """The program's files, by name."""
    made = cases()
    given = stdin(made)
    printed = list(texts(given))
    blind = list(blindness(made, printed))
    assert not blind, f"the cases of judge_cases are blind: {blind}"
    return {"stdin": given, "stdout": b"".join(printed)}

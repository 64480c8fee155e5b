"""Run files, straight from the rules page: their contents, the memory that they describe, the call that judges one, and the
text that `judge` prints.

Every call takes any bytes. Memory and answer room are lent as bytearrays, and a refused call leaves them as they are.
"""
from __future__ import annotations

import struct
from typing import NamedTuple, Optional, Union

import board
from board import Totals
from refusal import Refusal

MOST_BYTES = 49_152

# An entry of the contents is offset and length; there is one for layout, memory and trace.
ENTRY = struct.Struct("<II")
LAYOUT, MEMORY, TRACE = range(3)
CONTENTS_BYTES = 3 * ENTRY.size

# Start and length of a segment, before its bytes.
SEGMENT_HEAD = struct.Struct("<HH")


class Bodies(NamedTuple):
    layout: bytes
    memory: bytes
    trace: bytes


def split(file: bytes) -> Union[Bodies, Refusal]:
    """The bodies of a file, or refusal 15 or 13. Sums of offset and length have no bound."""
    if len(file) > MOST_BYTES:
        return Refusal(15)
    if len(file) < CONTENTS_BYTES:
        return Refusal(13, LAYOUT)
    bodies: list[bytes] = []
    begin = CONTENTS_BYTES
    for place, (offset, length) in enumerate(ENTRY.iter_unpack(file[:CONTENTS_BYTES])):
        end = begin + length
        if offset != begin or end > len(file):
            return Refusal(13, place)
        if place == LAYOUT and length != board.LAYOUT_BYTES:
            return Refusal(13, place)
        if place == TRACE and end < len(file):
            return Refusal(13, place)
        bodies.append(file[begin:end])
        begin = end
    return Bodies(*bodies)


class Segment(NamedTuple):
    start: int
    contents: bytes

    def end(self) -> int:
        return self.start + len(self.contents)


def segment_at(body: bytes, at: int, bound: int) -> Optional[Segment]:
    """The segment that begins at a place of the body, unless it fails. It may not start before the bound."""
    if at + SEGMENT_HEAD.size > len(body):
        return None
    start, length = SEGMENT_HEAD.unpack_from(body, at)
    at += SEGMENT_HEAD.size
    if length == 0 or at + length > len(body):
        return None
    segment = Segment(start, body[at : at + length])
    return None if start < bound or segment.end() > board.MEMORY_BYTES else segment


def segments_of(body: bytes) -> Union[list[Segment], Refusal]:
    """The segments of a memory body, or refusal 14."""
    segments: list[Segment] = []
    at = bound = 0
    while at < len(body):
        segment = segment_at(body, at, bound)
        if segment is None:
            return Refusal(14, len(segments))
        segments.append(segment)
        at += SEGMENT_HEAD.size + len(segment.contents)
        bound = segment.end()
    return segments


def described(segments: list[Segment]) -> bytearray:
    """The memory that segments describe. A byte that none of them names is 0."""
    memory = bytearray(board.MEMORY_BYTES)
    for segment in segments:
        memory[segment.start : segment.end()] = segment.contents
    return memory


def judge_file(file: bytes, memory: bytearray, room: bytearray) -> Union[Totals, Refusal]:
    """The call for a run file: the first of the refusals 15, 13, 1, 3 to 6, 14, 7, 8, 9, or the trace's totals.

    Then the memory is what the segments describe, with the trace's stores, and the answers are in the room.
    """
    bodies = split(file)
    if isinstance(bodies, Refusal):
        return bodies
    if len(memory) != board.MEMORY_BYTES:
        return Refusal(1)
    layout = board.check_layout(bodies.layout)
    if isinstance(layout, Refusal):
        return layout
    segments = segments_of(bodies.memory)
    if isinstance(segments, Refusal):
        return segments
    contents = described(segments)
    answer = board.judge_trace(contents, bodies.layout, bodies.trace, room)
    if isinstance(answer, Totals):
        memory[:] = contents
    return answer


def shown(exposed: bool, byte: int) -> str:
    return f"{byte:02x}" if exposed else "-"


def report(totals: Totals, room: bytes) -> str:
    """The answers of a trace, line by line, between the header and the totals."""
    lines = ["step cause cpu dma"]
    for number in range(totals.steps):
        cause, exposed, cpu, dma = room[4 * number : 4 * number + 4]
        lines.append(f"{number} {cause} {shown(exposed & 1 != 0, cpu)} {shown(exposed & 2 != 0, dma)}")
    lines.append(f"steps {totals.steps} resets {totals.resets}")
    return "".join(f"{line}\n" for line in lines)


def text(answer: Union[Totals, Refusal], room: bytes) -> bytes:
    """What `judge` prints of an answer, and of the room in which the steps' answers stand."""
    printed = f"{answer}\n" if isinstance(answer, Refusal) else report(answer, room)
    return printed.encode("ascii")


def judge(file: bytes) -> bytes:
    """What `judge` prints of a file on its standard input. It lends a board's memory, and room for every step there can be."""
    memory, room = bytearray(board.MEMORY_BYTES), bytearray(board.ANSWER_BYTES * board.MOST_STEPS)
    answer = judge_file(file, memory, room)
    return text(answer, room)

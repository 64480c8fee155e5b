"""The input of the program `calls`: calls of every number, and then one that is cut.

Full memories are most of its bytes; made_memories says how they pack. There are some 250: one for each refusal that is
looked for behind the memory's length, and few that the judged traces of a layout share. Long traces, messages and rooms are a
short piece over and over too.
"""
from __future__ import annotations

import hashes
import made_answering
import made_judging
import made_reading
import made_running
from call import LENT_FINISH, Call, call, state_bytes
from made_traces import Draw


def calls() -> list[Call]:
    draw = Draw(2027)
    makers = (made_judging, made_answering, made_running, made_reading)
    return [made for maker in makers for made in maker.calls(draw)]


def stdin() -> bytes:
    """The calls, then one whose state is a byte short, and behind that a good one, which must not be made."""
    start = state_bytes(hashes.START)
    end = (call(LENT_FINISH, start[:-1]), call(LENT_FINISH, start))
    return b"".join(made.record() for made in (*calls(), *end))

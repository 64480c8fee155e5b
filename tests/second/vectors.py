"""What the program `vectors` has to print, line by line."""
from __future__ import annotations

from typing import Iterator

import hashes
import published
from refusal import Refusal

# No byte is 0, so that none is lost among the zeros that fill a block.
PATTERN = bytes(i % 251 + 1 for i in range(hashes.LONGEST_MESSAGE + 1))

HASHED_LENGTHS = (0, 1, 55, 56, 63, 64, 65, 119, 120, 127, 128, 65_535, 65_536, 131_071, 131_072, 131_073)
KEY_LENGTHS = (0, 1, 63, 64, 65, 131, 65_536, 65_537)
MESSAGE_LENGTHS = (0, 1, 63, 64, 65, 65_535, 65_536, 65_537)
BOTH_LENGTHS = (0, 65_536, 65_537)

MADE_UP_WORDS = (0x01234567, 0x89ABCDEF, 0xFEDCBA98, 0x76543210, 0, 0xFFFFFFFF, 0x80000000, 0x7FFFFFFF)
MADE_UP_BLOCK = b"After bytes are taken in the block behind the filled part is 0.."
MADE_UP_TOTALS = (0, 1, 55, 56, 63, 131_071, 131_072, 131_073, 2**32, 2**64 - 1)


def digest_text(digest: hashes.Digest) -> str:
    return str(digest) if isinstance(digest, Refusal) else digest.hex()


def state_text(state: hashes.State) -> str:
    words = "".join(f"{word:08x}" for word in state.words)
    return f"{words} {state.block.hex()} {state.total}"


def hash_line(name: str, message: bytes) -> str:
    return f"sha256 {name} {len(message)} {digest_text(hashes.sha256(message))}"


def mac_line(name: str, key: bytes, message: bytes) -> str:
    return f"hmac {name} {len(key)} {len(message)} {digest_text(hashes.mac(key, message))}"


def take_in_line(name: str, state: hashes.State, more: bytes) -> str:
    refusal, after = hashes.take_in(state, more)
    answer = str(refusal) if refusal else "taken"
    return f"take_in {name} {state.total} {len(more)} {answer} {state_text(after)}"


def finish_line(name: str, state: hashes.State) -> str:
    return f"finish {name} {state.total} {digest_text(hashes.finish(state))}"


def made_up(total: int) -> hashes.State:
    return hashes.State(MADE_UP_WORDS, MADE_UP_BLOCK, total)


def published_lines() -> Iterator[str]:
    for example in published.HASHES:
        yield hash_line(example.name, example.message)
    for case in published.MACS:
        yield mac_line(case.name, case.key, case.message)


def length_lines() -> Iterator[str]:
    for length in HASHED_LENGTHS:
        yield hash_line("pattern", PATTERN[:length])
    for length in KEY_LENGTHS:
        yield mac_line("pattern", PATTERN[:length], PATTERN[:28])
    for length in MESSAGE_LENGTHS:
        yield mac_line("pattern", PATTERN[:20], PATTERN[:length])
    for length in BOTH_LENGTHS:
        yield mac_line("pattern", PATTERN[:length], PATTERN[:length])


def running_lines() -> Iterator[str]:
    """The program takes the message in in many parts; how it is cut makes no difference to what is right."""
    message = PATTERN[: hashes.LONGEST_MESSAGE]
    digest = digest_text(hashes.sha256(message))
    _, whole = hashes.take_in(hashes.START, message)
    yield f"finish parts {len(message)} {digest}"
    yield take_in_line("parts", whole, b"x")
    yield f"finish parts {len(message)} {digest}"
    yield take_in_line("started", hashes.START, b"")
    yield finish_line("started", hashes.START)


def made_up_lines() -> Iterator[str]:
    for total in MADE_UP_TOTALS:
        yield take_in_line("made-up", made_up(total), b"")
        yield take_in_line("made-up", made_up(total), b"x")
        yield finish_line("made-up", made_up(total))
    yield take_in_line("made-up", made_up(1), PATTERN[:131_071])
    yield take_in_line("made-up", made_up(1), PATTERN[:131_072])
    yield take_in_line("made-up", made_up(0), PATTERN)


def files() -> dict[str, bytes]:
    """The program's files, by name."""
    lines = [*published_lines(), *length_lines(), *running_lines(), *made_up_lines()]
    return {"stdout": "".join(f"{line}\n" for line in lines).encode()}

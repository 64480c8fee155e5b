"""The running hash that a caller lends and finds changed.

The bytes go into the lent block one at a time, where the by-value hash of hashes.py cuts whole blocks off a string.
"""
from __future__ import annotations

import hashlib
from dataclasses import dataclass
from typing import Iterator, Optional

import hashes
import published
from hashes import BLOCK, LENGTH_REFUSED, LONGEST_MESSAGE, Digest
from refusal import Refusal


@dataclass
class Lent:
    """The object: any words, any block, any total. The first total % 64 bytes of the block are filled."""

    words: tuple[int, ...]
    block: bytearray
    total: int

    def filled(self) -> int:
        return self.total % BLOCK

    def start(self) -> None:
        self.words, self.block, self.total = hashes.INITIAL_WORDS, bytearray(BLOCK), 0

    def take_in(self, more: bytes) -> Optional[Refusal]:
        """A refusal, and then the object is as it was, or none."""
        if self.total + len(more) > LONGEST_MESSAGE:
            return LENGTH_REFUSED
        for byte in more:
            self.block[self.filled()] = byte
            self.total += 1
            if self.filled() == 0:
                self.words = hashes.compressed(self.words, bytes(self.block))
        self.block[self.filled() :] = bytes(BLOCK - self.filled())
        return None

    def finish(self) -> Digest:
        """The object is only read."""
        if self.total > LONGEST_MESSAGE:
            return LENGTH_REFUSED
        last = bytes(self.block[: self.filled()]) + hashes.padding(self.total)
        return b"".join(word.to_bytes(4, "big") for word in hashes.after_blocks(self.words, last))


# Objects that no message reaches; no byte of the block is 0.
WORDS = (0x01234567, 0x89ABCDEF, 0xFEDCBA98, 0x76543210, 0, 0xFFFFFFFF, 0x80000000, 0x7FFFFFFF)
FULL = bytes(range(101, 101 + BLOCK))


def started() -> Lent:
    made = Lent(WORDS, bytearray(FULL), 2**64 - 1)
    made.start()
    return made


def published_faults() -> Iterator[str]:
    """The published examples, each taken in by a part, nothing, and the rest, and finished twice."""
    for name, message, digest in published.HASHES:
        lent = started()
        for part in (message[:20], b"", message[20:]):
            lent.take_in(part)
        if [lent.finish(), lent.finish()] != 2 * [bytes.fromhex(digest)]:
            yield f"the lent hash of {name} is not the published one"


def abc_faults() -> Iterator[str]:
    """All of the object, before and after each call."""
    lent = started()
    if lent != Lent(hashes.INITIAL_WORDS, bytearray(64), 0):
        yield "an object that is started has something left in it"
    answers = [lent.take_in(b"abc"), lent.finish()]
    expected = Lent(hashes.INITIAL_WORDS, bytearray(b"abc" + bytes(61)), 3)
    if answers != [None, hashlib.sha256(b"abc").digest()] or lent != expected:
        yield f"abc is answered by {answers}, and leaves {lent}"


def cut_faults() -> Iterator[str]:
    """Every length to some blocks, in three parts."""
    message = bytes(i % 251 + 1 for i in range(200))
    for length in range(len(message)):
        lent = started()
        for part in (message[: length // 3], message[length // 3 : length // 2], message[length // 2 : length]):
            lent.take_in(part)
        if lent.finish() != hashlib.sha256(message[:length]).digest():
            yield f"the lent hash of {length} bytes is not hashlib's"
        if lent.block != message[length - length % 64 : length].ljust(64, b"\0"):
            yield f"after {length} bytes the block is {lent.block.hex()}"


# The total, the count of bytes to take in, and whether that is refused.
LIMITS = (
    (131_072, 0, False),
    (131_072, 1, True),
    (131_071, 1, False),
    (131_071, 2, True),
    (131_007, 65, False),
    (131_007, 66, True),
    (0, 131_073, True),
    (131_073, 0, True),
    (2**32, 0, True),
    (2**64 - 1, 0, True),
    (2**64 - 1, 1, True),
    (2**64 - 64, 128, True),
)


def limit_faults() -> Iterator[str]:
    for total, count, refused in LIMITS:
        lent = Lent(WORDS, bytearray(FULL), total)
        answer = lent.take_in(bytes(count))
        if answer != (Refusal(12, 0) if refused else None):
            yield f"{count} bytes more than {total} are answered by {answer}"
        if refused and lent != Lent(WORDS, bytearray(FULL), total):
            yield f"{count} bytes more than {total} are refused, and the object is changed"
        if not refused and lent.total != total + count:
            yield f"{count} bytes more than {total} are {lent.total}"


def tail_faults() -> Iterator[str]:
    """Taking in nothing leaves zeros behind the filled part. Finishing changes nothing, and does not see that part."""
    for total, filled in ((0, 0), (1, 1), (63, 63), (64, 0), (130, 2), (131_072, 0)):
        lent, zeroed = Lent(WORDS, bytearray(FULL), total), FULL[:filled].ljust(64, b"\0")
        before = lent.finish()
        if lent != Lent(WORDS, bytearray(FULL), total):
            yield f"finishing {total} bytes changes the object"
        if lent.take_in(b"") is not None or lent != Lent(WORDS, bytearray(zeroed), total):
            yield f"taking nothing in behind {total} bytes leaves {lent}"
        if lent.finish() != before or before != hashes.finish(hashes.State(WORDS, zeroed, total)):
            yield f"the bytes behind the filled part of {total} are in the digest"
    for total in (131_073, 2**32, 2**64 - 1):
        lent = Lent(WORDS, bytearray(FULL), total)
        if lent.finish() != Refusal(12) or lent != Lent(WORDS, bytearray(FULL), total):
            yield f"finishing {total} bytes is not refused, or changes the object"


def self_test() -> list[str]:
    """Where the lent hash differs from what is published, from hashlib and from cases worked out by hand."""
    return [*published_faults(), *abc_faults(), *cut_faults(), *limit_faults(), *tail_faults()]

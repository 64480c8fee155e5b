"""The board's attestation, and the station's token and check of a reply, straight from the rules page.

Every call takes any bytes. The memory is lent as a bytearray, and a refused call leaves it as it is.
"""
from __future__ import annotations

from typing import NamedTuple, Union

import board
import hashes
from refusal import Refusal

KEY_BYTES = 64
# Of a challenge, of a token and of a reply.
STRING_BYTES = 32
LONGEST_REGION = 65_536


class Accepted(NamedTuple):
    """A request that the board accepted, and what it stored as the reply."""

    challenge: bytes
    reply: bytes


def mac(key: bytes, message: bytes) -> bytes:
    """HMAC where no length can be refused."""
    digest = hashes.mac(key, message)
    assert not isinstance(digest, Refusal)
    return digest


def weight(string: bytes) -> int:
    """A byte string as a number, its first byte heaviest."""
    return int.from_bytes(string, "big")


def reply_of(key: bytes, made: bytes, region: bytes) -> bytes:
    """Step 3's reply, where made is the token T."""
    one_time_key = mac(key, made)
    return mac(one_time_key, region)


def attest(memory: bytearray, layout: bytes) -> Union[Accepted, Refusal]:
    """The board's call: the reply is stored and CTR becomes the challenge, or the first of the refusals 1 to 6, 10, 11."""
    if len(memory) != board.MEMORY_BYTES:
        return Refusal(1)
    regions = board.check_layout(layout)
    if isinstance(regions, Refusal):
        return regions
    key, counter, attested = (bytes(memory[a] for a in region) for region in (regions.kr, regions.ctr, regions.ar))
    challenge_room, token_room, reply_room = (regions.mr[i : i + STRING_BYTES] for i in (0, 32, 64))
    challenge, received = (bytes(memory[a] for a in room) for room in (challenge_room, token_room))
    if not weight(challenge) > weight(counter):
        return Refusal(10)
    made = mac(key, challenge)
    if received != made:
        return Refusal(11)
    reply = reply_of(key, made, attested)
    for room, string in ((reply_room, reply), (regions.ctr, challenge)):
        for address, byte in zip(room, string):
            memory[address] = byte
    return Accepted(challenge, reply)


def token(key: bytes, challenge: bytes) -> Union[bytes, Refusal]:
    """The station's token for a challenge."""
    if len(key) != KEY_BYTES or len(challenge) != STRING_BYTES:
        return Refusal(12)
    return mac(key, challenge)


def check(key: bytes, challenge: bytes, reply: bytes, region: bytes) -> Union[bool, Refusal]:
    """Whether a reply is the one for the key, the challenge and the expected region."""
    made = token(key, challenge)
    if isinstance(made, Refusal):
        return made
    if len(reply) != STRING_BYTES or not 1 <= len(region) <= LONGEST_REGION:
        return Refusal(12)
    return reply == reply_of(key, made, region)

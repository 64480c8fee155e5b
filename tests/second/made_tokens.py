"""Tokens and replies, and strings that differ little from another.

Tokens and replies are made with hmac, so that what is tried does not hang on the second implementation.
"""
from __future__ import annotations

import hmac


def token_of(key: bytes, challenge: bytes) -> bytes:
    return hmac.digest(key, challenge, "sha256")


def one_time_key_of(key: bytes, challenge: bytes) -> bytes:
    return hmac.digest(key, token_of(key, challenge), "sha256")


def reply_of(key: bytes, challenge: bytes, region: bytes) -> bytes:
    return hmac.digest(one_time_key_of(key, challenge), region, "sha256")


def turned(string: bytes, at: int, bits: int = 1) -> bytes:
    """The string with bits of one byte turned."""
    return string[:at] + bytes((string[at] ^ bits,)) + string[at + 1 :]


def moved(string: bytes, by: int) -> bytes:
    """The string that stands so much above it."""
    return (int.from_bytes(string, "big") + by).to_bytes(len(string), "big")

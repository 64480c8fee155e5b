"""Published examples of SHA-256 and HMAC-SHA-256, with the digests as they were published."""
from __future__ import annotations

import hashlib
import hmac
from typing import NamedTuple


class HashExample(NamedTuple):
    name: str
    message: bytes
    digest: str


class MacExample(NamedTuple):
    """The published tag may be cut short, and is then the first bytes of the whole."""

    name: str
    key: bytes
    message: bytes
    tag: str


# NIST's examples for FIPS 180-4, and its additional ones; those of more than 131,072 bytes are left out.
HASHES = (
    HashExample("abc", b"abc", "ba7816bf8f01cfea414140de5dae2223b00361a396177a9cb410ff61f20015ad"),
    HashExample("empty", b"", "e3b0c44298fc1c149afbf4c8996fb92427ae41e4649b934ca495991b7852b855"),
    HashExample(
        "448-bits",
        b"abcdbcdecdefdefgefghfghighijhijkijkljklmklmnlmnomnopnopq",
        "248d6a61d20638b8e5c026930c3e6039a33ce45964ff2167f6ecedd419db06c1",
    ),
    HashExample(
        "896-bits",
        b"abcdefghbcdefghicdefghijdefghijkefghijklfghijklmghijklmn"
        b"hijklmnoijklmnopjklmnopqklmnopqrlmnopqrsmnopqrstnopqrstu",
        "cf5b16a778af8380036ce59e7b0492370b249b11e8f07a51afac45037afee9d1",
    ),
    HashExample("bd", bytes.fromhex("bd"), "68325720aabd7c82f30f554b313d0570c95accbb7dc4b5aae11204c08ffe732b"),
    HashExample(
        "c98c8e55",
        bytes.fromhex("c98c8e55"),
        "7abc22c0ae5af26ce93dbb94433a0e0b2e119d014f8e7f65bd56c61ccccd9504",
    ),
    HashExample("all-00", bytes(55), "02779466cdec163811d078815c633f21901413081449002f24aa3e80f0b88ef7"),
    HashExample("all-00", bytes(56), "d4817aa5497628e7c77e6b606107042bbba3130888c5f47a375e6179be789fbb"),
    HashExample("all-00", bytes(57), "65a16cb7861335d5ace3c60718b5052e44660726da4cd13bb745381b235a1785"),
    HashExample("all-00", bytes(64), "f5a5fd42d16a20302798ef6ed309979b43003d2320d9f0e8ea9831a92759fb4b"),
    HashExample("all-00", bytes(1000), "541b3e9daa09b20bf85fa273e5cbd3e80185aa4ec298e765db87742b70138a53"),
    HashExample("all-41", b"\x41" * 1000, "c2e686823489ced2017f6059b8b239318b6364f6dcd835d0a519105a1eadd6e4"),
    HashExample("all-55", b"\x55" * 1005, "f4d62ddec0f3dd90ea1380fa16a5ff8dc4c54b21740650f24afc4120903552b0"),
)

# RFC 4231, section 4. Case 5 is published cut to 128 bits.
MACS = (
    MacExample(
        "rfc4231-1",
        b"\x0b" * 20,
        b"Hi There",
        "b0344c61d8db38535ca8afceaf0bf12b881dc200c9833da726e9376c2e32cff7",
    ),
    MacExample(
        "rfc4231-2",
        b"Jefe",
        b"what do ya want for nothing?",
        "5bdcc146bf60754e6a042426089575c75a003f089d2739839dec58b964ec3843",
    ),
    MacExample(
        "rfc4231-3",
        b"\xaa" * 20,
        b"\xdd" * 50,
        "773ea91e36800e46854db8ebd09181a72959098b3ef8c122d9635514ced565fe",
    ),
    MacExample(
        "rfc4231-4",
        bytes(range(0x01, 0x1A)),
        b"\xcd" * 50,
        "82558a389a443c0ea4cc819899f2083a85f0faa3e578f8077a2e3ff46729665b",
    ),
    MacExample(
        "rfc4231-5",
        b"\x0c" * 20,
        b"Test With Truncation",
        "a3b6167473100ee06e0c796c2955552b",
    ),
    MacExample(
        "rfc4231-6",
        b"\xaa" * 131,
        b"Test Using Larger Than Block-Size Key - Hash Key First",
        "60e431591ee0b67f0d8a26aacbf5b77f8e0bc6213728c5140546040f0ee37f54",
    ),
    MacExample(
        "rfc4231-7",
        b"\xaa" * 131,
        b"This is a test using a larger than block-size key and a larger than block-size data. "
        b"The key needs to be hashed before being used by the HMAC algorithm.",
        "9b09ffa71b942fcb27635fbcd5b0e944bfdc63644f0713938a7f51535c3a35e2",
    ),
)


def self_test() -> list[str]:
    """Which published examples hashlib and hmac do not give."""
    faults = []
    for example in HASHES:
        if hashlib.sha256(example.message).hexdigest() != example.digest:
            faults.append(f"hashlib differs from the published hash {example.name} of {len(example.message)} bytes")
    for case in MACS:
        tag = hmac.new(case.key, case.message, hashlib.sha256).hexdigest()
        if tag[: len(case.tag)] != case.tag:
            faults.append(f"hmac differs from the published {case.name}")
    return faults

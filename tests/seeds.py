"""What a seed of 32 bytes gives: words by ChaCha20, capabilities, and the requests of a load."""

from __future__ import annotations

import struct
from typing import Iterator, List, Optional, Tuple

from disk_requests import Request

_MASK = 0xFFFFFFFF
_ROUNDS = (
    (0, 4, 8, 12), (1, 5, 9, 13), (2, 6, 10, 14), (3, 7, 11, 15),
    (0, 5, 10, 15), (1, 6, 11, 12), (2, 7, 8, 13), (3, 4, 9, 14),
)
CAP_WORDS = 128


def _chacha_block(key: bytes, counter: int) -> Tuple[int, ...]:
    """The sixteen words of one block of ChaCha20 of stream 0."""
    start = list(struct.unpack("<4I", b"expand 32-byte k") + struct.unpack("<8I", key))
    start += [counter & _MASK, counter >> 32, 0, 0]
    words = list(start)
    for a, b, c, d in _ROUNDS * 10:
        for x, y, z, turn in ((a, b, d, 16), (c, d, b, 12), (a, b, d, 8), (c, d, b, 7)):
            words[x] = (words[x] + words[y]) & _MASK
            mixed = words[z] ^ words[x]
            words[z] = ((mixed << turn) | (mixed >> (32 - turn))) & _MASK
    return tuple((word + first) & _MASK for word, first in zip(words, start))


def words_of(seed: bytes, first: int = 0) -> Iterator[int]:
    """The words of a seed's stream, from word number `first` (a multiple of sixteen) on."""
    counter = first // 16
    while True:
        yield from _chacha_block(seed, counter)
        counter += 1


def seed_caps(seed: bytes) -> List[Tuple[bytes, bytes]]:
    """The capabilities to read and to write of the sixteen primary blocks that a seed serves."""
    stream = words_of(seed)
    text = b"".join(next(stream).to_bytes(4, "little") for _ in range(CAP_WORDS))
    return [(text[at:at + 16], text[at + 16:at + 32]) for at in range(0, len(text), 32)]


def drawn_requests(seed: bytes, blocks: int, primaries: int) -> Iterator[Request]:
    """The requests of a load, from number 0 on, without an end."""
    caps = seed_caps(seed)
    yield Request("open", session=1)
    stream = words_of(seed, CAP_WORDS)
    number = 1
    while True:
        x, y = next(stream), next(stream)
        width = min(blocks, 1 + number // 4)
        a, b = x // 8 % width, y % width
        yield _drawn(x % 8, a, b, y, caps[a][1] if a < primaries else None)
        number += 1


def _drawn(kind: int, a: int, b: int, y: int, shown: Optional[bytes]) -> Request:
    if kind == 0:
        return Request("read", 1, a, shown)
    if kind == 1:
        return Request("write", 1, a, shown, data=y.to_bytes(4, "little"))
    if kind in (2, 3):
        return Request("alloc" if kind == 2 else "contig", 1, a, shown, hint=b, count=1 + (y >> 30))
    if kind in (4, 5):
        return Request("create" if kind == 4 else "delete", 1, a, shown, target=b)
    return Request("free") if kind == 6 else Request("list", 1, a, shown, start=0)

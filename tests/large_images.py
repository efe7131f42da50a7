"""Lays images of a million blocks by hand, by the rules of docs/FORMAT.md: tables as arrays, and no data, since a file
that ends early reads as zeros. All have one primary block and one sector a block.
"""

from __future__ import annotations

import struct
import sys
from array import array
from collections import Counter
from pathlib import Path
from typing import Iterable, Tuple

from image_reader import COUNTS, FORMAT_GATE, HEADER, MAGIC, RECORDS, SECTOR, Layout
from program import write_image

READ_CAP, WRITE_CAP = b"\xaa" * 16, b"\xbb" * 16
SLOTS_OF_A_BLOCK = 4
NUMBER = "I"
# Steps by which an order is mixed: first every so manyth from the first one on, then from the second one on.
STEPS = (1021, 613, 89)

Pair = Tuple[int, int]


class LargeImage:
    """The tables of an image of `blocks` blocks (a multiple of eight) and four slots for each."""

    def __init__(self, blocks: int) -> None:
        self.blocks = blocks
        self.slots = SLOTS_OF_A_BLOCK * blocks
        self.counts = array(NUMBER, bytes(4 * blocks))
        self.bits = bytes(blocks // 8)
        self.pairs = array(NUMBER, bytes(8 * self.slots))

    def set_live(self, end: int) -> None:
        """Makes the blocks below this one live, and no others."""
        self.bits = ((1 << end) - 1).to_bytes(self.blocks // 8, "little")

    def put_pairs(self, sources: array, targets: array) -> None:
        """Puts pairs into the first slots, and counts them."""
        self.pairs[0:2 * len(sources):2] = array(NUMBER, map((1).__add__, sources))
        self.pairs[1:2 * len(targets):2] = targets
        counts = Counter(targets)
        self.counts = array(NUMBER, [counts.get(block, 0) for block in range(self.blocks)])

    def copy_slot(self, one: int, other: int) -> Pair:
        """Puts the pair of a slot into another slot too; the pair."""
        self.pairs[2 * other:2 * other + 2] = self.pairs[2 * one:2 * one + 2]
        return self.pairs[2 * one] - 1, self.pairs[2 * one + 1]

    def write(self, path: Path) -> None:
        """Writes the image; its data isn't in the file."""
        layout = Layout(1, self.blocks, 1, self.slots)
        header = MAGIC + struct.pack("<5I", 1, layout.sectors, layout.blocks, layout.primaries, layout.slots)
        pieces = {HEADER: header, FORMAT_GATE: b"\1", RECORDS: READ_CAP + WRITE_CAP, COUNTS: little(self.counts),
                  layout.bitmap: self.bits, layout.slot_area: little(self.pairs)}
        write_image(path, b"")
        with path.open("r+b") as file:
            for sector, content in pieces.items():
                file.seek(SECTOR * sector)
                file.write(content)


def mixed(numbers: array) -> array:
    """The numbers in an order that looks drawn at random, the same for all arrays of one length."""
    for step in STEPS:
        pieces = [numbers[first::step] for first in range(step)]
        numbers = array(NUMBER, b"".join(piece.tobytes() for piece in pieces))
    return numbers


def numbers_of(numbers: Iterable[int]) -> array:
    """An array of these numbers."""
    return array(NUMBER, numbers)


def little(numbers: array) -> bytes:
    """Numbers of four bytes, the lowest first."""
    if sys.byteorder == "big":
        numbers = array(NUMBER, numbers)
        numbers.byteswap()
    return numbers.tobytes()

"""ALLOC of one block and CONTIG of four at a million blocks, for each kind of placement, beside a READ there: on a disk
of which nearly all is free, and on one of which every other block, drawn at random, is live."""

from __future__ import annotations

import os
import random
from pathlib import Path

from image_reader import SECTOR, Layout
from large_images import SLOTS_OF_A_BLOCK, LargeImage, numbers_of
from trials import MILLION, READ, WRITE, Place, Row, Rows, Talk, fresh, micros, several

PLACES = ("low", "near", "spread", "zone")
COUNT = 500
SEED = 1


def half_full(image: Path) -> Path:
    """A disk with a pointer from block 0 to each of the live blocks."""
    live = sorted(random.Random(SEED).sample(range(1, MILLION), MILLION // 2))
    laid = LargeImage(MILLION)
    bits = bytearray(laid.bits)
    for block in (0, *live):
        bits[block // 8] |= 1 << block % 8
    laid.bits = bytes(bits)
    laid.put_pairs(numbers_of([0]) * len(live), numbers_of(live))
    laid.write(image)
    return image


def fill(image: Path) -> None:
    """Takes memory for all of an image, so that no request has to wait for it."""
    with image.open("r+b") as file:
        layout = Layout(1, MILLION, 1, SLOTS_OF_A_BLOCK * MILLION)
        os.posix_fallocate(file.fileno(), 0, SECTOR * layout.all_sectors)


def requests(word: str, count: int) -> list[str]:
    """Requests for so many blocks near blocks drawn at random; the first one shows a capability."""
    numbers = random.Random(SEED)
    hints = [numbers.randrange(MILLION) for _ in range(COUNT)]
    return [f"{word} 1 0 {WRITE} {hint} {count}" for hint in hints]


def rows(place: Place) -> Rows:
    """Both disks."""
    makers = {"1,000,000 blocks": lambda path: fresh(path, MILLION), "1,000,000 blocks, half full": half_full}
    for name, make in makers.items():
        image = make(place.memory / "places.img")
        fill(image)
        taken = {"READ": [], "ALLOC of one block": [], "CONTIG of four": []}
        for kind in PLACES:
            with Talk(image, "run", kind) as talk:
                taken["READ"].append(talk.work([f"read 1 0 {READ}"] * COUNT, b"data"))
                taken["ALLOC of one block"].append(talk.work(requests("alloc", 1), b"blocks"))
                taken["CONTIG of four"].append(talk.work(requests("contig", 4), b"blocks"))
        for what, seconds in taken.items():
            cell = several(micros(one, COUNT) for one in seconds)
            yield Row(f"{name}: {what}, µs of a processor ({', '.join(PLACES)})", cell)

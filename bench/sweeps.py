"""SWEEP, where half of the blocks are lost in a cycle, in memory."""

from __future__ import annotations

from pathlib import Path

from large_images import LargeImage, mixed, numbers_of
from trials import MILLION, WRITE, Place, Row, Rows, Talk

SIZES = (5_000, 10_000, 20_000, MILLION)


def half_lost(image: Path, blocks: int) -> None:
    """Half of the blocks hang on block 0, the others point in a circle, in an order that looks drawn at random."""
    half = blocks // 2
    circle = mixed(numbers_of(range(half, blocks)))
    laid = LargeImage(blocks)
    laid.set_live(blocks)
    laid.put_pairs(numbers_of([0]) * (half - 1) + circle, numbers_of(range(1, half)) + circle[1:] + circle[:1])
    laid.write(image)


def rows(place: Place) -> Rows:
    """Each number of blocks."""
    image = place.memory / "swept.img"
    for blocks in SIZES:
        half_lost(image, blocks)
        with Talk(image, "run", "low") as talk:
            seconds = talk.work([f"sweep 1 {WRITE}"], b"gone %d\n" % (blocks // 2))
        yield Row(f"SWEEP of half of {blocks:,} blocks, lost in a cycle, s of a processor", f"{seconds:.3f}")

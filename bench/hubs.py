"""A block with very many pointers from it, in memory: DELETE of one in descending order and in random order, CREATE in
random order, LIST from a block that isn't held; beside a READ of that disk. The targets are dense, or spread over the
disk. Block 1 points to all of them too, so that none of them goes when block 0's pointer does."""

from __future__ import annotations

import random
from pathlib import Path
from typing import Dict, List, Sequence

from large_images import LargeImage, numbers_of
from trials import LARGEST, MILLION, READ, WRITE, Place, Row, Rows, Talk, micros

COUNT = 2_000
SEED = 1
STEP = 100
TARGETS: Dict[str, Sequence[int]] = {
    "1,000,000 targets in a row": range(2, MILLION + 2),
    "10,000 targets, each hundredth block": range(STEP, MILLION + 1, STEP),
}


def lay(image: Path, targets: Sequence[int]) -> None:
    """A disk whose blocks 0 and 1 point to these blocks, and 0 to 1."""
    laid = LargeImage(LARGEST)
    bits = bytearray(laid.bits)
    for block in (0, 1, *targets):
        bits[block // 8] |= 1 << block % 8
    laid.bits = bytes(bits)
    held = numbers_of(targets)
    laid.put_pairs(numbers_of([0]) * (len(held) + 1) + numbers_of([1]) * len(held), numbers_of([1]) + held + held)
    laid.write(image)


def measured(image: Path, targets: Sequence[int]) -> Dict[str, float]:
    """The seconds of each kind of request. What was deleted at random is created again, and listed from before that."""
    numbers = random.Random(SEED)
    last, others = list(targets[:-COUNT - 1:-1]), numbers.sample(targets[:-COUNT], COUNT)
    again = numbers.sample(others, COUNT)

    def each(word: str, blocks: List[int]) -> List[str]:
        return [f"{word} 1 0 {WRITE} {block}" for block in blocks]

    taken = {}
    with Talk(image, "run", "low") as talk:
        talk.ask([f"write 1 0 {WRITE} -", "write 1 1 - -"], b"ok")
        taken["READ"] = talk.work([f"read 1 0 {READ}"] * COUNT, b"data")
        taken["DELETE in descending order"] = talk.work(each("delete", last), b"gone 0")
        taken["DELETE in random order"] = talk.work(each("delete", others), b"gone 0")
        lists = [f"list 1 0 {READ} {block}" for block in others]
        taken["LIST from a block that isn't held"] = talk.work(lists, b"list")
        talk.ask([f"write 1 {block} - -" for block in again], b"ok")
        taken["CREATE in random order"] = talk.work(each("create", again), b"ok")
    return taken


def rows(place: Place) -> Rows:
    """Dense and spread."""
    image = place.memory / "hub.img"
    for name, targets in TARGETS.items():
        lay(image, targets)
        for what, seconds in measured(image, targets).items():
            yield Row(f"a block with {name}: {what}, µs of a processor", f"{micros(seconds, COUNT):.1f}")

"""Runs that are gone through at every moment by `crash_rows`, and call by call by `failing_calls`: each is one that
changes a disk in a way of its own.
"""

from __future__ import annotations

from itertools import accumulate
from typing import Callable, List, NamedTuple, Optional, Sequence, Tuple

from crash_requests import text_of
from disk_model import Disk, Request, seed_caps
from judging import Caps, Course, Standing, course_of_requests, course_of_upgrade

SEED = bytes(32)
CAPS: Caps = (seed_caps(SEED)[0],)
READ_CAP, WRITE_CAP = CAPS[0]
OPEN = Request("open", 1)


class Row(NamedTuple):
    """A run over a disk of one sector a block and one primary block: how many blocks and slots it has, the requests
    before it that make the disk, and its own; `upgrade` has none. Each so manyth image that its crashes leave is to be
    opened with crashes, or none."""

    name: str
    blocks: int
    slots: int
    before: Sequence[Request]
    requests: Sequence[Request]
    is_upgrade: bool = False
    opens_every: int = 0

    def words(self) -> Tuple[object, ...]:
        """The words of the run."""
        return ("upgrade",) if self.is_upgrade else ("run", "low")

    def text(self) -> bytes:
        """Its input."""
        return b"" if self.is_upgrade else text_of([OPEN, *self.requests], frames=False)

    def format_words(self) -> Tuple[object, ...]:
        """The words that make its disk."""
        return ("format", self.blocks, 1, self.slots, 1, SEED.hex())

    def text_before(self) -> bytes:
        """The input of the run before it."""
        return text_of([OPEN, *self.before], frames=False)

    def disk(self) -> Disk:
        """The disk that it begins with."""
        disk = Disk.formatted(self.blocks, 1, self.slots, 1, SEED, "low")
        for request in (OPEN, *self.before):
            disk.apply(request)
        disk.end_sessions()
        return disk

    def course(self) -> Course:
        """Its course."""
        disk = self.disk()
        before = [Standing(disk.world(), CAPS)]
        if self.is_upgrade:
            return course_of_upgrade(before, disk, CAPS)
        return course_of_requests(before, disk, CAPS, [OPEN, *self.requests], frames=False)


def course_of_groups(
    before: Sequence[Standing], disk: Disk, caps: Caps, requests: Sequence[Optional[Request]]
) -> Course:
    """The course of `group`: the answers are those of `serve`."""
    course = course_of_requests(before, disk, caps, requests, frames=True)
    course.ends = list(accumulate(len(text_of([request], frames=True)) for request in requests))
    return course


def alloc(source: int, count: int = 1, name: str = "alloc", hint: Optional[int] = None) -> Request:
    """Blocks are taken."""
    return Request(name, 1, source, WRITE_CAP if source == 0 else None, hint=hint, count=count)


def write(block: int, data: bytes) -> Request:
    """A block is written."""
    return Request("write", 1, block, WRITE_CAP if block == 0 else None, data=data)


def create(source: int, target: int) -> Request:
    """A pointer is made."""
    return Request("create", 1, source, WRITE_CAP if source == 0 else None, target=target)


def delete(source: int, target: int) -> Request:
    """A pointer is deleted."""
    return Request("delete", 1, source, WRITE_CAP if source == 0 else None, target=target)


def chain(length: int) -> List[Request]:
    """Blocks 1 to `length` under one another."""
    return [alloc(block) for block in range(length)]


def each(make: Callable[[int], Request], numbers: Sequence[int]) -> List[Request]:
    """A request for each number."""
    return [make(number) for number in numbers]


SWEEP = Request("sweep", 1, shown=WRITE_CAP)
SET_CAPS = Request("setcap", 1, 0, WRITE_CAP, read_cap=b"\xcc" * 16, write_cap=b"\xdd" * 16)
READ_ONE = Request("read", 1, 1)
TIGHT_END = [delete(0, 1), create(2, 3), create(3, 2), create(2, 2), create(3, 3)]

CHAIN_OF_40 = Row("a chain of 40 goes, and two blocks are taken meanwhile", 64, 256, chain(40),
                  [delete(0, 1), alloc(0, 2)])
POINTERS_32 = Row("a block with 32 pointers goes", 64, 256, [alloc(0), alloc(0), alloc(1, 32)], [delete(0, 1)],
                  opens_every=16)

ROWS: List[Row] = [
    Row("a write", 8, 32, [], [write(0, b"hello")]),
    Row("three blocks, and a request that is refused for want of blocks", 8, 32, [], [alloc(0, 3), alloc(0, 5)]),
    Row("a chain of three goes", 8, 32, chain(3), [delete(0, 1)], opens_every=1),
    Row("a cycle of two is swept", 8, 32, [*chain(2), create(2, 1), delete(0, 1)], [SWEEP], opens_every=1),
    Row("new capabilities", 8, 32, [], [SET_CAPS], opens_every=1),
    Row("a block is written, goes and is taken again", 8, 32, [],
        [alloc(0), write(1, b"secret" * 80), delete(0, 1), alloc(0), READ_ONE], opens_every=1),
    Row("nine writes", 8, 32, [alloc(0, 3)], each(lambda n: write(n % 4, bytes([n + 1]) * 300), range(9)),
        opens_every=1),
    Row("an upgrade", 8, 32, chain(2), [], is_upgrade=True, opens_every=1),
    POINTERS_32,
    CHAIN_OF_40,
    Row("a tree of 26 goes, and 26 blocks in a row are taken before a step", 32, 128, [alloc(0), alloc(1, 25)],
        [delete(0, 1), alloc(0, 26, "contig")]),
    Row("the tight disk at its last pointer", 8, 5, [alloc(0, 3), alloc(1, 2)], TIGHT_END),
    Row("blocks in a row", 8, 32, [], [alloc(0, 3, "contig", 5)]),
    Row("a run that ends with six doomed blocks", 8, 32, chain(6), [delete(0, 1)]),
]

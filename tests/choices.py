"""Which free blocks are taken, where the search goes by groups of 256, stretches of 16 groups and regions of 16
stretches: each kind of placement, hints at the edges of all three, inside, past the disk and at the greatest number, in
disks whose groups and regions are full, empty, or hold few free blocks at their edges. What is expected is sorted by
rank as docs/FORMAT.md gives it, without any groups.

Each block that was taken is given back before the next request, so all requests to one disk meet the same free blocks.

And which blocks the commands `shell` and `copyfs` take by each kind: a block is searched from the block that is to lead
to it.
"""

from __future__ import annotations

import heapq
import random
from array import array
from pathlib import Path
from typing import Dict, Iterator, List, NamedTuple, Set, Tuple

from disk_model import MOST_COUNT, PLACES, World, rank, seed_caps
from endings import is_checked
from file_text import CHAIN, INODE
from image_reader import Fault, read_image
from large_images import WRITE_CAP, LargeImage, numbers_of
from parts import Context, Result, compared
from program import Program

NAME = "choices"
W = WRITE_CAP.hex()
GROUP = 256
STRETCH = 16 * GROUP
REGION = 16 * STRETCH
LAST_HINT = 2**32 - 1
COUNTS = (1, 2, 31, 32)
SMALL_BLOCKS = 5 * GROUP + 24
LARGE_BLOCKS = 2**20
# A built checker of memory is slow.
CHECKED_BLOCKS = 2**16


class Ask(NamedTuple):
    """A request for blocks: its word, hint and count."""

    word: str
    hint: int
    count: int


def starts_of(free: List[int], count: int) -> List[int]:
    """The blocks where so many free ones stand in a row; the free ones ascend."""
    return [block for place, block in enumerate(free[:max(len(free) - count + 1, 0)])
            if free[place + count - 1] == block + count - 1]


def chosen(place: str, free: List[int], ask: Ask) -> List[int]:
    """The blocks that are taken: none where there are too few, or no run is long enough."""
    def by_rank(block: int) -> int:
        return rank(place, block, ask.hint)

    if ask.word == "alloc":
        return heapq.nsmallest(ask.count, free, key=by_rank) if ask.count <= len(free) else []
    starts = starts_of(free, ask.count)
    first = min(starts, key=by_rank, default=None)
    return [] if first is None else list(range(first, first + ask.count))


def reply_to(free: List[int], ask: Ask, taken: List[int]) -> str:
    """The reply with these blocks, or the refusal."""
    if taken:
        return " ".join(["blocks", *map(str, taken)])
    rule = "full" if len(free) < ask.count else "run"
    return f"no {rule} {len(free)} {ask.count}"


def rows_of(place: str, free: List[int], asks: List[Ask]) -> Iterator[Tuple[str, str]]:
    """The lines of these requests, each with its reply, and behind each the deletions that give back what it took."""
    for ask in asks:
        taken = chosen(place, free, ask)
        yield f"{ask.word} 1 0 {W} {ask.hint} {ask.count}", reply_to(free, ask, taken)
        for block in taken:
            yield f"delete 1 0 {W} {block}", "gone 1"


def write_disk(path: Path, blocks: int, free: Set[int]) -> None:
    """A disk with these free blocks: block 0 leads to each other one."""
    live = [block for block in range(blocks) if block not in free]
    image = LargeImage(blocks)
    marks = bytearray(blocks // 8)
    for block in live:
        marks[block // 8] |= 1 << block % 8
    image.bits = bytes(marks)
    targets = numbers_of(live[1:])
    image.put_pairs(array(targets.typecode, bytes(4 * len(targets))), targets)
    image.write(path)


def result(name: str, program: Program, path: Path, place: str, rows: List[Tuple[str, str]]) -> Result:
    """The replies to these lines, in a session of their own."""
    lines = "".join(f"{line}\n" for line, _ in [("open 1", ""), *rows])
    replies = "".join(f"{reply}\n" for _, reply in [("", "ok"), *rows])
    ending = program.run([path, "run", place], lines.encode())
    return compared(f"{name}, {place}", (0, replies.encode(), b""), tuple(ending))


def hints_of(blocks: int) -> List[int]:
    """Hints at the edges of groups, inside, past the disk, and at the greatest number."""
    edges = [0, 1, 100, GROUP - 1, GROUP, GROUP + 1, 2 * GROUP - 1, 2 * GROUP, 700, blocks - 1]
    return edges + [blocks, blocks + 700, 2**31, LAST_HINT - GROUP, LAST_HINT]


def asks_at(hints: List[int]) -> List[Ask]:
    """Requests of both words for few and for many blocks, with each of these hints."""
    return [Ask(word, hint, count) for hint in hints for count in COUNTS for word in ("alloc", "contig")]


def small_disks(rng: random.Random) -> Dict[str, Set[int]]:
    """Sets of free blocks of a disk of six groups, the last of them cut off."""
    blocks = range(1, SMALL_BLOCKS)
    edges = {0, 1, GROUP - 2, GROUP - 1}
    return {
        "all groups empty": set(blocks),
        "two groups full": {block for block in blocks if block // GROUP not in (1, 2)},
        "all groups full but the last one": set(range(5 * GROUP, SMALL_BLOCKS)),
        "all groups full": set(),
        "free at the edges of groups": {block for block in blocks if block % GROUP in edges},
        "one free in each group": {GROUP * group + 255 for group in range(5)} | {SMALL_BLOCKS - 1},
        "runs over the edges": {block for block in blocks if (block + 20) % GROUP < 40},
        "runs of 31": {block for block in blocks if block % 32},
        "a third, drawn": set(rng.sample(blocks, SMALL_BLOCKS // 3)),
        "nearly all, drawn": set(rng.sample(blocks, SMALL_BLOCKS - 60)),
    }


def small_results(context: Context, program: Program) -> Iterator[Result]:
    """Disks of six groups, for each kind, hint and count."""
    path = context.folder / "choices.img"
    asks = asks_at(hints_of(SMALL_BLOCKS))
    for name, free in small_disks(context.random("small choices")).items():
        write_disk(path, SMALL_BLOCKS, free)
        ascending = sorted(free)
        for place in PLACES:
            yield result(name, program, path, place, list(rows_of(place, ascending, asks)))
    path.unlink()


def holes_of(rng: random.Random, blocks: int) -> Set[int]:
    """Holes of a large disk: a few hundred runs of free blocks, some over edges of groups, and its last block."""
    free = {blocks - 1}
    for _ in range(400):
        first = rng.choice((rng.randrange(1, blocks), GROUP * rng.randrange(1, blocks // GROUP) - rng.randrange(12)))
        free |= set(range(first, min(first + rng.choice((1, 2, 5, 31, 40)), blocks)))
    return free


def long_hints(blocks: int) -> List[int]:
    """Hints at the edges of stretches and regions."""
    return [edge + step for edge in (STRETCH, REGION, blocks - REGION, blocks - STRETCH) for step in (-1, 0, 1)]


def edges_of_regions(blocks: int) -> Set[int]:
    """A few free blocks on both sides of each edge between two regions, and the last block of all."""
    return {edge + step for edge in range(REGION, blocks, REGION) for step in (-40, -3, -2, -1, 0, 1)} | {blocks - 1}


def large_results(context: Context, program: Program) -> Iterator[Result]:
    """A large disk with holes, and the same with few live blocks in the places of the holes."""
    path, rng = context.folder / "holes.img", context.random("large choices")
    blocks = CHECKED_BLOCKS if is_checked(program) else LARGE_BLOCKS
    hints = [*hints_of(blocks), *long_hints(blocks), *(rng.randrange(blocks) for _ in range(10))]
    asks = asks_at(hints)
    holes = holes_of(rng, blocks)
    write_disk(path, blocks, holes)
    for place in PLACES:
        yield result(f"{blocks} blocks with holes", program, path, place, list(rows_of(place, sorted(holes), asks)))
    edges = sorted(edges_of_regions(blocks))
    write_disk(path, blocks, set(edges))
    for place in PLACES:
        yield result(f"{blocks} blocks, free at edges of regions", program, path, place,
                     list(rows_of(place, edges, asks)))
    write_disk(path, blocks, set(range(1, blocks)) - holes)
    ascending = sorted(set(range(1, blocks)) - holes)
    for place in PLACES:
        some = [Ask("alloc", rng.choice(hints), 2), Ask("contig", rng.choice(hints), 32)]
        yield result(f"{blocks} blocks, few of them live", program, path, place, list(rows_of(place, ascending, some)))
    path.unlink()


# Block 0 is the root of a tree, block 1 that of its copy, and block 2 leads to all that is to be live besides.
TREE, COPY, FILLER = 0, 1, 2
PRIMARIES = 3
FILLED_BLOCKS = 16 * GROUP
SEED = bytes(32)


class FilledDisk:
    """A disk of 16 groups, of which the free blocks are set by name."""

    def __init__(self, program: Program, path: Path) -> None:
        self.program, self.path = program, path
        path.unlink(missing_ok=True)
        self.caps = [pair[1].hex() for pair in seed_caps(SEED)]
        words = ["format", FILLED_BLOCKS, 1, 4 * FILLED_BLOCKS, PRIMARIES, SEED.hex()]
        program.run([path, *map(str, words)])

    def world(self) -> World:
        """The world for which the image stands."""
        found = read_image(self.path.read_bytes())
        assert not isinstance(found, Fault), found
        return found

    def free(self) -> Set[int]:
        """The free blocks."""
        return set(range(FILLED_BLOCKS)) - set(self.world().blocks)

    def leave_free(self, wanted: Set[int]) -> None:
        """Takes all free blocks but these, and gives back those of these that are live."""
        lacking = len(self.free() - wanted)
        counts = [MOST_COUNT] * (lacking // MOST_COUNT) + [1] * (lacking % MOST_COUNT)
        # Blocks that are wanted may be taken too: the rest of them is given back below.
        over = len(self.free() & wanted)
        counts += [1] * over
        cap = self.caps[FILLER]
        lines = ["open 1", *(f"alloc 1 {FILLER} {cap} 0 {count}" for count in counts),
                 *(f"delete 1 {FILLER} {cap} {block}" for block in sorted(wanted))]
        self.program.run([self.path, "run", "low"], "".join(f"{line}\n" for line in lines).encode())

    def shell(self, kind: str, place: str, lines: List[str]) -> bytes:
        """The answers of the shell over the tree."""
        words = ["shell", kind, str(TREE), self.caps[TREE], place]
        return self.program.run([self.path, *words], "".join(f"{line}\n" for line in lines).encode()).out

    def copy(self, kind: str, place: str) -> bytes:
        """The line of a copy of the tree of inodes."""
        words = ["copyfs", INODE, str(TREE), self.caps[TREE], kind, str(COPY), self.caps[COPY], place]
        return self.program.run([self.path, *words]).out


def taken_by_shell(disk: FilledDisk, place: str) -> Tuple[object, object]:
    """A chain grows by a cluster, behind its last one in the second group: blocks are free before that and behind it,
    in its group and in others."""
    disk.leave_free({300, 301})
    disk.shell(CHAIN, "low", ["mkfs", "put /a 01"])
    last = max(disk.world().blocks.keys() & {300, 301})
    free = {10, 270, 299, 340, GROUP * 15 + 3}
    disk.leave_free(free)
    before = set(disk.world().blocks)
    said = disk.shell(CHAIN, place, [f"append /a {'02' * 500}"])
    wanted = min(free, key=lambda block: rank(place, block, last))
    return (b"ok\n", {wanted}), (said, set(disk.world().blocks) - before)


def taken_from_root(place: str, free: Set[int], count: int, root: int) -> Set[int]:
    """So many blocks one after another, the first from a root and each of the others from one that was taken: where the
    first is free before all others, or all others of its group are, these are the first ones by rank."""
    return set(heapq.nsmallest(count, free, key=lambda block: rank(place, block, root)))


def taken_by_copy(disk: FilledDisk, kind: str, place: str) -> Tuple[object, object]:
    """A file of three blocks is copied: blocks are free in the second group and in the last one, which a search by
    zones goes to first."""
    disk.leave_free(set(range(20, 60)))
    disk.shell(INODE, "low", ["mkfs", f"put /a {'03' * 1400}"])
    free = set(range(300, 320)) | set(range(GROUP * 15 + 20, GROUP * 15 + 40))
    disk.leave_free(free)
    before = set(disk.world().blocks)
    said = disk.copy(kind, place)
    taken = set(disk.world().blocks) - before
    return (b"copied 1 1400\n", taken_from_root(place, free, max(len(taken), 3), COPY)), (said, taken)


def tree_results(context: Context, program: Program) -> Iterator[Result]:
    """The blocks that `shell` and `copyfs` take, for each kind. The first block of a copy is searched from its root,
    and each other one from one that was taken, so that only a search by zones tells itself from the others there."""
    path = context.folder / "trees.img"
    for place in PLACES:
        yield compared(f"the block that shell takes, {place}", *taken_by_shell(FilledDisk(program, path), place))
        for kind in (INODE, CHAIN):
            name = f"the blocks that copyfs takes for {kind}, {place}"
            yield compared(name, *taken_by_copy(FilledDisk(program, path), kind, place))
    path.unlink()


def run(context: Context) -> Iterator[Result]:
    """Small disks and large ones, and trees."""
    program = Program(context.program)
    yield from small_results(context, program)
    yield from tree_results(context, program)
    yield from large_results(context, program)

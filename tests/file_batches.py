"""An ask that changes more than a batch of the journal holds: a long file is copied whose blocks lie far apart, so that
each pointer to one of them changes another sector. A crash inside each call leaves the tree before it or after it.

The blocks lie far apart since all others are taken, by another session under another root.

What must hold is written down here from docs/FILES.md, and nothing of it was made by the program.
"""

from __future__ import annotations

from pathlib import Path
from typing import Iterator, List, NamedTuple

from crash_images import Medium, moments, written
from disk_model import seed_caps
from file_text import INODE
from file_trees import plain, read_tree
from image_reader import Fault, read_image
from parts import Context, Result, failed, passed, skipped
from program import Program
from recording import NoRecorder, Recorder

NAME = "file_batches"
SEED = bytes(32)
# A call in so many is looked at: an image of such a disk takes some time to be read.
EACH = 3
BLOCKS, AT_ONCE, APART = 16_384, 8, 128
PIECE, PIECES = 4_096, 15
OLD = {b"a": b"\x61" * PIECE * PIECES}
NEW = {**OLD, b"b": OLD[b"a"]}


class Seen(NamedTuple):
    """What an image has: its tree, or what is wrong, and how many pointers it has."""

    tree: object
    pointers: int


def seen(data: bytes) -> Seen:
    """What an image has."""
    world = read_image(data)
    if isinstance(world, Fault):
        return Seen(world.line, 0)
    tree = read_tree(world, INODE, 0)
    return Seen(None if tree is None else plain(tree), len(world.pairs))


def taken(cap: str) -> List[str]:
    """Lines by which a session takes all blocks under root 1, and then lets go of some that lie far apart."""
    lines = ["open 1"]
    lines += [f"alloc 1 1 {cap} - {AT_ONCE}"] * (BLOCKS // AT_ONCE - 1) + [f"alloc 1 1 {cap} - {AT_ONCE - 2}"]
    return lines + [f"delete 1 1 {cap} {block}" for block in range(APART, BLOCKS, APART)]


def text_of(lines: List[str]) -> bytes:
    """Lines as bytes."""
    return "".join(f"{line}\n" for line in lines).encode()


def stopped_results(recorder: Recorder, program: Program, image: Path) -> Iterator[Result]:
    """The copy, with a crash inside each call of the device: each loose sector as it was, or as it was last written."""
    cap, other = (pair[1].hex() for pair in seed_caps(SEED)[:2])
    shell = ["shell", INODE, "0", cap, "low"]
    program.run([image, "format", str(BLOCKS), "1", str(2 * BLOCKS), "2", SEED.hex()], b"")
    lines = taken(other)
    full = program.run([image, "run", "low"], text_of(lines))
    if full.out.count(b"\n") != len(lines) or b"no " in full.out:
        yield failed("a disk that is full but for some blocks", repr(full.out[-80:]))
        return
    piece = (b"\x61" * PIECE).hex()
    made = program.run([image, *shell], text_of(["mkfs", "put /a -"] + [f"append /a {piece}"] * PIECES))
    if made.out != b"ok\n" * (PIECES + 2):
        yield failed("a file of far blocks", repr(made.out[-80:]))
        return
    medium = Medium(image.read_bytes())
    before = seen(medium.image({}))
    recording = recorder.run(image, shell, text_of(["cp /a /b"]))
    if recording.out != b"ok\n":
        yield failed("a copy of far blocks", repr(recording.out[:80]))
        return
    stops, on_the_way = 0, 0
    for number, progress in moments(medium, recording.events):
        if number % EACH:
            continue
        for choices in ({}, {sector: written(medium, sector, len(was) - 1) for sector, was in medium.loose.items()}):
            stops += 1
            found = seen(medium.image(choices))
            allowed = [NEW] if progress.sent == 3 else [OLD, NEW]
            if found.tree not in allowed:
                yield failed(f"stopped at call {number + 1}", f"the tree is {found.tree!r}"[:200])
            on_the_way += found.tree == OLD and found.pointers > before.pointers
    # Some images have pointers of the copy already, which the tree doesn't name: so it was more than one commit.
    if not on_the_way:
        yield failed("a copy of far blocks", "no image is of a commit within it")
    yield passed(f"a copy that fills a batch: {stops} images, {on_the_way} of them within it")


def run(context: Context) -> Iterator[Result]:
    """All of it, where there is a recorder."""
    try:
        recorder = Recorder(context.program, context.compiler or "cc", context.folder)
    except NoRecorder as no_recorder:
        yield skipped("a copy that fills a batch", str(no_recorder))
        return
    yield from stopped_results(recorder, Program(context.program), context.folder / "batches.img")

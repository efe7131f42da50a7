"""The commands `audit` and `verify` (docs/FORMAT.md, "Certificates"): worked disks, each answer at its least block and
pair; graphs drawn at random with certificates that are spoiled, against a model; lines in every form and cut
everywhere; the disk that a load of 2,000 requests leaves; and a chain of a million blocks.
"""

from __future__ import annotations

import random
from pathlib import Path
from typing import Iterator, List, Sequence, Tuple

from certificates import Entry, answer_to, certificate_of, entries_of, line_of
from disk_model import Geometry, Pair, World
from image_reader import read_image
from image_writer import Image
from large_images import LargeImage, numbers_of
from parts import Context, Result, compared, failed, passed
from program import Program, write_image

NAME = "audit"
R, W = "aa" * 16, "bb" * 16
SEED = "00" * 32
ROOT = b"block 0 depth 0 parent -\n"
CHAIN = ROOT + b"block 1 depth 1 parent 0\nblock 2 depth 2 parent 1\nblock 3 depth 3 parent 2\n"
LONG = 8401
GRAPHS, SPOILED = 60, 12
LARGE = 1 << 20
SIZES: Sequence[Sequence[int]] = ((1,), (7,), (25,), (26, 24), (512,), (3, 1, 1000))

# Certificates of the chain 0 -> 1 -> 2 -> 3 on a disk of eight blocks, and the answers.
ANSWERS: Sequence[Tuple[bytes, bytes]] = (
    (CHAIN, b"yes 4"),
    (CHAIN[:-1], b"yes 4"),
    (CHAIN.rsplit(b"block", 1)[0], b"no open 2 3"),
    (CHAIN.replace(b"depth 3", b"depth 2"), b"no entry 3"),
    (b"", b"no primary 0"),
    (ROOT, b"no open 0 1"),
    (CHAIN[len(ROOT):], b"no primary 0"),
    (ROOT.replace(b"depth 0", b"depth 1"), b"no entry 0"),
    (ROOT.replace(b"-", b"0"), b"no entry 0"),
    (CHAIN.replace(b"parent 2", b"parent 1"), b"no entry 3"),
    (CHAIN.replace(b"parent 2", b"parent -"), b"no entry 3"),
    (CHAIN.replace(b"parent 2", b"parent 7"), b"no entry 3"),
    (CHAIN.replace(b"parent 2", b"parent 4294967295"), b"no entry 3"),
    (CHAIN.replace(b"depth 2", b"depth 4294967295"), b"no entry 2"),
    (CHAIN.replace(b"block 1 depth 1 parent 0\n", b""), b"no entry 2"),
    (CHAIN + b"block 4 depth 1 parent 0\n", b"no entry 4"),
    (CHAIN + b"block 8 depth 1 parent 0\n", b"no form 5"),
    (CHAIN + b"block 3 depth 3 parent 2\n", b"no form 5"),
    (CHAIN + b"block 2 depth 2 parent 1\n", b"no form 5"),
    (CHAIN + ROOT, b"no form 5"),
    (ROOT + ROOT, b"no form 2"),
    (b"\n" + CHAIN, b"no form 1"),
    (CHAIN + b"\n", b"no form 5"),
    (CHAIN.replace(b"\n", b"\r\n"), b"no form 1"),
    (b"block 00 depth 0000000000 parent -\nblock 0000000001 depth 01 parent 00\n" + CHAIN[50:], b"yes 4"),
    (b"no\n" + CHAIN + b"no", b"no form 1"),
    (b"block 9 depth 0 parent -\n" + CHAIN, b"no form 1"),
    (ROOT + b"x" * LONG + b"\n" + CHAIN, b"no form 2"),
    (ROOT + b"x" * 3 * LONG, b"no form 2"),
)

# Lines that aren't of the form.
UNSPELLED: Sequence[bytes] = (
    b"block", b"block 0", b"block 0 depth 0", b"block 0 depth 0 parent", b"block 0 depth 0 parent ", b" " + ROOT[:-1],
    b"block  0 depth 0 parent -", ROOT[:-1] + b" ", ROOT[:-1] + b" -", ROOT[:-1] + b"\0", b"Block 0 depth 0 parent -",
    b"block 0 parent - depth 0", b"block - depth 0 parent -", b"block 0 depth - parent -", b"block +0 depth 0 parent -",
    b"block 0 depth 0 parent --", b"block 0 depth 0 parent 4294967296", b"block 4294967296 depth 0 parent -",
    b"block 00000000000 depth 0 parent -", b"block 0 depth 99999999999 parent -", b"block 0 depth 0x0 parent -",
    b"block \xd9\xa0 depth 0 parent -", b"block 0\tdepth 0 parent -", b"blocks 0 depth 0 parent -", b"\xff", b"-", b" ",
    b"block 0 depth 0 parent -" + b" " * LONG, b"block 0 depth 0 parent " + b"0" * LONG,
)


def world_of(blocks: int, primaries: int, pairs: Sequence[Pair]) -> World:
    """A world of these pointers, whose blocks are empty."""
    live = set(range(primaries)) | {block for pair in pairs for block in pair}
    records = (bytes.fromhex(R + W),) * primaries
    contents = {block: bytes(512) for block in live}
    return World(Geometry(1, blocks, primaries, 4 * blocks), 1, contents, set(pairs), records)


def lay(path: Path, world: World) -> None:
    """Writes the image of a world."""
    write_image(path, bytes(Image(world).bytes))


def both_results(name: str, path: Path, world: World, program: Program) -> Iterator[Result]:
    """`audit` tells what the model does, `verify` answers that yes, and the image stays as it is."""
    lay(path, world)
    before = path.read_bytes()
    wanted = certificate_of(world)
    run = program.run([path, "audit"])
    yield compared(f"the certificate of {name}", (0, wanted, b""), tuple(run))
    run = program.run([path, "verify"], wanted)
    yield compared(f"{name}, verified", (0, b"yes %d\n" % wanted.count(b"\n"), b""), tuple(run))
    yield compared(f"{name} stays as it is", before, path.read_bytes())


def chain_results(path: Path, program: Program) -> Iterator[Result]:
    """A chain of four blocks that requests made, each answer to its certificate, and lines cut everywhere."""
    shown = [W.encode(), b"-", b"-"]
    lines = [b"open 1"] + [b"alloc 1 %d %s %d 1" % (block, shown[block], block + 1) for block in range(3)]
    run = program.run([path, "fresh", "8", "1", R, W, "near"], b"\n".join(lines) + b"\n")
    yield compared("a chain is made", (0, b"ok\nblocks 1\nblocks 2\nblocks 3\n"), (run.status, run.out))
    run = program.run([path, "audit"])
    yield compared("the certificate of a chain", (0, CHAIN, b""), tuple(run))
    world = read_image(path.read_bytes())
    for text, answer in ANSWERS:
        yield compared(f"the model, {text!r:.60}", answer + b"\n", answer_to(text, world))
        run = program.run([path, "verify"], text)
        yield compared(f"verify, {text!r:.60}", (0, answer + b"\n", b""), tuple(run))
        cuts = [sizes for sizes in SIZES if len(text) < 1000 or sizes > (1,)]
        found = [tuple(program.run_in_pieces([path, "verify"], text, sizes)) for sizes in cuts]
        yield compared(f"in pieces, {text!r:.60}", [(0, answer + b"\n", b"")] * len(found), found)
    for line in UNSPELLED:
        texts = (line, line + b"\n", CHAIN + line, CHAIN + line + b"\n" + CHAIN)
        found = [program.run([path, "verify"], text).out for text in texts]
        yield compared(f"no form, {line!r:.60}", [b"no form 1\n"] * 2 + [b"no form 5\n"] * 2, found)


def cycle_results(path: Path, program: Program) -> Iterator[Result]:
    """A cycle that nothing reaches, made by requests, isn't told, and a certificate that lists it isn't good."""
    text = f"open 1\nalloc 1 0 {W} - 1\nalloc 1 1 - - 1\ncreate 1 2 - 1\ndelete 1 0 {W} 1\n".encode()
    run = program.run([path, "fresh", "8", "1", R, W, "low"], text)
    yield compared("a cycle is made", b"ok\nblocks 1\nblocks 2\nok\ngone 0\n", run.out)
    yield compared("the certificate beside a cycle", (0, ROOT, b""), tuple(program.run([path, "audit"])))
    cycle = ROOT + b"block 1 depth 1 parent 2\nblock 2 depth 2 parent 1\n"
    yield compared("a cycle, listed", (0, b"no entry 1\n", b""), tuple(program.run([path, "verify"], cycle)))
    cycle += b"block 2 depth 2 parent 1\n"
    yield compared("a cycle, listed twice", (0, b"no form 4\n", b""), tuple(program.run([path, "verify"], cycle)))


# Worlds of a few blocks: what they show, how many blocks and primary blocks, and the pointers.
WORLDS: Sequence[Tuple[str, int, int, Sequence[Pair]]] = (
    ("an empty disk", 8, 1, ()),
    ("two parents of one depth", 8, 3, ((1, 4), (2, 4), (0, 5), (5, 6), (4, 6), (4, 7), (7, 7))),
    ("a pointer to itself", 8, 1, ((0, 1), (1, 1), (1, 2), (2, 1))),
    ("sixteen primary blocks", 20, 16, tuple((15 - block % 16, 16 + block % 4) for block in range(16))),
    ("a cycle that nothing reaches", 8, 1, ((0, 1), (2, 3), (3, 2), (3, 1), (2, 2))),
    ("a cycle that leads to what is reached", 8, 2, ((1, 7), (2, 2), (2, 7), (7, 3))),
    ("a short way beside a long one", 10, 1, ((0, 9), (9, 8), (8, 7), (7, 6), (0, 5), (5, 6), (6, 1))),
    ("all blocks in a ring", 8, 1, tuple((block, block + 1) for block in range(7)) + ((7, 1),)),
)


def drawn_world(numbers: random.Random) -> World:
    """A world drawn at random: each live block that isn't primary has a pointer to it from a live one."""
    primaries = numbers.choice((1, 1, 2, 5, 16))
    blocks = numbers.randrange(max(8, primaries + 1), 64)
    others = numbers.sample(range(primaries, blocks), numbers.randrange(blocks - primaries + 1))
    live = list(range(primaries)) + others
    pairs = {(numbers.choice(live), block) for block in others}
    pairs |= {(numbers.choice(live), numbers.choice(others)) for _ in range(numbers.randrange(2 * len(live))) if others}
    return world_of(blocks, primaries, sorted(pairs))


def spoiled(numbers: random.Random, world: World) -> bytes:
    """A certificate of a world with one thing or a few changed."""
    entries = entries_of(world.pairs, world.geometry.p)
    rows = [(block, *entries[block]) for block in sorted(entries)]
    for _ in range(numbers.randrange(1, 4)):
        at = numbers.randrange(len(rows)) if rows else 0
        kind = numbers.randrange(6)
        if kind == 0 or not rows:
            rows[at:at + 1] = []
        elif kind == 1:
            rows[at] = (rows[at][0], max(0, rows[at][1] + numbers.choice((-1, 1))), rows[at][2])
        elif kind == 2:
            rows[at] = (*rows[at][:2], numbers.choice([None, *range(world.geometry.n + 1)]))
        elif kind == 3:
            new = numbers.randrange(world.geometry.n)
            row = (new, numbers.randrange(4), numbers.randrange(world.geometry.n))
            rows = sorted({row[0]: row for row in [*rows, row]}.values())
        elif kind == 4 and numbers.randrange(4) == 0:
            rows.insert(at, rows[at])
        elif kind == 5:
            source, target = numbers.choice(sorted(world.pairs) or [(0, 0)])
            depth = next((row[1] for row in rows if row[0] == source), 0)
            rows = [row if row[0] != target else (target, depth + 1, source) for row in rows]
    return b"".join(line_of(block, Entry(depth, parent)) for block, depth, parent in rows)


def drawn_results(context: Context, path: Path, program: Program) -> Iterator[Result]:
    """Worlds drawn at random, and certificates of them that are spoiled: the answers are those of the model."""
    numbers = context.random(NAME)
    for case in range(GRAPHS):
        world = drawn_world(numbers)
        yield from both_results(f"drawn world {case}", path, world, program)
        texts = [spoiled(numbers, world) for _ in range(SPOILED)]
        found = [program.run([path, "verify"], text).out for text in texts]
        wanted = [answer_to(text, world) for text in texts]
        wrong = [row for row in zip(texts, wanted, found) if row[1] != row[2]]
        name = f"drawn world {case}, spoiled certificates"
        yield failed(name, f"{sorted(world.pairs)} {wrong[0]}") if wrong else passed(name)


def load_results(path: Path, program: Program) -> Iterator[Result]:
    """The disk that a load of 2,000 requests leaves."""
    program.run([path, "format", "64", "1", "256", "2", SEED])
    run = program.run([path, "load", SEED, "2000", "zone"])
    yield compared("a load", 0, run.status)
    world = read_image(path.read_bytes())
    text = certificate_of(world)
    yield compared("the certificate after a load", (0, text, b""), tuple(program.run([path, "audit"])))
    yes = b"yes %d\n" % text.count(b"\n")
    yield compared("it is answered yes", (0, yes, b""), tuple(program.run([path, "verify"], text)))


def mirror_results(folder: Path, program: Program) -> Iterator[Result]:
    """Through a mirror both commands answer as over one image."""
    one, two = folder / "one.img", folder / "two.img"
    lay(one, world_of(8, 1, ((0, 1), (1, 2), (2, 3))))
    run = program.run(["mirror", one, two, "audit"])
    is_copied = run.error.startswith(b"tsd: %b: " % bytes(two)) and b" sectors were copied to it from " in run.error
    yield compared("a certificate of a mirror", (0, CHAIN, True), (run.status, run.out, is_copied))
    verified = tuple(program.run(["mirror", one, two, "verify"], CHAIN))
    yield compared("verified on a mirror", (0, b"yes 4\n", b""), verified)
    yield compared("the copy, verified alone", (0, b"yes 4\n", b""), tuple(program.run([two, "verify"], CHAIN)))


def large_results(path: Path, program: Program) -> Iterator[Result]:
    """A chain of a million blocks."""
    image = LargeImage(LARGE)
    image.set_live(LARGE)
    image.put_pairs(numbers_of(range(LARGE - 1)), numbers_of(range(1, LARGE)))
    image.write(path)
    text = ROOT + b"".join(b"block %d depth %d parent %d\n" % (block, block, block - 1) for block in range(1, LARGE))
    run = program.run([path, "audit"])
    found = passed("a chain of a million") if (run.status, run.out) == (0, text) else failed(
        "a chain of a million", f"{run.status} {run.error!r}, {len(run.out)} bytes")
    yield found
    verified = tuple(program.run([path, "verify"], text))
    yield compared("a chain of a million, verified", (0, b"yes %d\n" % LARGE, b""), verified)
    cut = text[:text.rindex(b"block")]
    refused = b"no open %d %d\n" % (LARGE - 2, LARGE - 1)
    yield compared("without its last block", refused, program.run([path, "verify"], cut).out)


def run(context: Context) -> Iterator[Result]:
    """See the head of this file."""
    program, path = Program(context.program), context.folder / "disk.img"
    yield from chain_results(path, program)
    path.unlink()
    yield from cycle_results(path, program)
    for name, blocks, primaries, pairs in WORLDS:
        yield from both_results(name, path, world_of(blocks, primaries, pairs), program)
    yield from drawn_results(context, path, program)
    path.unlink()
    yield from load_results(path, program)
    yield from mirror_results(context.folder, program)
    path.unlink()
    yield from large_results(path, program)

"""Runs whose replies were worked out by hand from docs/MODEL.md, and loads whose lines were worked out apart; by the
program and by the model.
"""

from __future__ import annotations

from typing import Dict, Iterator, List, NamedTuple, Tuple

from disk_model import Disk, parse_line, reply_line, seed_caps
from parts import Context, Result, compared
from program import Program

SEED = "00" * 32
READ_CAP, WRITE_CAP = seed_caps(bytes(32))[0]


class Written(NamedTuple):
    """A disk by the words of `format` (blocks, sectors, slots, primary blocks), and the lines with their replies; W is
    the capability to write of block 0."""

    name: str
    size: Tuple[int, int, int, int]
    lines: List[Tuple[str, str]]


def blocks(numbers: range) -> str:
    """The reply with these blocks."""
    return " ".join(["blocks", *map(str, numbers)])


RUNS = [
    Written("pointers of doomed blocks take no room", (8, 1, 5, 1), [
        ("open 1", "ok"),
        ("alloc 1 0 W - 3", "blocks 1 2 3"),
        ("alloc 1 1 - - 2", "blocks 4 5"),
        ("create 1 2 - 3", "no pointers-full 5 5"),
        ("alloc 1 2 - - 1", "no pointers-full 5 5"),
        ("delete 1 0 W 1", "gone 3"),
        ("create 1 2 - 3", "ok"),
        ("create 1 3 - 2", "ok"),
        ("create 1 2 - 2", "ok"),
        ("create 1 3 - 3", "no pointers-full 5 5"),
    ]),
    Written("bounds over 64 blocks", (64, 1, 256, 1), [
        ("open 1", "ok"),
        ("alloc 1 0 W - 0", "no bad-count"),
        ("alloc 1 0 W - 33", "no bad-count"),
        ("alloc 1 0 W - 32", blocks(range(1, 33))),
        ("open 65", "no bad-session"),
        ("open 0", "no bad-session"),
        ("open 1", "no already-open"),
        ("close 2", "no not-open"),
        ("read 1 64 -", "no no-such-block"),
        ("read 1 63 -", "no free-block"),
        ("alloc 1 0 W - 32", "no full 31 32"),
        ("free", "free 31"),
    ]),
    Written("all 64 sessions", (8, 1, 32, 1), [
        *[(f"open {session}", "ok") for session in range(1, 65)],
        ("alloc 64 0 W - 1", "blocks 1"),
        *[(f"read {session} 1 -", "no denied none read") for session in range(1, 64)],
        ("read 64 1 -", "data -"),
        *[(f"open {session}", "no already-open") for session in range(1, 65)],
        *[(f"close {session}", "ok") for session in range(1, 65)],
        ("read 64 1 -", "no not-open"),
        ("open 64", "ok"),
        ("read 64 1 -", "no denied none read"),
    ]),
]
# Of each disk (blocks, sectors, slots, primary blocks), number of requests and kind of placement, of a seed of zeros:
# granted, refused, free, pointers.
LOADS: Dict[Tuple[Tuple[int, int, int, int], int, str], Tuple[int, int, int, int]] = {
    ((4096, 1, 16384, 2), 20000, "near"): (13976, 6024, 0, 6639),
    ((64, 1, 256, 2), 2000, "zone"): (1197, 803, 0, 256),
}


def run_results(one: Written, context: Context, program: Program) -> Iterator[Result]:
    """One run by the program and by the model."""
    image = context.folder / "written.img"
    program.run([image, "format", *map(str, one.size), SEED])
    lines = [line.replace("W", WRITE_CAP.hex()).encode() for line, _ in one.lines]
    expected = [f"{reply}\n".encode() for _, reply in one.lines]
    run = program.run([image, "run", "near"], b"\n".join(lines))
    yield compared(one.name, (0, b"".join(expected), b""), tuple(run))
    n, k, m, p = one.size
    disk = Disk.formatted(n, k, m, p, bytes(32), "near")
    yield compared(f"{one.name}, by the model", expected, [reply_line(disk.apply(parse_line(line))) for line in lines])


def load_results(context: Context, program: Program) -> Iterator[Result]:
    """The loads; all blocks are live afterwards."""
    image = context.folder / "load.img"
    for (size, count, place), (granted, refused, free, pointers) in LOADS.items():
        line = f"load {count} granted {granted} refused {refused} free {free} pointers {pointers}\n"
        program.run([image, "format", *map(str, size), SEED])
        run = program.run([image, "load", SEED, str(count), place])
        yield compared(f"{count} requests of a load over {size[0]} blocks", (0, line.encode(), b""), tuple(run))
        clean = f"clean {size[0] - free} {free} {pointers}\n".encode()
        yield compared(f"check after {count} requests", (0, clean, b""), tuple(program.run([image, "check"])))


def results(context: Context, program: Program) -> Iterator[Result]:
    """A result for each run."""
    for one in RUNS:
        yield from run_results(one, context, program)
    yield from load_results(context, program)

"""Graphs that are large at one place: hubs of many targets and of many sources, whose pairs are taken away and put back
in ascending, descending and drawn order, with lists from numbers that aren't held between; and sweeps of a disk of
which half is lost in cycles. What is tried is that the replies are right, and that each run comes within a minute.
"""

from __future__ import annotations

import random
from pathlib import Path
from typing import Dict, Iterator, List, Tuple

from endings import is_checked
from large import in_time
from large_images import READ_CAP, WRITE_CAP, LargeImage, mixed, numbers_of
from parts import Context, Result
from program import Program

NAME = "hubs"
R, W = READ_CAP.hex(), WRITE_CAP.hex()
# How many targets a hub has, and how many of its pairs are changed in each order.
HUB, CHANGED = 100000, 3000
CHECKED_HUB, CHECKED_CHANGED = 3000, 300
# So many pairs of the hub of sources are made again.
CREATED = 10
LISTED = 64
SWEPT = (6144, 49152)
CHECKED_SWEPT = (1536,)

Rows = List[Tuple[str, str]]


def hub_image(path: Path, targets: int) -> int:
    """Block 0 leads to all blocks up to this one, and block 1 too, but not to itself; all of them lead to block 1. The
    pairs stand in no order. How many blocks the disk has."""
    blocks = 1 << targets.bit_length()
    image = LargeImage(blocks)
    image.set_live(targets + 1)
    sources = [0] * targets + [1] * (targets - 1) + list(range(2, targets + 1))
    ends = list(range(1, targets + 1)) + list(range(2, targets + 1)) + [1] * (targets - 1)
    image.put_pairs(mixed(numbers_of(sources)), mixed(numbers_of(ends)))
    image.write(path)
    return blocks


def orders_of(rng: random.Random, targets: int, changed: int) -> Dict[str, List[int]]:
    """Some targets from 2 on in each order."""
    return {
        "ascending": list(range(2, changed + 2)),
        "descending": list(range(targets, targets - changed, -1)),
        "drawn": rng.sample(range(2, targets + 1), changed),
    }


def listed(held: List[int], start: int) -> str:
    """The reply to a list from a number on."""
    targets = [str(target) for target in held if target >= start][:LISTED]
    return " ".join(["list", *(targets or ["-"])])


def access_rows(targets: int) -> Rows:
    """What sessions that hold few blocks attain at the hub of sources: from its first source, from its last one where
    the first leads to it no more, and from none of them."""
    denied = "no denied none read"
    return [
        ("open 2", "ok"),
        ("read 2 1 -", denied),
        (f"read 2 0 {R}", "data -"),
        ("read 2 1 -", "data -"),
        ("create 2 1 - 2", "no denied read write"),
        ("close 2", "ok"),
        ("open 2", "ok"),
        (f"delete 1 0 {W} 1", "gone 0"),
        (f"read 2 0 {R}", "data -"),
        ("read 2 1 -", denied),
        (f"read 2 {targets} -", "data -"),
        ("read 2 1 -", "data -"),
        (f"write 2 0 {W} -", "ok"),
        ("create 2 1 - 1", "no denied read write"),
        (f"write 2 {targets} - -", "ok"),
        ("create 2 1 - 1", "ok"),
        ("delete 2 1 - 1", "gone 0"),
        (f"create 2 0 {W} 1", "ok"),
        ("close 2", "ok"),
    ]


def hub_rows(order: List[int], targets: int) -> Rows:
    """Pairs of the hub of targets are deleted in this order, and made again in it; between them the hub is listed from
    targets that it hasn't any more. Then pairs of the hub of sources are deleted in it, and the first ones made
    again."""
    gone = set(order)
    held = [target for target in range(1, targets + 1) if target not in gone]
    starts = order[::len(order) // 20]
    return [
        *access_rows(targets),
        *((f"delete 1 0 {W} {target}", "gone 0") for target in order),
        *((f"list 1 0 {R} {start}", listed(held, start)) for start in starts),
        *((f"create 1 0 {W} {target}", "ok") for target in order),
        *((f"delete 1 {source} - 1", "gone 0") for source in order),
        *((f"create 1 {source} - 1", "ok") for source in order[:CREATED]),
    ]


def hub_results(context: Context, program: Program) -> Iterator[Result]:
    """Hubs in each order."""
    path, is_slow = context.folder / "hub.img", is_checked(program)
    targets, changed = (CHECKED_HUB, CHECKED_CHANGED) if is_slow else (HUB, CHANGED)
    for name, order in orders_of(context.random("hubs"), targets, changed).items():
        blocks = hub_image(path, targets)
        touch = [(f"write 1 0 {W} -", "ok"), ("write 1 1 - -", "ok")]
        rows = [("open 1", "ok"), *touch, *hub_rows(order, targets)]
        text = "".join(f"{line}\n" for line, _ in rows).encode()
        replies = "".join(f"{reply}\n" for _, reply in rows).encode()
        told = f"a hub of {targets} targets and sources, {name}: {len(rows)} requests"
        yield in_time(told, (0, replies, b""), lambda text=text: program.run([path, "run", "low"], text))
        pairs = 3 * targets - 2 - changed + CREATED
        clean = f"clean {targets + 1} {blocks - targets - 1} {pairs}\n".encode()
        yield in_time(f"{told}: check", (0, clean, b""), lambda: program.run([path, "check"]))
    path.unlink()


def lost_image(path: Path, lost: int) -> int:
    """Block 0 leads to half of the blocks; the others are lost in cycles of three, each of which leads to the next one
    and to block 1. How many blocks the disk has."""
    blocks, first = 4 * lost // 3 * 2, 4 * lost // 3
    image = LargeImage(blocks)
    image.set_live(first + lost)
    sources, targets = [0] * (first - 1), list(range(1, first))
    for one in range(first, first + lost, 3):
        behind = one + 3 if one + 3 < first + lost else first
        sources += [one, one + 1, one + 2, one, one]
        targets += [one + 1, one + 2, one, behind, 1]
    image.put_pairs(mixed(numbers_of(sources)), mixed(numbers_of(targets)))
    image.write(path)
    return blocks


def sweep_results(context: Context, program: Program) -> Iterator[Result]:
    """Disks of which many blocks are lost in cycles."""
    path = context.folder / "lost.img"
    for lost in CHECKED_SWEPT if is_checked(program) else SWEPT:
        blocks = lost_image(path, lost)
        kept = 4 * lost // 3
        free = blocks - kept - lost
        lines = f"open 1\nfree\nsweep 1 {W}\nfree\nsweep 1 {W}\n".encode()
        replies = f"ok\nfree {free}\ngone {lost}\nfree {free + lost}\ngone 0\n".encode()
        name = f"{lost} blocks lost in cycles"
        yield in_time(name, (0, replies, b""), lambda: program.run([path, "run", "low"], lines))
        clean = f"clean {kept} {free + lost} {kept - 1}\n".encode()
        yield in_time(f"{name}: check", (0, clean, b""), lambda: program.run([path, "check"]))
    path.unlink()


def run(context: Context) -> Iterator[Result]:
    """Hubs, and sweeps."""
    program = Program(context.program)
    yield from hub_results(context, program)
    yield from sweep_results(context, program)

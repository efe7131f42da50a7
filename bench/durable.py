"""Durable WRITEs, on the disk and in memory, against plain calls of the system and against SQLite; and how much of a
run on the disk is the disk's."""

from __future__ import annotations

import os
from pathlib import Path
from statistics import median
from typing import Dict, Iterator, List, Optional, Tuple

from trials import WRITE, Place, Row, Rows, Sqlite, Talk, call, fresh, timed

BLOCKS = 1_000
MEBIBYTE = 1 << 20
ROUNDS, ON_DISK, IN_MEMORY = 5, 100, 1_000
SHARE_ROUNDS = 3


def frames(image: Path, count: int) -> Optional[float]:
    """The seconds of so many writes in frames; none where they aren't granted."""
    def frame(body: bytes) -> bytes:
        return len(body).to_bytes(2, "little") + body
    begin = frame(bytes([1]) + (1).to_bytes(4, "little"))
    body = bytes([4]) + (1).to_bytes(4, "little") + bytes(4) + b"\x01" + bytes.fromhex(WRITE) + b"hi"
    words = [image, "serve", "low"]
    if len(call(words, begin + frame(body))) != 6:
        return None
    empty = timed(lambda: call(words, begin))
    return max(timed(lambda: call(words, begin + frame(body) * count)) - empty, 1e-9)


def plain(path: Path, count: int, writes: int) -> float:
    """The seconds of so many rounds of writes of a sector, each with its sync."""
    file = os.open(path, os.O_RDWR | os.O_CREAT, 0o600)
    os.pwrite(file, bytes(MEBIBYTE), 0)
    os.fsync(file)

    def rounds() -> None:
        for number in range(count):
            for part in range(writes):
                os.pwrite(file, bytes(512), 512 * (number + part) % MEBIBYTE)
                os.fdatasync(file)

    taken = timed(rounds)
    os.close(file)
    return taken


def sqlite(path: Path, count: int, is_settled: bool) -> float:
    """The seconds of so many updates of a row."""
    rows_of = Sqlite(path, is_settled)
    taken = timed(lambda: rows_of.update(count))
    rows_of.close()
    return taken


def writes_of(count: int) -> list[str]:
    """Lines that write a block."""
    return [f"write 1 0 {WRITE} {number % 256:02x}" for number in range(count)]


def in_lines(image: Path, count: int) -> float:
    """The seconds of so many writes in lines."""
    with Talk(image, "run", "low") as talk:
        return talk.ask(writes_of(count), b"ok")


def one_round(folder: Path, count: int) -> Iterator[Tuple[str, float]]:
    """What is measured in a round, each beside the others: requests a second, and ratios."""
    image = fresh(folder / "disk.img", BLOCKS)
    run, serve = in_lines(image, count), frames(image, count)
    others = {
        "one write and one sync": plain(folder / "plain1", count, 1),
        "two writes and two syncs": plain(folder / "plain2", count, 2),
        "SQLite, its log fresh and growing": sqlite(folder / "fresh.db", count, False),
        "SQLite, its log at its full length": sqlite(folder / "settled.db", count, True),
    }
    for name, taken in (("run", run), ("serve", serve)):
        if taken is None:
            continue
        yield f"WRITE by `{name}`, requests a second", count / taken
        for other, seconds in others.items():
            yield f"`{name}` against {other}", seconds / taken
    for path in folder.iterdir():
        path.unlink()


def against(folder: Path, where: str, count: int) -> Rows:
    """The medians of rounds."""
    found: Dict[str, List[float]] = {}
    for _ in range(ROUNDS):
        for name, value in one_round(folder, count):
            found.setdefault(name, []).append(value)
    for name, values in found.items():
        value = median(values)
        yield Row(f"{where}: {name}", f"{value:,.0f}" if "a second" in name else f"{value:.2f}")


def share(place: Place) -> Row:
    """What a run on the disk takes longer than one in memory, as a part of it."""
    disk, memory = (fresh(folder / "share.img", BLOCKS) for folder in (place.disk, place.memory))
    parts = [1 - in_lines(memory, ON_DISK) / in_lines(disk, ON_DISK) for _ in range(SHARE_ROUNDS)]
    return Row("on the disk: of a run of WRITEs, the disk's part", f"{median(parts):.1%}")


def rows(place: Place) -> Rows:
    """On the disk, in memory, and one beside the other."""
    yield from against(place.disk, "on the disk", ON_DISK)
    yield from against(place.memory, "in memory", IN_MEMORY)
    yield share(place)

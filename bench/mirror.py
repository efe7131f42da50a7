"""Two images as one disk: how long it takes to copy one to the other, and a run of durable WRITEs over both against one
over one image."""

from __future__ import annotations

import os
import shutil
from pathlib import Path
from statistics import median
from typing import Callable, Iterator, Tuple

from durable import writes_of
from trials import PIECE, Place, Row, Rows, Talk, call, fresh, left_out, micros, spent

MEBIBYTE = 1 << 20
BLOCKS = 1_000
COPIED_SECTORS = 8
COPIED_BLOCK = 512 * COPIED_SECTORS
ON_DISK, IN_MEMORY = 200, 10_000
TURNS = 7


def filled(image: Path, byte: int) -> None:
    """A file of the same size full of such bytes, but for the part that stays as it is: a disk's tables."""
    size, piece = image.stat().st_size, bytes([byte]) * (16 * PIECE)
    with image.open("r+b", buffering=0) as file:
        file.seek(size // 16)
        while file.tell() < size:
            file.write(piece[:size - file.tell()])


def copied(first: Path, second: Path) -> float:
    """The seconds of a processor that copying takes; the `check` behind it takes next to none."""
    return spent("mirror", first, second, "check").seconds


def copying(place: Place) -> Rows:
    """From a sparse image to a sparse one; to one that differs everywhere; to one that is equal."""
    name = f"a mirror, in memory: copying {place.copied:,} MiB"
    size = place.copied * MEBIBYTE
    if shutil.disk_usage(place.memory).free < 3 * size:
        yield left_out(name, f"less than {3 * place.copied:,} MiB is free there")
        return
    first, second = (place.memory / f"{side}.img" for side in ("first", "second"))
    call([first, "format", size // COPIED_BLOCK, COPIED_SECTORS, 1_000, 1, "0" * 64])
    os.truncate(first, size)
    yield Row(f"{name}: sparse, s of a processor", f"{copied(first, second):.2f}")
    filled(first, 0x55)
    filled(second, 0xAA)
    yield Row(f"{name}: all of it differs, s of a processor", f"{copied(first, second):.1f}")
    yield Row(f"{name}: all of it is equal, s of a processor", f"{copied(first, second):.1f}")
    for image in (first, second):
        image.unlink()


def turns(folder: Path, count: int, time_of: Callable[..., float]) -> Iterator[Tuple[float, float]]:
    """The seconds of a run over one image and of one over two, in turns, since the load of a machine changes."""
    lines = writes_of(count)
    alone, first, second = (fresh(folder / f"{name}.img", BLOCKS) for name in ("alone", "first", "second"))
    for _ in range(TURNS):
        with Talk(alone, "run", "low") as talk:
            of_one = time_of(talk, lines, b"ok")
        with Talk("mirror", first, second, "run", "low") as talk:
            yield of_one, time_of(talk, lines, b"ok")


def over_two(folder: Path, count: int, time_of: Callable[..., float], name: str) -> Rows:
    """The time of a request, and the ratio."""
    taken = list(turns(folder, count, time_of))
    yield Row(f"a mirror, {name}: WRITE by `run`, µs", f"{micros(median(two for _, two in taken), count):,.1f}")
    yield Row(f"a mirror, {name}: against one image", f"{median(two / one for one, two in taken):.2f}")


def rows(place: Place) -> Rows:
    """Runs and copies."""
    yield from over_two(place.memory, IN_MEMORY, Talk.work, "in memory, time of a processor")
    yield from over_two(place.disk, ON_DISK, Talk.ask, "both on one disk")
    yield from copying(place)

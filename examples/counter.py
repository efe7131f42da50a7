#!/usr/bin/env python3
"""Four programs add to one number through a hub, and no addition is lost: counter.md tells more."""

from __future__ import annotations

import multiprocessing
import os
import subprocess
import sys
import tempfile
import time
from pathlib import Path
from typing import Tuple

TOP = Path(__file__).resolve().parent.parent
sys.path.insert(0, str(TOP / "python"))

import tsd  # noqa: E402

PROGRAMS, ADDITIONS = 4, 50
SECONDS = 60
Blocks = Tuple[int, int]


def number_in(session: tsd.Session, block: int) -> int:
    """The number that a block has."""
    return int.from_bytes(session.read(block)[:8], "little")


def add(session: tsd.Session, blocks: Blocks, cap: tsd.Capability) -> None:
    """Adds one. Between the read and the write nobody else has the lock: the pointer from block 0 to the number."""
    with session.lock(0, blocks[1], cap):
        session.write(blocks[1], (number_in(session, blocks[1]) + 1).to_bytes(8, "little"))


def come_to(session: tsd.Session, blocks: Blocks, cap: tsd.Capability) -> None:
    """From block 0 to the block above the number, and so to the number itself."""
    session.read(0, cap)
    session.read(blocks[0])


def program(path: str, blocks: Blocks, cap: tsd.Capability) -> None:
    """A process of its own."""
    with tsd.connect(path) as disk, disk.session() as session:
        come_to(session, blocks, cap)
        for _ in range(ADDITIONS):
            add(session, blocks, cap)


def crash(path: str, blocks: Blocks, cap: tsd.Capability) -> None:
    """One that ends while it has the lock."""
    with tsd.connect(path) as disk, disk.session() as session:
        come_to(session, blocks, cap)
        session.lock(0, blocks[1], cap).__enter__()


def main(folder: Path) -> None:
    """Programs that come and go over a hub."""
    image, path = folder / "disk.img", str(folder / "disk.sock")
    [pair] = tsd.format_disk(image, blocks=64)
    hub = subprocess.Popen([sys.executable, str(TOP / "python/bin/tsd-hub"), str(image), "near", "--socket", path],
                           stderr=subprocess.DEVNULL)
    try:
        until = time.monotonic() + SECONDS
        while not os.path.exists(path) and time.monotonic() < until:
            time.sleep(0.01)
        with tsd.connect(path) as disk, disk.session() as session:
            [above] = session.alloc(0, 1, pair.write)
            [block] = session.alloc(above)
            blocks = (above, block)
            run(path, blocks, pair.write)
            print(f"{PROGRAMS} programs added {ADDITIONS} each: {number_in(session, block)}")
            crash(path, blocks, pair.write)
            come_to(session, blocks, pair.write)
            try:
                with session.lock(0, block, pair.write, limit=0.5):
                    pass
            except tsd.LockTaken as taken:
                print(taken)
            session.delete(0, block, pair.write)
            add(session, blocks, pair.write)
            print(f"its pointer is deleted: {number_in(session, block)}")
    finally:
        hub.terminate()
        hub.wait()


def run(path: str, blocks: Blocks, cap: tsd.Capability) -> None:
    """All programs at once."""
    processes = [multiprocessing.Process(target=program, args=(path, blocks, cap.share())) for _ in range(PROGRAMS)]
    for process in processes:
        process.start()
    for process in processes:
        process.join()


if __name__ == "__main__":
    with tempfile.TemporaryDirectory() as name:
        main(Path(name))

"""Files by the shell: durable puts beside SQLite's inserts of a blob, one after another, and appends to a file."""

from __future__ import annotations

import subprocess
from pathlib import Path
from statistics import median
from typing import Iterator

from trials import PROGRAM, READ, WRITE, Place, Row, Rows, Sqlite, Talk, call, timed

BLOCKS, SECTORS, ROUNDS, PUTS = 4_000, 8, 5, 100
BYTES = 100
PIECE, PIECES = 4_080, 75
KINDS = ("inode", "chain")


class Shell(Talk):
    """A shell over a fresh disk that is spoken to, with an empty tree."""

    def __init__(self, image: Path, kind: str) -> None:
        call([image, "fresh", BLOCKS, SECTORS, READ, WRITE, "near"])
        words = [PROGRAM, str(image), "shell", kind, "0", WRITE, "near"]
        self.process = subprocess.Popen(words, stdin=subprocess.PIPE, stdout=subprocess.PIPE, bufsize=0)
        self.ask(["mkfs"], b"ok")


def puts(shell: Shell, kind: str, number: int) -> float:
    """The seconds of puts of new files, each sent when the one before was answered: over inodes into a new directory,
    which takes no more than 127."""
    folder = ""
    if kind == "inode":
        folder = f"/d{number}"
        shell.ask([f"mkdir {folder}"], b"ok")
    lines = [f"put {folder}/f{number}_{at} {'61' * BYTES}" for at in range(PUTS)]
    return timed(lambda: [shell.ask([line], b"ok") for line in lines])


def against(folder: Path, where: str, kind: str) -> Iterator[Row]:
    """A put's time, divided by that of an insert: medians of rounds that take turns."""
    blobs = Sqlite(folder / f"{kind}.db")
    many = []
    with Shell(folder / f"{kind}.img", kind) as shell:
        for number in range(ROUNDS):
            taken = puts(shell, kind, number)
            many.append((PUTS / taken, taken / timed(lambda: blobs.insert(PUTS, BYTES))))
    speed, ratio = map(median, zip(*many))
    yield Row(f"{where}: `put` of {BYTES} bytes ({kind}), one at a time, a second", f"{speed:,.0f}")
    yield Row(f"{where}: its time against SQLite's insert of a blob, settled", f"{ratio:.2f}")


def appended(folder: Path, where: str, kind: str) -> Row:
    """A file that is put in by appends."""
    with Shell(folder / f"appends_{kind}.img", kind) as shell:
        shell.ask(["put /a -"], b"ok")
        taken = timed(lambda: [shell.ask([f"append /a {'61' * PIECE}"], b"ok") for _ in range(PIECES)])
    return Row(f"{where}: {PIECE * PIECES:,} bytes by appends of {PIECE:,} ({kind}), s", f"{taken:.2f}")


def rows(place: Place) -> Rows:
    """Both kinds, on the disk and in memory."""
    for folder, where in ((place.disk, "on the disk"), (place.memory, "in memory")):
        for kind in KINDS:
            yield from against(folder, where, kind)
            yield appended(folder, where, kind)

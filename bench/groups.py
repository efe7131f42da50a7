"""Group commit: WRITEs of a sector by `group`, 64 under way at once from one program, against `serve` and against
SQLite; one at a time against `serve`; and how many calls of the system and batches of the journal requests take that
were sent in one piece. A ratio is the median of rounds in which the two take turns."""

from __future__ import annotations

import os
import shutil
import subprocess
import sys
from pathlib import Path
from statistics import median
from typing import Iterator, List, Sequence

from recording import INPUT, PUT, READ, SYNC, WRITE as WRITTEN, NoRecorder, Recorder, Recording
from trials import (PROGRAM, READ as READ_CAP, SECTOR, WRITE, Place, Row, Rows, Sqlite, call, fresh, left_out, text_of,
                    timed)

BLOCKS, UNDER_WAY, ROUNDS = 1_000, 64, 5
TOGETHER, ALONE = 1_280, 300
CHAIN = 100_000
GATES = (2, *(115 + 2 * record for record in range(1, 8)))
DONE = b"\x01\x00\x01"


def frame(body: bytes) -> bytes:
    """A frame of this body."""
    return len(body).to_bytes(2, "little") + body


def shown(cap: str) -> bytes:
    """A capability that is shown."""
    return b"\x01" + bytes.fromhex(cap)


def write(number: int) -> bytes:
    """A WRITE of a sector to block 0, by session 1."""
    return frame(b"\x04" + (1).to_bytes(4, "little") + bytes(4) + shown(WRITE) + bytes([number % 256]) * SECTOR)


OPEN = frame(b"\x01" + (1).to_bytes(4, "little"))
READ_FRAME = frame(b"\x03" + (1).to_bytes(4, "little") + bytes(4) + shown(READ_CAP))


class Frames:
    """A run over frames that is spoken to, with session 1 open."""

    def __init__(self, image: Path, command: str) -> None:
        self.process = subprocess.Popen([PROGRAM, str(image), command, "low"], stdin=subprocess.PIPE,
                                        stdout=subprocess.PIPE, bufsize=0)
        self.ask(OPEN, 1)

    def ask(self, frames: bytes, count: int) -> None:
        """Sends frames and waits until each is done."""
        self.process.stdin.write(frames)
        answers = b""
        while len(answers) < len(DONE) * count:
            piece = os.read(self.process.stdout.fileno(), 1 << 16)
            if not piece:
                sys.exit(f"measure: the run ended with status {self.process.wait()}")
            answers += piece
        if answers != DONE * count:
            sys.exit(f"measure: {count} requests were answered by {answers[:60]!r}")

    def close(self) -> None:
        """Ends the run."""
        self.process.stdin.close()
        if self.process.wait():
            sys.exit("measure: a run failed")


def writes(talk: Frames, count: int, together: int) -> float:
    """The seconds of so many WRITEs, so many under way at once."""
    def all_of_them() -> None:
        for first in range(0, count, together):
            talk.ask(b"".join(map(write, range(first, first + together))), together)
    return timed(all_of_them)


def speeds(folder: Path, where: str) -> Rows:
    """Requests a second, and the ratios of the rounds."""
    talks = {name: Frames(fresh(folder / f"{name}.img", BLOCKS), name) for name in ("serve", "group")}
    rows = Sqlite(folder / "rows.db")
    many: List[Sequence[float]] = []
    alone: List[float] = []
    for _ in range(ROUNDS):
        serve, group = (writes(talks[name], TOGETHER, UNDER_WAY) for name in ("serve", "group"))
        many.append((TOGETHER / group, serve / group, timed(lambda: rows.update(ALONE)) / ALONE * TOGETHER / group))
        serve, group = (writes(talks[name], ALONE, 1) for name in ("serve", "group"))
        alone.append(group / serve)
    for talk in talks.values():
        talk.close()
    speed, against_serve, against_sqlite = map(median, zip(*many))
    yield Row(f"{where}: WRITE of a sector by `group`, {UNDER_WAY} under way, requests a second", f"{speed:,.0f}")
    yield Row(f"{where}: against `serve`", f"{against_serve:.1f}")
    yield Row(f"{where}: against SQLite, settled, a transaction each", f"{against_sqlite:.1f}")
    yield Row(f"{where}: one at a time, time against `serve`", f"{median(alone):.2f}")


def count_of(recording: Recording, *kinds: str) -> int:
    """How many calls of these kinds there were."""
    return sum(event.kind in kinds for event in recording.events)


def batches(recording: Recording) -> int:
    """How often a gate of the journal was opened."""
    return sum(event.kind == WRITTEN and event.offset // SECTOR in GATES and event.data[:1] == b"\x01"
               for event in recording.events)


def counted(folder: Path) -> Rows:
    """Calls and batches, by the recorder of tests/."""
    compiler = shutil.which("cc")
    try:
        recorder = Recorder(PROGRAM, compiler or "cc", folder)
        recorder.refuse_blindness(folder / "blind.img")
    except (NoRecorder, OSError) as why:
        yield left_out("calls and batches of `group`", str(why))
        return
    image = fresh(folder / "counted.img", BLOCKS)
    opening = count_of(recorder.run(image, ("group", "low"), OPEN), SYNC)
    recording = recorder.run(image, ("group", "low"), OPEN + b"".join(map(write, range(UNDER_WAY))))
    yield Row(f"syncs for {UNDER_WAY} WRITEs of a sector sent in one piece", f"{count_of(recording, SYNC) - opening}")
    recording = recorder.run(image, ("group", "low"), OPEN + READ_FRAME * UNDER_WAY)
    beside = count_of(recording, PUT, INPUT) / UNDER_WAY
    yield Row("READs sent in one piece: calls a READ beside those of the image", f"{beside:.2f}")
    yield from reclaimed(recorder, folder)


def reclaimed(recorder: Recorder, folder: Path) -> Iterator[Row]:
    """A long chain goes by one DELETE."""
    image = fresh(folder / "chain.img", CHAIN + 2)
    lines = ["open 1", f"alloc 1 0 {WRITE} - 1", *(f"alloc 1 {block} - - 1" for block in range(1, CHAIN))]
    call([image, "run", "low"], text_of(lines))
    delete = frame(b"\x09" + (1).to_bytes(4, "little") + bytes(4) + shown(WRITE) + (1).to_bytes(4, "little"))
    recording = recorder.run(image, ("group", "low"), OPEN + delete)
    yield Row(f"batches for a chain of {CHAIN:,} blocks that goes", f"{batches(recording):,}")


def rows(place: Place) -> Rows:
    """On the disk, in memory, and the counts."""
    yield from speeds(place.disk, "on the disk")
    yield from speeds(place.memory, "in memory")
    yield from counted(place.memory)

"""What the rows of bench/measure share: the program, images, runs that are spoken to, and times."""

from __future__ import annotations

import os
import sqlite3
import subprocess
import sys
import threading
import time
from pathlib import Path
from typing import Callable, Iterable, Iterator, List, NamedTuple, Optional, Sequence, Tuple, Union

TOP = Path(__file__).resolve().parent.parent
SHIPPED, BUILT = TOP / "dist/x86_64-linux/tsd", TOP / "crates/tsd_cli/out/tsd_cli"
PROGRAM = SHIPPED if SHIPPED.exists() else BUILT
MEMORY = Path("/dev/shm")
# (those of the images that tests/large_images.py lays)
READ, WRITE = "a" * 32, "b" * 32
LARGEST = 1_048_576
MILLION = 1_000_000
PIECE = 65_536
SECTOR = 512
# A log of SQLite has its full length behind so many pages.
SETTLED = 1_200


class Row(NamedTuple):
    """A row of the table."""

    name: str
    value: str


class Place(NamedTuple):
    """Where rows are measured: an empty folder on the disk, one in memory, and how many MiB a mirror copies."""

    disk: Path
    memory: Path
    copied: int


def left_out(name: str, why: str) -> Row:
    """A row that can't be measured here."""
    return Row(name, f"left out: {why}")


def timed(action: Callable[[], object]) -> float:
    """The seconds of an action."""
    began = time.perf_counter()
    action()
    return time.perf_counter() - began


def call(words: Sequence[object], data: bytes = b"") -> bytes:
    """Runs the program over an input, and gives what it sent; it has to be done."""
    return subprocess.run([PROGRAM, *map(str, words)], input=data, stdout=subprocess.PIPE, check=True).stdout


class Spent(NamedTuple):
    """What a run took: seconds of a processor, and at most so many MiB of memory."""

    seconds: float
    peak: float


# Runs a command, and prints what it took. The most memory of a process counts that of the one that began it up to then,
# so this one is a small one.
LAUNCHER = """
import os, subprocess, sys
process = subprocess.Popen(sys.argv[1:], stdout=subprocess.DEVNULL)
_, status, usage = os.wait4(process.pid, 0)
process.returncode = os.waitstatus_to_exitcode(status)
print(usage.ru_utime + usage.ru_stime, usage.ru_maxrss / 1024)
sys.exit(process.returncode != 0)
"""


def spent(*words: object, source: Optional[Path] = None) -> Spent:
    """Runs the program over a file or no input, and tells what that took; it has to be done."""
    command = [sys.executable, "-c", LAUNCHER, PROGRAM, *map(str, words)]
    with open(source or os.devnull, "rb") as given:
        told = subprocess.run(command, stdin=given, stdout=subprocess.PIPE, check=True).stdout
    return Spent(*map(float, told.split()))


def fresh(image: Path, blocks: int) -> Path:
    """A new disk of so many blocks of a sector, with one primary block."""
    call([image, "fresh", blocks, 1, READ, WRITE, "low"])
    return image


def text_of(lines: Iterable[str]) -> bytes:
    """Lines as the program reads them."""
    return "".join(f"{line}\n" for line in lines).encode()


class Talk:
    """A run over lines that is spoken to, with session 1 open; so neither its opening nor its end is timed."""

    def __init__(self, *words: object) -> None:
        self.process = subprocess.Popen([PROGRAM, *map(str, words)], stdin=subprocess.PIPE, stdout=subprocess.PIPE,
                                        bufsize=0)
        self.ask(["open 1"], b"ok")

    def ask(self, lines: Sequence[str], answer: Union[bytes, Tuple[bytes, ...]]) -> float:
        """The seconds until all were answered, each by a line that begins so, or in one of these ways."""
        data = text_of(lines)
        began = time.perf_counter()
        writer = threading.Thread(target=self.write, args=(data,))
        writer.start()
        answered = self.answers(len(lines))
        taken = time.perf_counter() - began
        writer.join()
        if not all(line.startswith(answer) for line in answered):
            bad = next(pair for pair in zip(lines, answered) if not pair[1].startswith(answer))
            sys.exit(f"measure: {bad[0]!r} was answered by {bad[1]!r}, not {answer!r}")
        return taken

    def work(self, lines: Sequence[str], answer: Union[bytes, Tuple[bytes, ...]]) -> float:
        """The same in seconds of a processor, where the system counts them; so other work counts little."""
        before = self.worked()
        taken = self.ask(lines, answer)
        return taken if before is None else self.worked() - before

    def worked(self) -> Optional[float]:
        """For how many seconds the run had a processor."""
        try:
            return int(Path(f"/proc/{self.process.pid}/schedstat").read_text().split()[0]) / 1e9
        except OSError:
            return None

    def write(self, data: bytes) -> None:
        """Sends lines."""
        view = memoryview(data)
        while view:
            view = view[self.process.stdin.write(view):]

    def answers(self, count: int) -> List[bytes]:
        """So many lines of the output."""
        text, found = [], 0
        while found < count:
            piece = os.read(self.process.stdout.fileno(), PIECE)
            if not piece:
                sys.exit(f"measure: the run ended with status {self.process.wait()}")
            text.append(piece)
            found += piece.count(b"\n")
        return b"".join(text).splitlines(keepends=True)

    def __enter__(self) -> Talk:
        return self

    def __exit__(self, *error: object) -> None:
        self.process.stdin.close()
        self.process.stdout.close()
        self.process.wait()


class Sqlite:
    """Rows of SQLite, each written by a transaction of its own, in write-ahead mode with full synchronisation. Where it
    is settled, its log has its full length, and is written from its front again; else the log is fresh and grows."""

    def __init__(self, path: Path, is_settled: bool = True) -> None:
        self.base = sqlite3.connect(path, isolation_level=None)
        for line in ("pragma journal_mode=wal", "pragma synchronous=off",
                     "create table rows (number integer primary key, bytes blob)"):
            self.base.execute(line)
        self.base.execute("insert into rows values (0, ?)", (bytes(SECTOR),))
        if is_settled:
            self.update(SETTLED)
        self.base.execute("pragma synchronous=full")

    def update(self, count: int) -> None:
        """Writes one row so many times."""
        for number in range(count):
            self.base.execute("update rows set bytes = ? where number = 0", (number.to_bytes(SECTOR, "little"),))

    def insert(self, count: int, size: int) -> None:
        """So many new rows of so many bytes."""
        for _ in range(count):
            self.base.execute("insert into rows (bytes) values (?)", (bytes(size),))

    def close(self) -> None:
        """Ends the connection."""
        self.base.close()


def micros(seconds: float, count: int) -> float:
    """Microseconds each."""
    return seconds / count * 1e6


def several(values: Iterable[float], form: str = "{:.1f}") -> str:
    """Values in one cell."""
    return " / ".join(form.format(value) for value in values)


Rows = Iterator[Row]

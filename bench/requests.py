"""What a request costs beside the system calls that it makes: microseconds of a processor, with the image in memory,
against a C program that makes the same calls in the same run; and how often it copies more than 1,024 bytes."""

from __future__ import annotations

import os
import shutil
import subprocess
import sys
from pathlib import Path
from statistics import median
from typing import Dict, List, NamedTuple, Sequence

from large_images import LargeImage, numbers_of
from trials import MILLION, PROGRAM, READ, TOP, WRITE, Place, Row, Rows, Talk, fresh, left_out, micros, text_of

sys.path.insert(0, str(TOP / "python"))

from tsd import Capability, requests  # noqa: E402

BENCH = Path(__file__).resolve().parent
ROUNDS = 5
COUNT = 40_000
LONG_COUNT = 4_000
FEW, MANY = 1_000, 3_000
RUNS = 200
BLOCKS = 1_000
SECTOR = 512
READ_CAP, WRITE_CAP = (Capability(bytes.fromhex(cap)) for cap in (READ, WRITE))


class Kind(NamedTuple):
    """A request as a line and as the body of a frame; the bare calls of it; and the bytes sent for each."""

    line: str
    body: bytes
    calls: str
    line_sent: int
    frame_sent: int


BYTES = bytes(range(1, 256)) + bytes(range(1, 256)) + b"\1\1"
KINDS: Dict[str, Kind] = {
    "free": Kind("free", requests.GetFree().encode(), "free", 9, 7),
    "READ of 512 bytes": Kind(f"read 1 0 {READ}", requests.Read(0, READ_CAP).encode(1), "read", 1030, 515),
    "WRITE of 512 bytes": Kind(f"write 1 0 {WRITE} {BYTES.hex()}", requests.Write(0, BYTES, WRITE_CAP).encode(1),
                               "write", 3, 3),
}


def frame(body: bytes) -> bytes:
    """A body with its length."""
    return len(body).to_bytes(2, "little") + body


def built(folder: Path, source: str, *options: str) -> Path:
    """A C program, or a library to be preloaded."""
    made = folder / source.replace(".c", "")
    subprocess.run(["cc", "-O2", *options, "-o", str(made), str(BENCH / source)], check=True)
    return made


def processor(command: Sequence[object], given: Path) -> float:
    """The seconds of a processor, of user and system, that a command takes over an input."""
    with open(given, "rb") as source, open(os.devnull, "wb") as sink:
        process = subprocess.Popen([str(word) for word in command], stdin=source, stdout=sink)
        _, status, usage = os.wait4(process.pid, 0)
        process.returncode = os.waitstatus_to_exitcode(status)
    if process.returncode != 0:
        sys.exit(f"measure: {command[0]} ended with status {process.returncode}")
    return usage.ru_utime + usage.ru_stime


def put(path: Path, data: bytes) -> Path:
    """A file of these bytes."""
    path.write_bytes(data)
    return path


class Input(NamedTuple):
    """How requests are sent: the command that takes them, and an input without and one with many of them."""

    command: str
    begin: Path
    many: Path


def inputs(folder: Path, kind: Kind) -> List[Input]:
    """Lines and frames."""
    line, body = text_of([kind.line]), frame(kind.body)
    opened, begun = text_of(["open 1"]), frame(requests.Begin().encode(1))
    return [Input("run", put(folder / "no.txt", opened), put(folder / "many.txt", opened + line * COUNT)),
            Input("serve", put(folder / "no.bin", begun), put(folder / "many.bin", begun + body * COUNT))]


def against(folder: Path, image: Path, peer: Path) -> Rows:
    """Each kind of request, by lines and by frames, beside its bare calls."""
    for name, kind in KINDS.items():
        for given, sent in zip(inputs(folder, kind), (kind.line_sent, kind.frame_sent)):
            ours, bare = [], []
            for _ in range(ROUNDS):
                words = [PROGRAM, image, given.command, "low"]
                ours.append(processor(words, given.many) - processor(words, given.begin))
                words = [peer, image.with_suffix(".calls"), kind.calls]
                bare.append(processor([*words, COUNT, sent], given.many) - processor([*words, 0, sent], given.begin))
            one, other = (micros(median(taken), COUNT) for taken in (ours, bare))
            yield Row(f"{name} by `{given.command}`: µs of a processor; of its bare calls; how many times as long",
                      f"{one:.2f}; {other:.2f}; {one / other:.1f}")


def long_lines(folder: Path) -> Rows:
    """Lines that write all of a block of eight sectors."""
    image = folder / "long.img"
    subprocess.run([PROGRAM, image, "fresh", str(BLOCKS), "8", READ, WRITE, "low"], stdin=subprocess.DEVNULL,
                   check=True)
    opened, line = text_of(["open 1"]), text_of([f"write 1 0 {WRITE} {'5a' * 4096}"])
    none, many = put(folder / "none.txt", opened), put(folder / "long.txt", opened + line * LONG_COUNT)
    words = [PROGRAM, image, "run", "low"]
    taken = median(processor(words, many) - processor(words, none) for _ in range(ROUNDS))
    yield Row("a line that writes 4,096 bytes: µs of a processor", f"{micros(taken, LONG_COUNT):.1f}")


def copies(folder: Path, image: Path, spy: Path) -> Rows:
    """How often a request copies much: the slope between runs over few requests and over many."""
    def counted(command: str, data: bytes) -> int:
        given = {**os.environ, "LD_PRELOAD": str(spy)}
        ran = subprocess.run([PROGRAM, image, command, "low"], input=data, stdout=subprocess.DEVNULL,
                             stderr=subprocess.PIPE, env=given, check=True)
        return int(ran.stderr.split()[-1])
    for name, kind in KINDS.items():
        cells = []
        for command, begin, one in (("run", text_of(["open 1"]), text_of([kind.line])),
                                    ("serve", frame(requests.Begin().encode(1)), frame(kind.body))):
            few, many = (counted(command, begin + one * count) for count in (FEW, MANY))
            cells.append(f"{(many - few) / (MANY - FEW):.2f}")
        yield Row(f"{name}: copies of more than 1,024 bytes, by `run` / by `serve`", " / ".join(cells))


def disk_of(image: Path, live: Sequence[int]) -> Path:
    """A disk of a million blocks of which these are live, with a pointer from block 0 to each other one."""
    laid = LargeImage(MILLION)
    bits = bytearray(laid.bits)
    for block in live:
        bits[block // 8] |= 1 << block % 8
    laid.bits = bytes(bits)
    targets = [block for block in live if block]
    laid.put_pairs(numbers_of([0]) * len(targets), numbers_of(targets))
    laid.write(image)
    return image


def runs_of_free_blocks(folder: Path) -> Rows:
    """CONTIG where no run is long enough, and where only the lowest tenth of the blocks is free."""
    refused = disk_of(folder / "holes.img", [0, *range(1, MILLION, 2)])
    with Talk(refused, "run", "low") as talk:
        taken = median(talk.work([f"contig 1 0 {WRITE} - 2"] * RUNS, b"no run") for _ in range(ROUNDS))
    yield Row("CONTIG refused for want of a run, 1,000,000 blocks, µs of a processor", f"{micros(taken, RUNS):.0f}")
    refused.unlink()
    low = disk_of(folder / "low.img", [0, *range(MILLION // 10, MILLION)])
    with Talk(low, "run", "low") as talk:
        taken = median(talk.work([f"contig 1 0 {WRITE} - 4"] * RUNS, b"blocks") for _ in range(ROUNDS))
    yield Row("CONTIG of four where only the lowest tenth is free, µs of a processor", f"{micros(taken, RUNS):.0f}")
    low.unlink()


def rows(place: Place) -> Rows:
    """All of them."""
    if shutil.which("cc") is None:
        yield left_out("what a request costs beside its bare calls", "no C compiler is there")
        return
    folder = place.memory
    image = fresh(folder / "asked.img", BLOCKS)
    shutil.copy(image, image.with_suffix(".calls"))
    yield from against(folder, image, built(folder, "bare_calls.c"))
    yield from long_lines(folder)
    yield from copies(folder, image, built(folder, "count_copies.c", "-shared", "-fPIC"))
    yield from runs_of_free_blocks(folder)

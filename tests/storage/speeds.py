"""Durable requests a second over an image, beside the storage's own: one sector and one sync, by fio."""

from __future__ import annotations

import json
import subprocess
import time
from pathlib import Path
from statistics import median
from typing import List, NamedTuple, Sequence

from machine import TURN_SECONDS, call
from parts import Result
from sites import IN_USE

MEASURED = "measured"
READ_CAP, WRITE_CAP = "a" * 32, "b" * 32
FIO_SECONDS = 2
ROUNDS = 3
FIO_BYTES = 65536
LEAST, MOST = 100, 6000
SECTOR = 512
LOCK_SECONDS = 10


class Speed(NamedTuple):
    """A second: requests that write a block, and fio's writes of a sector with a sync each."""

    requests: float
    writes: float


def fio(path: Path) -> float:
    """Writes of a sector with a sync each, a second."""
    text = call("fio", "--name=sector", f"--filename={path}", "--rw=write", f"--bs={SECTOR}", f"--size={FIO_BYTES}",
                "--ioengine=psync", "--fdatasync=1", "--time_based", f"--runtime={FIO_SECONDS}", "--output-format=json")
    job = json.loads(text[text.index("{"):])["jobs"][0]
    return job["write"]["total_ios"] / (job["job_runtime"] / 1000)


def run_over(program: Path, image: Path, words: Sequence[str], text: bytes) -> float:
    """How long a run over a text takes. Where the lock of a run that has ended isn't free yet, it is made again."""
    end = time.monotonic() + LOCK_SECONDS
    while True:
        began = time.monotonic()
        done = subprocess.run([str(program), str(image), *words], input=text, capture_output=True)
        if IN_USE not in done.stderr or began > end:
            break
        time.sleep(TURN_SECONDS)
    if (done.returncode, done.stdout) != (0, b"ok\n" * text.count(b"\n")):
        raise RuntimeError(f"{image}: status {done.returncode}, {done.stderr!r}, or a request wasn't granted")
    return time.monotonic() - began


def requests(program: Path, image: Path, count: int) -> float:
    """Requests a second that write a block of one sector."""
    run_over(program, image, ["fresh", "64", "1", READ_CAP, WRITE_CAP, "low"], b"")
    opening = b"open 1\n"
    text = opening + b"".join(b"write 1 0 %s %02x\n" % (WRITE_CAP.encode(), turn % 256) for turn in range(count))
    run = ["run", "low"]
    return count / max(run_over(program, image, run, text) - run_over(program, image, run, opening), 1e-9)


def measured(name: str, program: Path, image: Path, probe: Path) -> Result:
    """Both over a storage, in turns, and the middle of each; the probe is what fio writes to, and may be the image."""
    speeds: List[Speed] = []
    for _ in range(ROUNDS):
        writes = fio(probe)
        count = int(min(MOST, max(LEAST, writes * FIO_SECONDS / 2)))
        speeds.append(Speed(requests(program, image, count), writes))
    middle = Speed(median(one.requests for one in speeds), median(one.writes for one in speeds))
    return Result(name, MEASURED, " ".join(f"{number:.0f}" for number in middle))


def table(results: Sequence[Result]) -> str:
    """What was measured, as a table."""
    lines = ["| storage | requests a second | one sector and one sync, a second | ratio |", "|---|---|---|---|"]
    for result in results:
        speed = Speed(*map(float, result.text.split()))
        ratio = speed.requests / speed.writes
        lines.append(f"| {result.name} | {speed.requests:,.0f} | {speed.writes:,.0f} | {ratio:.2f} |")
    return "\n".join(lines)

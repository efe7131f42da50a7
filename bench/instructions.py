"""Instructions of a request, the same at each run: the slope between runs over few requests and over many, by
callgrind, with the image in memory. By lines, and the same by frames."""

from __future__ import annotations

import re
import shutil
import subprocess
import sys
from pathlib import Path
from typing import Dict, NamedTuple

from trials import PROGRAM, READ, TOP, WRITE, Place, Row, Rows, call, fresh, left_out, text_of

sys.path.insert(0, str(TOP / "python"))

from tsd import Capability, requests  # noqa: E402

FEW, MANY = 1_000, 3_000
BLOCKS = 1_000
READ_CAP, WRITE_CAP = (Capability(bytes.fromhex(cap)) for cap in (READ, WRITE))
WRONG = Capability(bytes(16))
COLLECTED = re.compile(rb"Collected : (\d+)")
ROW = "instructions of a request, by `run` / by `serve`"


class Kind(NamedTuple):
    """A request as a line and as the body of a frame, and how the line is answered."""

    line: str
    body: bytes
    answer: bytes


KINDS: Dict[str, Kind] = {
    "free": Kind("free", requests.GetFree().encode(), b"free "),
    "a bad one": Kind("nothing", b"\xff", b"no bad-request"),
    "READ of an empty block": Kind(f"read 1 0 {READ}", requests.Read(0, READ_CAP).encode(1), b"data "),
    "a refused WRITE": Kind(f"write 1 0 {'0' * 32} 6869", requests.Write(0, b"hi", WRONG).encode(1), b"no denied"),
    "LIST of few": Kind(f"list 1 0 {READ} 0", requests.List64(0, 0, READ_CAP).encode(1), b"list "),
    "WRITE of two bytes": Kind(f"write 1 0 {WRITE} 6869", requests.Write(0, b"hi", WRITE_CAP).encode(1), b"ok"),
}


def frame(body: bytes) -> bytes:
    """A body with its length."""
    return len(body).to_bytes(2, "little") + body


def collected(words: list[str], data: bytes, folder: Path) -> int:
    """The instructions of a run over an input."""
    command = ["valgrind", "--tool=callgrind", f"--callgrind-out-file={folder / 'callgrind.out'}", str(PROGRAM), *words]
    ran = subprocess.run(command, input=data, stdout=subprocess.DEVNULL, stderr=subprocess.PIPE, check=True)
    return int(COLLECTED.search(ran.stderr).group(1))


def slope(image: Path, command: str, begin: bytes, one: bytes) -> float:
    """The instructions of a request."""
    words = [str(image), command, "low"]
    few, many = (collected(words, begin + one * count, image.parent) for count in (FEW, MANY))
    return (many - few) / (MANY - FEW)


def rows(place: Place) -> Rows:
    """Each kind of request."""
    if shutil.which("valgrind") is None:
        yield left_out(ROW, "no valgrind is there")
        return
    image = fresh(place.memory / "counted.img", BLOCKS)
    call([image, "run", "low"], text_of(["open 1", f"alloc 1 0 {WRITE} - 4"]))
    for name, kind in KINDS.items():
        answered = call([image, "run", "low"], text_of(["open 1", kind.line])).splitlines()
        if not answered[-1].startswith(kind.answer):
            sys.exit(f"measure: {kind.line!r} was answered by {answered[-1]!r}")
        lines = slope(image, "run", text_of(["open 1"]), text_of([kind.line]))
        frames = slope(image, "serve", frame(requests.Begin().encode(1)), frame(kind.body))
        yield Row(f"{ROW}: {name}", f"{lines:,.0f} / {frames:,.0f}")

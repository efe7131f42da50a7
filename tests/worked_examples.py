"""The worked examples of docs/MODEL.md and docs/FORMAT.md, read from there, by the program and by the model."""

from __future__ import annotations

import hashlib
import re
from pathlib import Path
from typing import Iterator, List, NamedTuple, Tuple

from disk_model import SECTOR, Disk, parse_line, reply_line
from parts import Context, Result, compared, failed
from program import Program

# What the letters of docs/MODEL.md stand for.
CAPS = {"R": "aa" * 16, "W": "bb" * 16, "C": "cc" * 16, "D": "dd" * 16}
READ_CAP, WRITE_CAP = bytes.fromhex(CAPS["R"]), bytes.fromhex(CAPS["W"])
SESSION = re.compile(r"^```\n(open .*?)^```$", re.MULTILINE | re.DOTALL)
KIND = re.compile(r"\s*\(kind (\w+)\)")
FRAMES = re.compile(r"^\| [^|`]+ \| `([0-9a-f ]+)` \| [^|`]+ \| `([0-9a-f ]+)` \|$", re.MULTILINE)
HEADER = re.compile(r"begins with these 28 bytes.*?\n\n +([0-9a-f ]+)\n", re.DOTALL)
FIRST_PAIR = re.compile(r"32\s+zero\s+bytes\s+the\s+first\s+pair\s+is\s+`([0-9a-f]{32})`\s+and\s+`([0-9a-f]{32})`")


class Session(NamedTuple):
    """A worked session: requests with their replies, and the kind of placement."""

    line: int
    place: str
    requests: List[bytes]
    replies: List[bytes]


def sessions_of(page: str) -> List[Session]:
    """The sessions of docs/MODEL.md; a reply stands behind `>`, and where there is none it is `ok`."""
    found = []
    for block in SESSION.finditer(page):
        kind = KIND.search(block[1])
        pairs = [KIND.sub("", line).partition(">") for line in block[1].splitlines()]
        requests = [" ".join(CAPS.get(word, word) for word in request.split()).encode() for request, _, _ in pairs]
        replies = [(reply.strip() or "ok").encode() for _, _, reply in pairs]
        line = page.count("\n", 0, block.start()) + 1
        found.append(Session(line, kind[1] if kind else "near", requests, replies))
    return found


def session_results(page: Path, context: Context, program: Program) -> Iterator[Result]:
    """Each session twice: by the program, and by the model."""
    sessions = sessions_of(page.read_text())
    if not sessions:
        yield failed(str(page), "no session was found in it")
    for number, one in enumerate(sessions):
        expected = b"".join(reply + b"\n" for reply in one.replies)
        words = ["fresh", "8", "1", CAPS["R"], CAPS["W"], one.place]
        run = program.run([context.folder / f"model-{number}.img"] + words, b"\n".join(one.requests))
        yield compared(f"docs/MODEL.md, line {one.line}", (0, expected, b""), tuple(run))
        words = [context.folder / f"pieces-{number}.img"] + words
        run = program.run_in_pieces(words, b"\n".join(one.requests), range(1, 10))
        yield compared(f"docs/MODEL.md, line {one.line}, in pieces of 1 to 9 bytes", (0, expected, b""), tuple(run))
        disk = Disk.fresh(8, 1, READ_CAP, WRITE_CAP, one.place)
        replies = b"".join(reply_line(disk.apply(parse_line(request))) for request in one.requests)
        yield compared(f"docs/MODEL.md, line {one.line}, by the model of tests/", expected, replies)


def frame_result(page: str, context: Context, program: Program) -> Result:
    """The example of docs/FORMAT.md in frames."""
    rows: List[Tuple[bytes, bytes]] = [(bytes.fromhex(a), bytes.fromhex(b)) for a, b in FRAMES.findall(page)]
    image = context.folder / "frames.img"
    program.run([image, "fresh", "8", "1", CAPS["R"], CAPS["W"], "near"])
    run = program.run([image, "serve", "near"], b"".join(request for request, _ in rows))
    expected = (0, b"".join(reply for _, reply in rows), b"", 3)
    return compared("docs/FORMAT.md, frames", expected, (*run, len(rows)))


def place_results(page: str, context: Context, program: Program) -> Iterator[Result]:
    """The smaller disk of the worked places: where the last block's things stand once it is live."""
    image = context.folder / "places.img"
    text = f"open 1\nalloc 1 0 {CAPS['W']} - 7\nwrite 1 7 - c0ffee\n".encode()
    run = program.run([image, "fresh", "8", "1", CAPS["R"], CAPS["W"], "low"], text)
    yield compared("worked places: the run", (0, b"ok\nblocks 1 2 3 4 5 6 7\nok\n", b""), tuple(run))
    found = image.read_bytes()

    def at(sector: int, byte: int, length: int) -> bytes:
        return found[SECTOR * sector + byte:SECTOR * sector + byte + length]

    header = HEADER.search(page)
    yield compared("the header", bytes.fromhex(header[1]).ljust(SECTOR, b"\0") if header else None, at(0, 0, SECTOR))
    yield compared("the format gate", b"\1".ljust(SECTOR, b"\0"), at(1, 0, SECTOR))
    yield compared("all gates of the journal", bytes(8), b"".join(at(s, 0, 1) for s in (2, *range(117, 130, 2))))
    yield compared("the sweep flag", bytes(SECTOR), at(131, 0, SECTOR))
    yield compared("capabilities of the last primary block", READ_CAP + WRITE_CAP, at(132, 0, 32))
    yield compared("count of the last block", b"\1\0\0\0", at(134, 28, 4))
    yield compared("bits of all blocks", b"\xff", at(135, 0, 1))
    slots = {at(136, 8 * slot, 8) for slot in range(32)} - {bytes(8)}
    yield compared("slots", {b"\1\0\0\0" + bytes([target, 0, 0, 0]) for target in range(1, 8)}, slots)
    yield compared("data of the last block", b"\xc0\xff\xee".ljust(SECTOR, b"\0"), at(144, 0, SECTOR))
    yield compared("sectors in all", 145 * SECTOR, len(found))
    yield compared("upgrade", (0, b"version 2\n", b""), tuple(program.run([image, "upgrade"])))
    found = image.read_bytes()
    kept = hashlib.sha256(READ_CAP).digest() + hashlib.sha256(WRITE_CAP).digest()
    yield compared("the version after upgrade", b"\2\0\0\0", at(0, 8, 4))
    yield compared("digests of the last primary block", kept, at(132, 0, 64))
    yield compared("upgrade once more", (0, b"version 2\n", b""), tuple(program.run([image, "upgrade"])))


def largest_results(context: Context, program: Program) -> Iterator[Result]:
    """The larger disk of the worked places, as `format` makes it."""
    image = context.folder / "largest.img"
    run = program.run([image, "format", "1048576", "8", "4194304", "16", "00" * 32])
    lines = run.out.decode().splitlines()
    yield compared("the largest disk: format", (0, 16, b""), (run.status, len(lines), run.error))
    last = lines[-1].split() if lines else []
    with image.open("rb") as file:
        file.seek(132 * SECTOR + 480)
        kept = file.read(32).hex()
        file.seek(8326 * SECTOR)
        bits = file.read(SECTOR)
    yield compared("its last primary block's capabilities", ["cap", "15", kept[:32], kept[32:]], last)
    yield compared("its bitmap", b"\xff\xff".ljust(SECTOR, b"\0"), bits)
    image.unlink()


def seed_result(page: str, context: Context, program: Program) -> Result:
    """The first pair of the seed of zeros."""
    pair = FIRST_PAIR.search(page)
    run = program.run([context.folder / "seed.img", "format", "8", "1", "32", "1", "00" * 32])
    return compared("docs/FORMAT.md, seeds", f"cap 0 {pair[1]} {pair[2]}\n".encode() if pair else None, run.out)


def results(context: Context, program: Program) -> Iterator[Result]:
    """A result for each example."""
    docs = context.top / "docs"
    page = (docs / "FORMAT.md").read_text()
    yield from session_results(docs / "MODEL.md", context, program)
    yield frame_result(page, context, program)
    yield seed_result(page, context, program)
    yield from place_results(page, context, program)
    yield from largest_results(context, program)

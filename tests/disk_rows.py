"""Worked runs of the disk, answer by answer, over files: in both versions, closed or killed, and opened again; how
often the disk is written and read, also by calls that only look; and the sectors that a format leaves.

What must be answered is written down here from docs/MODEL.md and docs/FORMAT.md; nothing of it was made by the program.
In a text a slash stands between two lines, and R, W, C and D for capabilities: those of block 0 to read and to write
it, and those of block 1, or new ones.
"""

from __future__ import annotations

import os
import subprocess
import threading
from pathlib import Path
from typing import Dict, Iterator, List, NamedTuple, Tuple

from disk_model import SECTOR, seed_caps
from parts import Context, Result, compared, failed, skipped
from program import Program
from recording import PUT, READ, SYNC, WRITE, NoRecorder, Recorder, Recording

NAME = "disk_rows"
SEED = bytes(32)
MOST_SECONDS = 60
DENIED = 10


class Size(NamedTuple):
    """A disk: how many blocks, sectors a block, slots and primary blocks it has."""

    blocks: int
    sectors: int
    slots: int
    primaries: int

    def words(self) -> List[str]:
        """The words that make it."""
        return ["format", *map(str, self), SEED.hex()]

    def caps(self) -> Dict[str, str]:
        """What the letters stand for."""
        caps = [cap.hex() for pair in seed_caps(SEED)[:self.primaries] for cap in pair]
        return dict(zip("RWCD", caps + ["cc" * 16, "dd" * 16]))


EIGHT, TWICE, TIGHT = Size(8, 1, 32, 1), Size(8, 1, 32, 2), Size(8, 1, 5, 1)
MANY, MORE = Size(64, 1, 256, 1), Size(600, 1, 2400, 1)
FAR = Size(64, 8, 256, 1)


class Row(NamedTuple):
    """A disk, a kind of placement, what is asked and answered, and what is so once the disk was opened again."""

    name: str
    size: Size
    place: str
    asked: str
    told: str
    again: str
    told_again: str


def chain(blocks: int) -> str:
    """A session that makes a chain of so many blocks behind block 0."""
    return "/".join(["open 1", "alloc 1 0 W - 1", *(f"alloc 1 {block} - - 1" for block in range(1, blocks))])


def chain_replies(blocks: int) -> str:
    """What is answered to that."""
    return "/".join(["ok", *(f"blocks {block}" for block in range(1, blocks + 1))])


ROWS = (
    Row("bytes are written and read", EIGHT, "near",
        "open 1/read 1 0 R/write 1 0 R 6869/read 1 0 R/write 1 0 W 686900/read 1 0 R",
        "ok/data -/no denied read write/data -/ok/data 6869",
        "open 1/read 1 0 R/read 1 0 W",
        "ok/data 6869/data 6869"),
    Row("free blocks are taken and run out", EIGHT, "near",
        "open 1/alloc 1 0 W - 3/free/alloc 1 0 W - 5/free",
        "ok/blocks 1 2 3/free 4/no full 4 5/free 4",
        "free/open 1/list 1 0 R 0/list 1 0 R 2",
        "free 4/ok/list 1 2 3/list 2 3"),
    Row("a run needs blocks in a row", EIGHT, "near",
        "open 1/alloc 1 0 W - 7/delete 1 0 W 2/delete 1 0 W 4/delete 1 0 W 6/contig 1 0 W - 2/alloc 1 0 W 5 2/free",
        "ok/blocks 1 2 3 4 5 6 7/gone 1/gone 1/gone 1/no run 3 2/blocks 6 4/free 1",
        "free/open 1/list 1 0 R 0",
        "free 1/ok/list 1 3 4 5 6 7"),
    Row("a block is reached along a pointer, and a session that was closed holds nothing", EIGHT, "near",
        "open 1/alloc 1 0 W - 1/open 2/read 2 1 -/read 2 0 R/read 2 1 -/write 2 1 - 01/close 2/read 2 1 -",
        "ok/blocks 1/ok/no denied none read/data -/data -/no denied read write/ok/no not-open",
        "read 2 1 -/open 2/read 2 1 -/read 2 0 R/read 2 1 -",
        "no not-open/ok/no denied none read/data -/data -"),
    Row("what hangs on a block goes with it", EIGHT, "near",
        "open 1/alloc 1 0 W - 1/alloc 1 1 - - 1/alloc 1 2 - - 1/delete 1 0 W 1/free",
        "ok/blocks 1/blocks 2/blocks 3/gone 3/free 7",
        "free/open 1/read 1 1 -/read 1 3 -",
        "free 7/ok/no free-block/no free-block"),
    Row("a block stays while a pointer leads to it", EIGHT, "near",
        "open 1/alloc 1 0 W - 2/alloc 1 1 - - 1/create 1 2 - 3/list 1 2 - 0/delete 1 0 W 1/delete 1 0 W 2/free",
        "ok/blocks 1 2/blocks 3/ok/list 3/gone 1/gone 2/free 7",
        "free",
        "free 7"),
    Row("a cycle goes by a sweep", EIGHT, "near",
        "open 1/alloc 1 0 W - 1/alloc 1 1 - - 1/create 1 2 - 1/delete 1 0 W 1/free/sweep 1 R/sweep 1 W/free",
        "ok/blocks 1/blocks 2/ok/gone 0/free 5/no denied read write/gone 2/free 7",
        "free",
        "free 7"),
    Row("it waits for one", EIGHT, "near",
        "open 1/alloc 1 0 W - 1/alloc 1 1 - - 1/create 1 2 - 1/delete 1 0 W 1/free",
        "ok/blocks 1/blocks 2/ok/gone 0/free 5",
        "free/open 1/sweep 1 R/sweep 1 W/free",
        "free 5/ok/no denied read write/gone 2/free 7"),
    Row("a block may point to itself", EIGHT, "near",
        "open 1/alloc 1 0 W - 1/create 1 1 - 1/create 1 1 - 1/create 1 1 - 0/delete 1 0 W 1/read 1 1 -/sweep 1 W/"
        "read 1 1 -",
        "ok/blocks 1/ok/no pointer-exists/no is-primary/gone 0/data -/gone 1/no free-block",
        "free/open 1/read 1 1 -",
        "free 7/ok/no free-block"),
    Row("a level ends with its block, and doesn't come back with the block's number", EIGHT, "near",
        "open 1/open 2/alloc 1 0 W - 1/alloc 1 1 - - 1/read 2 0 R/read 2 1 -/read 2 2 -/delete 1 0 W 1/alloc 1 0 W "
        "- 1/alloc 1 1 - - 1/read 2 2 -/read 2 1 -/read 2 2 -",
        "ok/ok/blocks 1/blocks 2/data -/data -/data -/gone 2/blocks 1/blocks 2/no denied none read/data -/data -",
        "open 2/read 2 1 -/read 2 0 R/read 2 2 -/read 2 1 -/read 2 2 -",
        "ok/no denied none read/data -/no denied none read/data -/data -"),
    Row("new capabilities end what came from the old ones", EIGHT, "near",
        "open 1/open 2/alloc 1 0 W - 1/read 2 0 R/setcap 1 0 W C D/read 2 1 -/alloc 1 1 - - 1/read 2 0 R/read 2 0 "
        "C/read 2 1 -",
        "ok/ok/blocks 1/data -/ok/no denied none read/no denied none write/no denied none read/data -/data -",
        "open 1/read 1 0 R/write 1 0 C 07/write 1 0 D 07/read 1 0 C",
        "ok/no denied none read/no denied read write/ok/data 07"),
    Row("they do so at every block that was reached", EIGHT, "near",
        "open 1/open 2/alloc 1 0 W - 1/alloc 1 1 - - 1/read 2 0 R/read 2 1 -/setcap 1 0 W C D/read 2 2 -/read 1 2 "
        "-/read 2 0 C/read 2 1 -/read 2 2 -",
        "ok/ok/blocks 1/blocks 2/data -/data -/ok/no denied none read/no denied none read/data -/data -/data -",
        "open 1/read 1 0 W/read 1 0 D/read 1 1 -/read 1 2 -",
        "ok/no denied none read/data -/data -/data -"),
    Row("a new block reads as zeros, whatever stood there", EIGHT, "near",
        "open 1/alloc 1 0 W - 1/write 1 1 - 6869/delete 1 0 W 1/alloc 1 0 W - 1/read 1 1 -",
        "ok/blocks 1/ok/gone 1/blocks 1/data -",
        "open 1/read 1 0 R/read 1 1 -",
        "ok/data -/data -"),
    Row("a far hint takes the last blocks", EIGHT, "near",
        "open 1/alloc 1 0 W 4294967295 2",
        "ok/blocks 7 6",
        "open 1/list 1 0 R 0",
        "ok/list 6 7"),
    Row("both versions grant alike", EIGHT, "near",
        "open 1/write 1 0 R 6869/write 1 0 W 6869/setcap 1 0 W C D/read 1 0 R/read 1 0 C",
        "ok/no denied read write/ok/ok/no denied none read/data 6869",
        "open 1/read 1 0 W/read 1 0 D",
        "ok/no denied none read/data 6869"),
    Row("pointers of blocks that are lost take no room, over eight blocks with room for five pointers", TIGHT, "near",
        "open 1/alloc 1 0 W - 3/alloc 1 1 - - 2/create 1 2 - 3/delete 1 0 W 1/create 1 2 - 3/create 1 3 - 2/create "
        "1 2 - 2/create 1 3 - 3",
        "ok/blocks 1 2 3/blocks 4 5/no pointers-full 5 5/gone 3/ok/ok/ok/no pointers-full 5 5",
        "free/open 1/read 1 0 R/read 1 2 -/list 1 2 - 0",
        "free 5/ok/data -/data -/list 2 3"),
    Row("counts and sessions have bounds, over 64 blocks", MANY, "low",
        "open 1/alloc 1 0 W - 0/alloc 1 0 W - 33/alloc 1 0 W - 32/open 65/open 0/open 1/close 2/read 1 64 -",
        "ok/no bad-count/no bad-count/blocks 1 2 3 4 5 6 7 8 9 10 11 12 13 14 15 16 17 18 19 20 21 22 23 24 25 26 "
        "27 28 29 30 31 32/no bad-session/no bad-session/no already-open/no not-open/no no-such-block",
        "free/close 1/open 1",
        "free 31/no not-open/ok"),
    Row("a block with 32 pointers goes with all that it points to, over 64 blocks", MANY, "near",
        "open 1/alloc 1 0 W - 1/alloc 1 1 - - 32/delete 1 0 W 1/free",
        "ok/blocks 1/blocks 2 3 4 5 6 7 8 9 10 11 12 13 14 15 16 17 18 19 20 21 22 23 24 25 26 27 28 29 30 31 32 "
        "33/gone 33/free 63",
        "free",
        "free 63"),
    Row("a level from another primary block stays, over eight blocks of which two are primary", TWICE, "near",
        "open 1/alloc 1 0 W - 1/create 1 1 D 2/alloc 1 2 - - 1/setcap 1 0 W R W/write 1 3 - 05/setcap 1 1 D C D/"
        "read 1 3 -",
        "ok/blocks 2/ok/blocks 3/ok/ok/ok/no denied none read",
        "open 1/read 1 1 C/read 1 2 -/read 1 3 -",
        "ok/data -/data -/data 05"),
    Row("free blocks are taken upwards from the hint and round, over eight blocks", EIGHT, "spread",
        "open 1/alloc 1 0 W 6 3",
        "ok/blocks 6 7 1",
        "open 1/list 1 0 R 0",
        "ok/list 1 6 7"),
    Row("zones come in turns, over 600 blocks", MORE, "zone",
        "open 1/alloc 1 0 W 512 32/alloc 1 0 W 512 32/alloc 1 0 W 512 32/contig 1 0 W 512 32",
        "ok/blocks 512 513 514 515 516 517 518 519 520 521 522 523 524 525 526 527 528 529 530 531 532 533 534 535 "
        "536 537 538 539 540 541 542 543/blocks 544 545 546 547 548 549 550 551 552 553 554 555 556 557 558 559 "
        "560 561 562 563 564 565 566 567 568 569 570 571 572 573 574 575/blocks 576 577 578 579 580 581 582 583 "
        "584 585 586 587 588 589 590 591 592 593 594 595 596 597 598 599 256 257 258 259 260 261 262 263/blocks "
        "264 265 266 267 268 269 270 271 272 273 274 275 276 277 278 279 280 281 282 283 284 285 286 287 288 289 "
        "290 291 292 293 294 295",
        "free",
        "free 471"),
    Row("a chain of forty blocks goes with its first pointer, and the first blocks are free again", MANY, "near",
        f"{chain(40)}/delete 1 0 W 1/free/alloc 1 0 W - 2",
        f"{chain_replies(40)}/gone 40/free 63/blocks 1 2",
        "free/open 1/list 1 0 R 0/read 1 1 -/read 1 3 -",
        "free 61/ok/list 1 2/data -/no free-block"),
)


def lines_of(text: str, size: Size) -> bytes:
    """The lines that a text of requests stands for."""
    caps = size.caps()
    lines = [" ".join(caps.get(word, word) for word in line.split(" ")) for line in text.split("/")]
    return replies_of("/".join(lines))


def replies_of(text: str) -> bytes:
    """The lines that a text of replies stands for."""
    return "".join(line + "\n" for line in text.split("/")).encode()


# --- worked runs ---

def row_result(program: Program, image: Path, row: Row, upgraded: bool, killed: bool) -> Result:
    """A row in one version. Its first run is closed, or killed once all is answered."""
    image.unlink(missing_ok=True)
    program.run([image, *row.size.words()])
    if upgraded:
        program.run([image, "upgrade"])
    words, lines, wanted = [image, "run", row.place], lines_of(row.asked, row.size), replies_of(row.told)
    first = killed_run(program, words, lines, wanted) if killed else program.run(words, lines).out
    second = program.run(words, lines_of(row.again, row.size))
    name = f"{row.name}, version {2 if upgraded else 1}{', killed' if killed else ''}"
    return compared(name, (wanted, (0, replies_of(row.told_again), b"")), (first, tuple(second)))


def killed_run(program: Program, words: List[object], lines: bytes, wanted: bytes) -> bytes:
    """What a run sends until so many bytes have come; then it is killed."""
    command = [str(word) for word in (program.path, *words)]
    with subprocess.Popen(command, stdin=subprocess.PIPE, stdout=subprocess.PIPE, stderr=subprocess.DEVNULL) as child:
        assert child.stdin is not None and child.stdout is not None
        late = threading.Timer(MOST_SECONDS, child.kill)
        late.start()
        child.stdin.write(lines)
        child.stdin.flush()
        found = child.stdout.read(len(wanted))
        child.kill()
        late.cancel()
        return found


# --- how often the disk is written ---

def writes_between(recording: Recording) -> List[int]:
    """How many sectors were written before each reply, and behind the last one."""
    counts = [0]
    for event in recording.events:
        if event.kind == WRITE:
            counts[-1] += event.length // SECTOR
        elif event.kind == PUT:
            counts.append(0)
    return counts


def calls_between(recording: Recording) -> List[int]:
    """By how many calls they were."""
    counts = [0]
    for event in recording.events:
        if event.kind == WRITE:
            counts[-1] += 1
        elif event.kind == PUT:
            counts.append(0)
    return counts


def write_results(recorder: Recorder, program: Program, image: Path) -> Iterator[Result]:
    """A record takes three writes; where all eight are held, the ninth first puts them in place, by a write of the one
    sector and of eight gates; the end of a run puts the last one in place. What is refused or only looks writes
    nothing. The deletion of a chain writes one record of two sectors, and then each of four steps one of three."""
    image.unlink(missing_ok=True)
    program.run([image, *EIGHT.words()])
    text = lines_of("/".join(["open 1", "write 1 0 R 01", "free", *["write 1 0 W 01"] * 9]), EIGHT)
    found = writes_between(recorder.run(image, ["run", "near"], text))
    yield compared("how often nine writes write", [0, 0, 0] + [3] * 8 + [12, 2], found)
    image.unlink()
    program.run([image, *MANY.words()])
    program.run([image, "run", "near"], lines_of(chain(40), MANY))
    recording = recorder.run(image, ["run", "near"], lines_of("open 1/delete 1 0 W 1/free", MANY))
    yield compared("what is answered to a deletion", replies_of("ok/gone 40/free 63"), recording.out)
    yield compared("how often a deletion and four steps write", [0, 4, 20], writes_between(recording)[:3])
    yield from row_results(recorder, program, image)


def row_results(recorder: Recorder, program: Program, image: Path) -> Iterator[Result]:
    """Sectors in a row are written by one call: of a record of eight bodies those, its descriptor, and its gate; where
    all eight records are held, before that their homes, and each of eight gates, which have other sectors between."""
    image.unlink()
    program.run([image, *FAR.words()])
    text = lines_of("/".join(["open 1", *[f"write 1 0 W {'01' * 8 * SECTOR}"] * 9]), FAR)
    recording = recorder.run(image, ["run", "near"], text)
    yield compared("how many sectors nine writes of eight write", [0] + [10] * 8 + [26, 9], writes_between(recording))
    yield compared("by how many calls", [0] + [3] * 8 + [12, 2], calls_between(recording))


# --- how often the disk is read ---

# The sectors of counts, bits and slots follow sector 133; then come those of the blocks.
FIRST_OF_FAR, FIRST_OF_MANY = 134 + 1 + 1 + 4, 134 + 1 + 1 + 4


def reads_between(recording: Recording) -> List[List[Tuple[int, int]]]:
    """Before each reply, and behind the last one, each read of the image: its first sector, and how many it has."""
    reads: List[List[Tuple[int, int]]] = [[]]
    for event in recording.events:
        if event.kind == READ:
            reads[-1].append((event.offset // SECTOR, event.length // SECTOR))
        elif event.kind == PUT:
            reads.append([])
    return reads


def read_results(recorder: Recorder, program: Program, image: Path) -> Iterator[Result]:
    """A READ of a block of eight sectors takes one call, once another block was read; of one sector no more is read,
    where blocks aren't read in a row."""
    order = [30, 22, 17, 27, 14]
    for size, first, sectors in ((FAR, FIRST_OF_FAR, 8), (MANY, FIRST_OF_MANY, 1)):
        image.unlink(missing_ok=True)
        program.run([image, *size.words()])
        written = "/".join(["open 1", "alloc 1 0 W - 32", *(f"write 1 {block} - {block:02x}" for block in order)])
        program.run([image, "run", "low"], lines_of(written, size))
        asked = "/".join(["open 1", "read 1 0 R", "read 1 12 -", *(f"read 1 {block} -" for block in order)])
        recording = recorder.run(image, ["run", "low"], lines_of(asked, size))
        told = replies_of("/".join(["ok", "data -", "data -", *(f"data {block:02x}" for block in order)]))
        yield compared(f"what is read of blocks of {sectors}", told, recording.out)
        wanted = [[(first + sectors * block, sectors)] for block in order]
        yield compared(f"how often blocks of {sectors} are read", wanted, reads_between(recording)[3:-1])


def ahead_results(program: Program, image: Path) -> Iterator[Result]:
    """Blocks that were read together with those before them, and then written, are read as they were written; also once
    all that was written is in its place, which nine writes of other blocks see to. And of a file that ends inside the
    last sector that was read ahead, that part is read."""
    image.unlink(missing_ok=True)
    program.run([image, *MANY.words()])
    row, others = range(1, 10), range(20, 29)
    asked = ["open 1", "alloc 1 0 W - 32", "read 1 0 R", *(f"read 1 {block} -" for block in row)]
    told = ["ok", "blocks " + " ".join(map(str, range(1, 33))), "data -"] + ["data -"] * 9
    for block in (10, 13):
        asked += [f"write 1 {block} - {block:02x}", f"read 1 {block} -"]
        asked += [*(f"write 1 {other} - ee" for other in others), f"read 1 {block} -", f"read 1 {block + 1} -"]
        told += ["ok", f"data {block:02x}", *["ok"] * len(others), f"data {block:02x}", "data -"]
    wanted = replies_of("/".join(told))
    yield compared("blocks that were read ahead and then written", wanted,
                   program.run([image, "run", "low"], lines_of("/".join(asked), MANY)).out)
    blocks = "/".join(["open 1", "alloc 1 0 W - 32", *(f"write 1 {block} - {block:02x}07" for block in range(1, 33))])
    for last in (4, 7, 8):
        image.unlink()
        program.run([image, *MANY.words()])
        program.run([image, "run", "low"], lines_of(blocks, MANY))
        os.truncate(image, SECTOR * (FIRST_OF_MANY + last) + 1)
        asked = ["open 1", "read 1 0 R", *(f"read 1 {block} -" for block in range(1, 11))]
        told = ["ok", "data -", *(f"data {block:02x}07" for block in range(1, last)), f"data {last:02x}",
                *["data -"] * (10 - last)]
        yield compared(f"a file that ends inside block {last}, of ten that are read in a row",
                       replies_of("/".join(told)),
                       program.run([image, "run", "low"], lines_of("/".join(asked), MANY)).out)


# --- calls that only look ---

def look_results(recorder: Recorder, program: Program, image: Path) -> Iterator[Result]:
    """An image on which nothing is left to be done is opened once by each call that only looks, or that the capability
    denies: its header is read once, it is synced once, and nothing is written."""
    image.unlink(missing_ok=True)
    program.run([image, *TWICE.words()])
    asked = "/".join(["open 1", "alloc 1 0 W - 2", "alloc 1 2 - - 1", "delete 1 0 W 2", "write 1 3 - 33"])
    program.run([image, "run", "low"], lines_of(asked, TWICE))
    certificate, no_cap = program.run([image, "audit"]).out, "0" * 32
    rows = (
        (0, ["check"], b""), (0, ["info"], b""), (0, ["audit"], b""), (0, ["verify"], certificate),
        (DENIED, ["shell", "inode", "0", no_cap, "low"], b"df\n"),
        (DENIED, ["files", "chain", "0", no_cap, "low"], b""),
        (DENIED, ["copyfs", "inode", "0", no_cap, "chain", "1", no_cap, "low"], b""),
    )
    for status, words, given in rows:
        recording = recorder.run(image, words, given)
        reads = [event for event in recording.events if event.kind == READ]
        headers = sum(event.offset < SECTOR for event in reads)
        syncs, writes = (sum(event.kind == kind for event in recording.events) for kind in (SYNC, WRITE))
        found = recording.status, headers, syncs, writes
        yield compared(f"{words[0]} opens the image once and writes nothing", (status, 1, 1, 0), found)


# --- what a format leaves ---

def format_results(recorder: Recorder, image: Path) -> Iterator[Result]:
    """Two disks over a file that begins as a disk does and holds anything: which sectors are written, with what, and
    which are left. Twelve calls write them: the format gate twice, the header, eight gates, and in one call the row of
    all tables and primary blocks."""
    yield from formatted_results(recorder, image, Size(8, 1, 8, 1), 18, {
        0: b"TSDISK01" + numbers(1, 1, 8, 1, 8), 1: b"\1", 132: caps_of(1), 135: b"\1",
    }, [2, 117, 119, 121, 123, 125, 127, 129, 131, 133, 134, 136, 137])
    yield from formatted_results(recorder, image, Size(129, 2, 65, 3), 25, {
        0: b"TSDISK01" + numbers(1, 2, 129, 3, 65), 1: b"\1", 132: caps_of(3), 136: b"\7",
    }, [2, 117, 119, 121, 123, 125, 127, 129, 131, 133, 134, 135, 137, 138, *range(139, 145)])


def numbers(*values: int) -> bytes:
    """Numbers of four bytes, the lowest first."""
    return b"".join(value.to_bytes(4, "little") for value in values)


def caps_of(primaries: int) -> bytes:
    """The capabilities of so many primary blocks."""
    return b"".join(read_cap + write_cap for read_cap, write_cap in seed_caps(SEED)[:primaries])


def formatted_results(
    recorder: Recorder, image: Path, size: Size, sectors: int, said: Dict[int, bytes], zeros: List[int]
) -> Iterator[Result]:
    """One of them: these sectors begin so, these have zeros, and all others are as they were."""
    end, rubbish = 160, b"\xee" * SECTOR
    image.unlink(missing_ok=True)
    image.touch(mode=0o600)
    image.write_bytes(b"TSDISK01" + (rubbish * end)[8:])
    recording = recorder.run(image, size.words())
    kinds = [event.kind for event in recording.events]
    name = f"a format of {size.blocks} blocks of {size.sectors}"
    yield compared(f"{name}: sectors written, writes, syncs and puts", (0, sectors, 12, 3, 1),
                   (recording.status, writes_between(recording)[0], kinds.count(WRITE), kinds.count(SYNC),
                    kinds.count(PUT)))
    data = image.read_bytes()
    wanted = {**dict.fromkeys(zeros, b""), **said}
    for sector in range(end):
        right = wanted[sector].ljust(SECTOR, b"\0") if sector in wanted else rubbish
        if data[SECTOR * sector:SECTOR * (sector + 1)] != right:
            yield failed(f"{name}: sector {sector}", f"it has {data[SECTOR * sector:SECTOR * sector + 40]!r}")
            return
    yield compared(f"{name}: sectors in all", SECTOR * end, len(data))


def run(context: Context) -> Iterator[Result]:
    """All of it."""
    program, image = Program(context.program), context.folder / "disk_rows.img"
    for row in ROWS:
        for upgraded in (False, True):
            for killed in (False, True):
                yield row_result(program, image, row, upgraded, killed)
    yield from ahead_results(program, image)
    if context.compiler is None:
        yield skipped("how often the disk is written", "no C compiler was found")
        return
    try:
        recorder = Recorder(context.program, context.compiler, context.folder)
        recorder.refuse_blindness(context.folder / "seen.img")
    except NoRecorder as no_recorder:
        yield skipped("how often the disk is written", str(no_recorder))
        return
    yield from write_results(recorder, program, image)
    yield from read_results(recorder, program, image)
    yield from look_results(recorder, program, image)
    yield from format_results(recorder, image)

"""What lies behind the image in a file stays, whatever the command: bytes from the disk's total of sectors on, which
may be anybody's. Each command is done over a file that is longer than its disk and full of drawn bytes.
"""

from __future__ import annotations

import signal
import subprocess
import time
from pathlib import Path
from typing import Iterator, List, NamedTuple, Sequence, Tuple

from image_writer import COUNTS_SECTOR, FIELDS, SECTOR, sectors_for
from parts import Context, Result, compared
from program import Program

NAME = "behind"
SEED = "07" * 32
# Blocks, sectors of a block, slots and primary blocks.
SIZES = ((8, 1, 16, 1), (64, 1, 256, 2), (40, 8, 100, 2))
# So many sectors stand behind the disk.
MORE = 40
TREE = b"mkfs\nput /a 6869\nput /b 00\nrm /b\nput /a 68696a\n"
# Frames of files: /c is put, /a is removed, and the size of /c is asked for.
FRAMES = b"\x06\0\2\1\1chi\4\0\7\1\1a\4\0\x10\1\1c"

Step = Tuple[Sequence[object], bytes, int]


class Caps(NamedTuple):
    """The capabilities of a primary block."""

    read: str
    write: str


def total_of(image: bytes) -> int:
    """The disk's total of sectors, as its header has it."""
    blocks, sectors, slots = (int.from_bytes(image[FIELDS[field]:FIELDS[field] + 4], "little")
                              for field in ("blocks", "sectors", "slots"))
    return sectors_of(blocks, sectors, slots)


def sectors_of(blocks: int, sectors: int, slots: int) -> int:
    """How many sectors a disk of this size takes."""
    return (COUNTS_SECTOR + sectors_for(4 * blocks, SECTOR) + sectors_for(blocks, 8 * SECTOR)
            + sectors_for(8 * slots, SECTOR) + sectors * blocks)


def lines(requests: Sequence[str]) -> bytes:
    """Requests as the input of a run."""
    return "".join(f"{request}\n" for request in requests).encode()


def changes(caps: Caps) -> bytes:
    """Requests that write, allocate in both ways, delete a chain, and lose a cycle, which a sweep takes."""
    return lines([
        "open 1", f"write 1 0 {caps.write} 6869", f"alloc 1 0 {caps.write} - 2", "alloc 1 1 - - 1", "write 1 1 - ff",
        f"delete 1 0 {caps.write} 1", f"contig 1 0 {caps.write} - 2", f"list 1 0 {caps.read} 0", "free",
        f"alloc 1 0 {caps.write} - 1", f"sweep 1 {caps.write}", "close 1",
    ])


def steps_of(caps: List[Caps], primaries: int) -> Iterator[Step]:
    """Commands in turn over one disk: words, input, and the status that is wanted."""
    first = caps[0]
    yield ["check"], b"", 0
    yield ["run", "near"], changes(first), 0
    yield ["serve", "low"], b"\1\0\7", 0
    yield ["load", SEED, "300", "zone"], b"", 0
    yield ["audit"], b"", 0
    yield ["verify"], b"block 0 depth 0 parent -\n", 0
    if primaries > 1:
        yield ["shell", "inode", "0", first.write, "near"], TREE, 0
        yield ["files", "inode", "0", first.write, "near"], FRAMES, 0
        yield ["copyfs", "inode", "0", first.write, "chain", "1", caps[1].write, "near"], b"", 0
    yield ["upgrade"], b"", 0
    yield ["run", "spread"], changes(first), 0
    yield ["check"], b"", 0


def killed(program: Program, path: Path, caps: Caps) -> None:
    """A run that is killed while it writes."""
    child = subprocess.Popen([str(program.path), str(path), "run", "near"], stdin=subprocess.PIPE,
                             stdout=subprocess.DEVNULL, stderr=subprocess.DEVNULL)
    assert child.stdin is not None
    child.stdin.write(lines(["open 1", *[f"write 1 0 {caps.write} 6869"] * 2000]))
    child.stdin.flush()
    time.sleep(0.05)
    child.send_signal(signal.SIGKILL)
    child.wait()
    child.stdin.close()


def size_results(context: Context, size: Tuple[int, int, int, int]) -> Iterator[Result]:
    """Every command over one disk."""
    blocks, sectors, slots, primaries = size
    runner, path = Program(context.program), context.folder / f"{blocks}-{sectors}.img"
    drawn = context.random(f"behind/{blocks}/{sectors}")
    total = sectors_of(blocks, sectors, slots)
    path.write_bytes(drawn.randbytes(SECTOR * (total + MORE)))
    behind = path.read_bytes()[SECTOR * total:]
    run = runner.run(["--overwrite", path, "format", *map(str, size[:3]), str(primaries), SEED])
    name = f"{blocks} blocks of {sectors}"
    yield compared(f"{name}: format", (0, total), (run.status, total_of(path.read_bytes())))
    yield compared(f"{name}: format leaves what lies behind", behind, path.read_bytes()[SECTOR * total:])
    caps = [Caps(*row.split()[-2:]) for row in run.out.decode().splitlines()]
    for number, (words, text, status) in enumerate(steps_of(caps, primaries)):
        run = runner.run([path, *words], text)
        yield compared(f"{name}: {words[0]}, step {number}", status, run.status)
        yield compared(f"{name}: {words[0]} leaves what lies behind, step {number}", behind,
                       path.read_bytes()[SECTOR * total:])
    killed(runner, path, caps[0])
    yield compared(f"{name}: a killed run leaves it", behind, path.read_bytes()[SECTOR * total:])
    yield compared(f"{name}: a check behind it", 0, runner.run([path, "check"]).status)
    yield compared(f"{name}: and leaves it too", behind, path.read_bytes()[SECTOR * total:])


def fresh_results(context: Context) -> Iterator[Result]:
    """A disk that is made over a longer file by `fresh`, and over two by `mirror`."""
    runner, drawn = Program(context.program), context.random("behind/fresh")
    content = drawn.randbytes(SECTOR * 400)
    one, two = context.folder / "one.img", context.folder / "two.img"
    words = ["fresh", "16", "1", "aa" * 16, "bb" * 16, "near"]
    text = changes(Caps("aa" * 16, "bb" * 16))
    for path in (one, two):
        path.write_bytes(content)
    run = runner.run(["--overwrite", one, *words], text)
    total = total_of(one.read_bytes())
    yield compared("fresh", (0, content[SECTOR * total:]), (run.status, one.read_bytes()[SECTOR * total:]))
    run = runner.run(["--overwrite", "mirror", one, two, "run", "near"], text)
    yield compared("a mirror", 0, run.status)
    for path in (one, two):
        yield compared(f"a mirror leaves what lies behind {path.name}", content[SECTOR * total:],
                       path.read_bytes()[SECTOR * total:])


def run(context: Context) -> Iterator[Result]:
    """Results over disks of each size, then over those of `fresh` and `mirror`."""
    for size in SIZES:
        yield from size_results(context, size)
    yield from fresh_results(context)

#!/usr/bin/env python3
"""A program that answers `tsd IMAGE files KIND ROOT CAP PLACE` as docs/FILES.md has it, by the model of tests/, with
its tree in memory: a stand-in for what the program can't be made to do. Not a disk. By `serve` it answers as an open
disk does whose block is blank."""

import sys
from pathlib import Path
from typing import Iterator

sys.dont_write_bytecode = True
sys.path.insert(0, str(Path(__file__).resolve().parent.parent.parent / "tests"))

from file_model import FileModel  # noqa: E402
from file_text import Ask, ask_body  # noqa: E402

BLOCKS, LENGTH = 8192, 4096
SIZES = {"small.img": (8, 512), "middle.img": (100, 512)}
GOOD = b"bb" * 16
# A file at which it dies, in the middle of an answer.
DEADLY = ask_body(Ask("cat", (b"die",))), ask_body(Ask("size", (b"die",)))
REPLIES = {255: b"\x08\0", 1: b"\1", 2: b"\1", 3: b"\2" + bytes(512), 12: b"\6"}


def bodies() -> Iterator[bytes]:
    """The bodies of the frames of standard input."""
    while True:
        length = int.from_bytes(sys.stdin.buffer.read(2), "little")
        if not length:
            return
        yield sys.stdin.buffer.read(length)


def say(answer: bytes) -> None:
    """Sends an answer."""
    sys.stdout.buffer.write(answer)
    sys.stdout.buffer.flush()


def serve() -> int:
    """Answers requests to the end of the input."""
    for body in bodies():
        reply = REPLIES[body[0]]
        say(len(reply).to_bytes(2, "little") + reply)
    return 0


def main() -> int:
    """Answers asks to the end of the input."""
    if sys.argv[2] == "serve":
        return serve()
    image, _, kind, root, cap, _ = sys.argv[1:]
    shown = Path(cap[1:]).read_bytes().split()[0] if cap.startswith("@") else cap.encode()
    if root != "0" or shown != GOOD:
        print("tsd: root denied, none attained", file=sys.stderr)
        return 10
    blocks, length = SIZES.get(image, (BLOCKS, LENGTH))
    model = FileModel(kind, length, blocks - 1, 0, 4 * blocks)
    for body in bodies():
        if body == DEADLY[0]:
            say(b"data 61")
            print("tsd: device fault", file=sys.stderr)
            return 4
        say(b"file 5\n" if body == DEADLY[1] else model.answer_body(body))
    return 0


sys.exit(main())

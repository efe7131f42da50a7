"""Microseconds of a request from Python, for bench/embedding.py:

    python3 bench/python_requests.py WAY IMAGE CAPABILITY COUNT

WAY is `program` or `library`: the package in python/ by the program and two pipes, or by the library in this process;
or `program-frames` or `library-frames`: the same requests as frames that were made before, by bare calls."""

from __future__ import annotations

import ctypes
import os
import subprocess
import sys
import time
from pathlib import Path
from typing import Callable

sys.path.insert(0, str(Path(__file__).resolve().parent.parent / "python"))

import tsd  # noqa: E402
from tsd import embedded, requests  # noqa: E402
from tsd.frames import frame  # noqa: E402
from tsd.programs import program_words  # noqa: E402

SHORT_REPLY, DATA_REPLY = 3, 515
DATA = b"\x5a" * 512


def micros(work: Callable[[], object], count: int) -> float:
    """How long each takes."""
    began = time.perf_counter()
    for _ in range(count):
        work()
    return (time.perf_counter() - began) / count * 1e6


def told(read: Callable[[], bytes], write: Callable[[], object], count: int) -> None:
    """Times both, and prints what they took."""
    write()
    assert DATA in read()
    print(f"read {micros(read, count):.3f}\nwrite {micros(write, count // 10):.3f}")


def by_client(image: str, cap: tsd.Capability, count: int, is_embedded: bool) -> None:
    """By the package's calls."""
    with tsd.open(image, group=False, embedded=is_embedded) as disk, disk.session() as session:
        told(lambda: session.read(0, cap), lambda: session.write(0, DATA, cap), count)


def by_frames(image: str, cap: tsd.Capability, count: int, is_embedded: bool) -> None:
    """By bare calls."""
    begin, read, write = (frame(request.encode(1)) for request in
                          (requests.Begin(), requests.Read(0, cap), requests.Write(0, DATA, cap)))
    ask = by_library(image) if is_embedded else by_pipes(image)
    ask(begin, SHORT_REPLY)
    told(lambda: ask(read, DATA_REPLY), lambda: ask(write, SHORT_REPLY), count)


def by_library(image: str) -> Callable[[bytes, int], bytes]:
    """What carries out a frame in this process."""
    library, disk, filled = embedded.loaded(embedded.library_path()), ctypes.c_void_p(), ctypes.c_size_t()
    assert library.tsd_embed_open(os.fsencode(image), ctypes.byref(disk)) == embedded.DONE
    room, pointer = ctypes.create_string_buffer(embedded.ROOM), ctypes.byref(filled)

    def ask(text: bytes, _: int) -> bytes:
        assert library.tsd_embed_apply(disk, text, len(text), room, embedded.ROOM, pointer) == embedded.DONE
        return room[:filled.value]

    return ask


def by_pipes(image: str) -> Callable[[bytes, int], bytes]:
    """What sends a frame, and reads so many bytes of its reply."""
    process = subprocess.Popen([*program_words(), image, "serve", "near"], stdin=subprocess.PIPE,
                               stdout=subprocess.PIPE, bufsize=0)
    assert process.stdin is not None and process.stdout is not None
    writing, reading = process.stdin.fileno(), process.stdout.fileno()

    def ask(text: bytes, length: int) -> bytes:
        os.write(writing, text)
        reply = os.read(reading, length)
        while len(reply) < length:
            reply += os.read(reading, length - len(reply))
        return reply

    return ask


def main() -> None:
    """Measures one way."""
    way, image, digits, count = sys.argv[1:]
    measured = by_frames if way.endswith("-frames") else by_client
    measured(image, tsd.Capability.from_hex(digits), int(count), way.startswith("library"))


if __name__ == "__main__":
    main()

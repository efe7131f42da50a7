"""Runs the built program with words and an input, and tells how it ended."""

from __future__ import annotations

import os
import re
import subprocess
import tempfile
import threading
from itertools import cycle
from pathlib import Path
from typing import Callable, Iterator, NamedTuple, Optional, Sequence, Union

MOST_SECONDS = 120


# What the program says beside the fault of an image whose file is shorter than its header says; `slips` tries it.
SHORTER = re.compile(rb"^tsd: .* is \d+ bytes shorter than its header says: it has \d+ of \d+\n", re.M)


# What a mirror says that has copied the first image to the second; `slips` tries it.
COPIED = re.compile(rb"^tsd: .*: \d+ sectors were copied to it from .*\n", re.M)


def without_copying(error: bytes) -> bytes:
    """What was told on standard error, but for how many sectors a mirror copied."""
    return COPIED.sub(b"", error)


def without_length(error: bytes) -> bytes:
    """What was told on standard error, but for how much shorter than it should be the image's file is."""
    return SHORTER.sub(b"", error)


class Run(NamedTuple):
    """How a run ended: its exit status, what stands on standard output, and on standard error."""

    status: int
    out: bytes
    error: bytes


Word = Union[str, bytes, Path]


def pieces_of(text: bytes, sizes: Sequence[int]) -> Iterator[bytes]:
    """The text cut into pieces of these sizes, which are gone through again and again."""
    at = 0
    for size in cycle(sizes):
        if at >= len(text):
            return
        yield text[at:at + size]
        at += size


def write_image(path: Path, content: bytes) -> None:
    """Writes a file that its owner alone may read, as the program makes them: an image holds capabilities."""
    path.touch(mode=0o600)
    path.write_bytes(content)


class Program:
    """The program at a path. Its runs may not take longer than two minutes each; a longer one is status -1."""

    def __init__(self, path: Path) -> None:
        self.path = path

    def run(
        self,
        words: Sequence[Word],
        text: bytes = b"",
        before: Optional[Callable[[], None]] = None,
    ) -> Run:
        """Runs it with these words and this input. `before` is called in the child before the program begins."""
        try:
            done = subprocess.run(self._command(words), input=text, capture_output=True, timeout=MOST_SECONDS,
                                  preexec_fn=before)
        except subprocess.TimeoutExpired as late:
            return Run(-1, late.stdout or b"", b"it was stopped after %d seconds" % MOST_SECONDS)
        return Run(done.returncode, done.stdout, done.stderr)

    def run_in_pieces(self, words: Sequence[Word], text: bytes, sizes: Sequence[int]) -> Run:
        """The same with an input that comes in pieces of these sizes, each in a take of its own: the pipe keeps apart
        what was written apart, where the system knows such pipes."""
        reading, writing = os.pipe2(os.O_CLOEXEC | getattr(os, "O_DIRECT", 0))
        with tempfile.TemporaryFile() as out, tempfile.TemporaryFile() as error:
            child = subprocess.Popen(self._command(words), stdin=reading, stdout=out, stderr=error)
            os.close(reading)
            late = threading.Timer(MOST_SECONDS, child.kill)
            late.start()
            try:
                for piece in pieces_of(text, sizes):
                    os.write(writing, piece)
            except BrokenPipeError:
                pass
            os.close(writing)
            status = child.wait()
            late.cancel()
            out.seek(0)
            error.seek(0)
            return Run(status, out.read(), error.read())

    def _command(self, words: Sequence[Word]) -> list:
        return [str(self.path)] + [word if isinstance(word, bytes) else str(word) for word in words]

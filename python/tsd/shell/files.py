"""Files over the asks of the command `files`: what is there, changes, and the bytes of files as they come."""

from __future__ import annotations

import contextlib
from typing import Callable, Generator, Iterator, List, NamedTuple, Optional

from tsd.errors import NoReply, TsdError
from tsd.shell.asks import MOST_DATA, ask_of, bringing, reading
from tsd.shell.program import ShellProgram
from tsd.shell.refusals import Limits, ShellRefused

# Is called with how many bytes have gone or come; what it raises stops the transfer.
Progress = Callable[[int], None]
DATA = b"data "
NONE = b"-"
FILE, DIRECTORY = "file", "directory"


class Stat(NamedTuple):
    """What stands at a path: a file, with how many bytes it has, or a directory."""

    kind: str
    size: int = 0


class Stopped(TsdError):
    """A transfer was stopped by whoever looks at its progress."""

    def __str__(self) -> str:
        return "stopped"


def no_progress(count: int) -> None:
    """Nobody looks."""


class Files:
    """The files of a disk. Paths are such as `disk_path` gives. A refusal names them, and the limits of the disk."""

    def __init__(self, program: ShellProgram, limits: Limits) -> None:
        self._program = program
        self.limits = limits

    @property
    def kind(self) -> str:
        """The file system."""
        return self.limits.kind

    # --- what is there ---

    def free(self) -> int:
        """How many blocks are free."""
        return int(self._expect(ask_of("df"), "free")[0])

    def names(self, path: str) -> List[str]:
        """The names in a directory, in order."""
        names = self._expect(ask_of("ls", path), "names", path)
        return [] if names == ["-"] else names

    def stat(self, path: str) -> Stat:
        """What is there; a refusal where nothing is. A file isn't read for it."""
        return stat_of(self._ask(ask_of("size", path), path))

    def found(self, path: str) -> Optional[Stat]:
        """What is there, or None; a refusal where a file is on the way."""
        try:
            return self.stat(path)
        except ShellRefused as refused:
            if refused.rule != "no-entry":
                raise
            return None

    def look(self, path: str) -> Optional[str]:
        """What is there: a file, a directory, or nothing; a refusal where a file is on the way."""
        found = self.found(path)
        return found and found.kind

    # --- changes ---

    def do(self, name: str, *paths: str) -> None:
        """An ask that is answered `ok`: mkfs, mkdir, rm, cp."""
        self._expect(ask_of(name, *paths), "ok", *paths)

    def bring(self, name: str, path: str, data: bytes) -> None:
        """A `put` or an `append`, of at most as many bytes as an ask brings."""
        self._expect(bringing(name, path, data), "ok", path)

    # --- the bytes of files ---

    def get(self, path: str, progress: Progress = no_progress) -> Generator[bytes, None, None]:
        """A file's bytes, as they come: all by one ask, in whose answer each part goes on where the one before ended.
        A stop passes over the rest of it."""
        return self._bytes(ask_of("cat", path), path, progress)

    def part(
        self, path: str, start: int, count: int, progress: Progress = no_progress
    ) -> Generator[bytes, None, None]:
        """So many bytes of a file from one on, or as many as it has there, piece by piece. Each is an ask of its own,
        which goes to the file anew: it is for what is short beside the file."""
        come = 0
        while come < count:
            wanted = min(MOST_DATA, count - come)
            piece = b"".join(self._bytes(reading(path, start + come, wanted), path))
            come += len(piece)
            progress(come)
            yield piece
            if len(piece) < wanted:
                return

    # --- asks ---

    def _expect(self, body: bytes, first: str, *paths: str) -> List[str]:
        try:
            return self._program.expect(body, first)
        except ShellRefused as refused:
            raise self._told(refused, *paths) from None

    def _ask(self, body: bytes, path: str) -> List[str]:
        try:
            return self._program.ask(body)
        except ShellRefused as refused:
            raise self._told(refused, path) from None

    def _bytes(
        self, body: bytes, path: str, progress: Progress = no_progress
    ) -> Generator[bytes, None, None]:
        with contextlib.closing(self._program.pieces(body)) as pieces:
            try:
                yield from bytes_of(pieces, progress)
            except ShellRefused as refused:
                raise self._told(refused, path) from None

    def _told(self, refused: ShellRefused, *paths: str) -> ShellRefused:
        refused.paths, refused.limits = paths, self.limits
        return refused


def stat_of(words: List[str]) -> Stat:
    """What words tell of a path."""
    if words == ["dir"]:
        return Stat(DIRECTORY)
    if len(words) == 2 and words[0] == "file" and words[1].isascii() and words[1].isdecimal():
        return Stat(FILE, int(words[1]))
    raise NoReply(f"an answer tells no file and no directory: {' '.join(words)[:40]!r}")


def bytes_of(pieces: Iterator[bytes], progress: Progress) -> Iterator[bytes]:
    """The bytes that the pieces of a `data` answer spell; a digit that waits for its other half waits here."""
    text, count, is_begun = b"", 0, False
    for piece in pieces:
        text += piece
        if not is_begun:
            if len(text) < len(DATA) and DATA.startswith(text):
                continue
            if not text.startswith(DATA):
                raise NoReply("an answer has no bytes")
            is_begun, text = True, text[len(DATA):]
        if text == NONE:
            continue
        even = len(text) // 2 * 2
        data, text = decoded(text[:even]), text[even:]
        count += len(data)
        progress(count)
        yield data
    if text and (text != NONE or count):
        raise NoReply("an answer ends inside a byte")


def decoded(digits: bytes) -> bytes:
    """The bytes that digits spell."""
    try:
        return bytes.fromhex(digits.decode("ascii"))
    except ValueError:
        raise NoReply("an answer has what is no digit") from None

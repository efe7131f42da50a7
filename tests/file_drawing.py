"""Draws asks of a file system at random, as lines or as frames, beside a model of it."""

from __future__ import annotations

import random
from typing import Callable, Dict, List, NamedTuple, Tuple

from file_model import FileModel
from file_text import INODE, Ask, Path, ask_body, ask_line, frame_of
from file_trees import Directory, File

NAMES = (b"a", b"aa", b"b", b"B", b"docs", b"x" * 28, b"0", b"a.b", b"_-")
# Names of which there are more than a small directory takes.
MANY_NAMES = NAMES + tuple(b"n%d" % number for number in range(25))
WEIGHTS: Dict[str, int] = {
    "mkfs": 1, "put": 24, "append": 16, "cat": 14, "ls": 10, "mkdir": 10, "rm": 12, "cp": 10, "df": 6,
}
# Those that no line spells, beside the others.
LOOK_WEIGHTS = {**WEIGHTS, "size": 14, "read": 14, "next": 14}
NOISE_PERCENT = 5
NOISE = (b"", b"mkfs ", b"put /a", b"put a 00", b"put /a 0", b"cat /.", b"cat //a", b"cat /a/", b"ls", b"rm /..",
         b"df -", b"put /" + b"x" * 29 + b" -", b"cp /a", b"MKFS", b"cat " + b"/a" * 17, b"put /a " + b"00" * 4097)
# Bodies that ask nothing: none, other codes, a field too many or too few, names and paths that are none.
NO_BODIES = (b"", b"\0", b"\x0a", b"\x0f", b"\x13", b"\xff", b"\1\0", b"\2", b"\4\1\1", b"\4\1\1/", b"\4\1\2..",
             b"\4\1\1-", b"\4\1\0", b"\4\0\0", b"\4\1\x1d" + b"x" * 29, b"\4\x11" + b"\1a" * 17, b"\x10\1\1a\0",
             b"\x11\1\1a" + bytes(11), b"\x11\1\1a" + bytes(13), b"\x12\0", b"\x12\0\1-", b"\x12\0\1ab",
             b"\2\1\1a" + bytes(4097))
MOST_DATA = 3000


class FileDrawer:
    """Draws asks; each is carried out by the model beside."""

    def __init__(self, rng: random.Random, model: FileModel) -> None:
        self.rng = rng
        self.model = model
        self.names = rng.choice((NAMES, MANY_NAMES))

    def line(self) -> bytes:
        """The next line, without its line feed."""
        is_noise = self.rng.randrange(100) < NOISE_PERCENT
        return self.rng.choice(NOISE) if is_noise else line_of(self.ask(WEIGHTS))

    def body(self) -> bytes:
        """The body of the next frame."""
        is_noise = self.rng.randrange(100) < NOISE_PERCENT
        return self.rng.choice(NO_BODIES) if is_noise else ask_body(self.ask(LOOK_WEIGHTS))

    def ask(self, weights: Dict[str, int]) -> Ask:
        """The next ask, of those that have a weight."""
        rng = self.rng
        name = rng.choices(list(weights), list(weights.values()))[0]
        if self.model.root is None and rng.random() < 0.7:
            name = "mkfs"
        start = rng.choice((0, 1, rng.randrange(3 * self.model.length), 2 ** 64 - 1))
        count = rng.choice((0, 1, rng.randrange(3 * self.model.length), 2 ** 32 - 1))
        after = rng.choice((b"", *self.names))
        return Ask(name, self.path(name), self.data(), self.path("put"), start, count, after)

    def places(self) -> Tuple[List[Path], List[Path]]:
        """The paths of all directories, and of all files."""
        directories: List[Path] = []
        files: List[Path] = []
        waiting: List[Tuple[Path, Directory]] = [((), self.model.root)] if self.model.root else []
        while waiting:
            path, directory = waiting.pop()
            directories.append(path)
            for name, below in directory.entries.items():
                if isinstance(below, File):
                    files.append(path + (name,))
                else:
                    waiting.append((path + (name,), below))
        return directories, files

    def path(self, name: str) -> Path:
        """A path for an ask: mostly of what it takes, else what is there, a new name, or one that leads nowhere."""
        rng = self.rng
        directories, files = self.places()
        draw = rng.random()
        if draw < 0.7 and name in ("append", "cat", "cp", "rm", "size", "read") and files:
            return rng.choice(files)
        if draw < 0.7 and name in ("ls", "next") or draw > 0.8 and name in ("rm", "size"):
            return rng.choice(directories or [()])
        if draw > 0.9:
            return rng.choice(directories + files + [(rng.choice(NAMES),)])
        above = rng.choice(directories or [()]) if draw < 0.8 or not files else rng.choice(files)
        return above + (rng.choice(self.names),) if len(above) < 16 else above

    def data(self) -> bytes:
        """Bytes: of lengths about those of a block."""
        rng = self.rng
        block = self.model.length
        room = block if self.model.kind == INODE else block - 16
        length = rng.choice([0, 1, rng.randint(1, 40), room - 1, room, room + 1, 2 * room, rng.randint(0, 3 * room)])
        return bytes([rng.randrange(256)]) * min(length, MOST_DATA)


def line_of(ask: Ask) -> bytes:
    """The line of an ask, without its line feed."""
    return ask_line(ask)[:-1]


class Way(NamedTuple):
    """How asks go to the program: the command; an ask as it spells it; that as it is sent; what the model answers to
    it; and how one is drawn."""

    command: str
    spelled: Callable[[Ask], bytes]
    sent: Callable[[bytes], bytes]
    answer: Callable[[FileModel, bytes], bytes]
    drawn: Callable[[FileDrawer], bytes]


LINES = Way("shell", line_of, lambda line: line + b"\n", FileModel.answer, FileDrawer.line)
FRAMES = Way("files", ask_body, frame_of, FileModel.answer_body, FileDrawer.body)

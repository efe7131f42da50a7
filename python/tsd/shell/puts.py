"""Whole files to the disk. A long file is first written beside the tree's own names, so that the old one stays until
the new one is whole; and what a put left that was cut off is found, finished or taken away.

Over inodes a directory is made, in the top one where that has room:  put-1a2b3c4d/new   the new file, as it grows
                                                                      put-1a2b3c4d/to    once it is whole: its path
Over chains, which have no directories and no `cp`:                   put-1a2b3c4d, put-1a2b3c4d.to   the same
                                                                      put-1a2b3c4d.at    the path of a file that grows
"""

from __future__ import annotations

import contextlib
import re
import secrets
import tempfile
from enum import Enum
from itertools import chain
from typing import Callable, Dict, Iterator, List, NamedTuple, Optional, Protocol, Tuple

from tsd.errors import TsdError
from tsd.shell.asks import MOST_DATA
from tsd.shell.files import DIRECTORY, FILE, Files, Progress, Stopped, no_progress
from tsd.shell.paths import INODE, MOST_NAMES, BadPath, below, disk_path, split_path
from tsd.shell.refusals import ShellRefused

NAME = re.compile(r"(put-[0-9a-f]{8})(|\.to|\.at)\Z")
# Over chains: a cluster for the path, and one that the directory may grow by.
MORE_CLUSTERS = 2


class State(Enum):
    """What a put that was cut off left."""

    WHOLE = "the new file is whole, and hasn't taken its place"
    PART = "a part of the new file; the old one, if there was one, is as it was"
    BEGUN = "the file itself may have only its first bytes"
    DONE = "only its path is left"


class Stage(NamedTuple):
    """Where a long put writes first."""

    kind: str
    at: str

    @property
    def new(self) -> str:
        """The new file."""
        return f"{self.at}/new" if self.kind == INODE else self.at

    @property
    def to(self) -> str:
        """A file with the path of the target: it is there once the new file is whole."""
        return f"{self.at}/to" if self.kind == INODE else f"{self.at}.to"

    @property
    def begun(self) -> str:
        """A file with the path of a file that grows in its place, over chains."""
        return f"{self.at}.at"

    @property
    def copy(self) -> str:
        """A second name for the new file, for a moment, over inodes."""
        return f"{self.at}/copy"


class Left(NamedTuple):
    """What an earlier put left."""

    stage: Stage
    state: State
    target: Optional[str]

    def __str__(self) -> str:
        target = f" of {self.target}" if self.target else ""
        return f"{self.stage.at}: an earlier put{target} was cut off: {self.state.value}"


class NoRoomForBoth(TsdError):
    """Over chains: there is no room to keep the old file until the new one is whole."""

    def __init__(self, path: str, free: int, needed: int) -> None:
        super().__init__(path, free, needed)
        self.path = path
        self.free = free
        self.needed = needed

    def __str__(self) -> str:
        return (f"no room to keep the old file until the new one is whole: {self.free:,} blocks free, {self.needed:,} "
                f"needed; rm {self.path} first, where it may go")


class CutOff(TsdError):
    """The new file is whole on the disk, and didn't come to its place."""

    def __init__(self, stage: Stage, cause: Exception) -> None:
        super().__init__(stage, cause)
        self.stage = stage
        self.cause = cause

    def __str__(self) -> str:
        return f"{self.cause}; the new file is whole at {self.stage.new}: `finish {self.stage.at}` puts it in its place"


class Source(Protocol):
    """Where the bytes of a file come from."""

    def read(self, count: int) -> bytes:
        """At most so many bytes; none at the end."""


# Whether the old file, of this path, may go before the new one is whole.
Consent = Callable[[str], bool]


def no_consent(path: str) -> bool:
    """It may not."""
    return False


class Puts:
    """Puts files to a disk, and finishes or takes away what was cut off."""

    def __init__(self, files: Files, consent: Consent = no_consent) -> None:
        self._files = files
        self._consent = consent
        self._begun: Dict[str, Stage] = {}

    @property
    def files(self) -> Files:
        """The files of the disk."""
        return self._files

    def put(
        self, source: Source, path: str, progress: Progress = no_progress, size: Optional[int] = None,
        is_empty: bool = False,
    ) -> None:
        """All bytes of a source, of so many bytes where that is known, to a file, in place of an old one, which has no
        bytes where `is_empty` says so.

        What one ask brings is one change. Of a longer one the room is looked at first. Over inodes it is written
        beside the tree, and takes its place when it is whole and the room for its name is shown; so over chains where
        there is an old one with bytes, and else it grows in its place. What a refusal or a stop cuts off is taken away:
        then there is what was there before.
        """
        first = source.read(MOST_DATA)
        second = source.read(MOST_DATA) if len(first) == MOST_DATA else b""
        if second:
            pieces = chain([first, second], iter(lambda: source.read(MOST_DATA), b""))
            self._put_long(pieces, path, progress, size, is_empty)
        else:
            self._files.bring("put", path, first)
            progress(len(first))
        self.settle(path)

    def replace(self, source: str, path: str) -> None:
        """Over inodes: a file of the disk comes to the place of another one, as a second name, which shares its blocks.
        The old one stays until the room for the name is shown; what a refusal cuts off is taken away."""
        self._put_beside(lambda new: self._files.do("cp", source, new), path, no_progress, True)
        self.settle(path)

    def settle(self, path: str) -> None:
        """What an earlier put left of a file at this path is no matter any more."""
        stage = self._begun.pop(path, None)
        if stage is not None:
            self.clear(stage)

    def _put_long(
        self, pieces: Iterator[bytes], path: str, progress: Progress, size: Optional[int], is_empty: bool
    ) -> None:
        found = self._files.look(path)
        if found == DIRECTORY:
            raise self._refused("is-dir", (), path)
        grows = self._files.kind != INODE and (found is None or is_empty)
        if self._files.kind == INODE or grows:
            self._check_room(path, size, found == FILE and grows)

        def write(new: str) -> None:
            self._write(pieces, new, progress)

        if self._files.kind == INODE:
            self._put_beside(write, path, progress, found == FILE)
        elif grows:
            self._put_at(pieces, path, progress, found == FILE)
        elif self._is_room_for_both(path, size):
            self._put_beside(write, path, progress, True)
        else:
            self._files.do("rm", path)
            self._put_at(pieces, path, progress, False)

    # --- room ---

    def _check_room(self, path: str, size: Optional[int], has_cluster: bool) -> None:
        """Refuses a file that can't have room, before anything is written. The old one may have a cluster for it."""
        needed = None if size is None else self._files.limits.blocks_for(size)
        if size is None or needed is None:
            return
        if self._files.limits.is_too_big(size):
            raise self._refused("too-big", (), path)
        free = self._files.free() + has_cluster
        if free < needed:
            raise self._refused("full", (free, needed), path)

    def _is_room_for_both(self, path: str, size: Optional[int]) -> bool:
        """Over chains the new file is written twice, the first time beside the old one. False where that has no room
        and the old one may go before; NoRoomForBoth where it may not."""
        needed = None if size is None else self._files.limits.blocks_for(size)
        if size is None or needed is None:
            return True
        free = self._files.free()
        if free >= 2 * needed + MORE_CLUSTERS:
            return True
        old = self._files.limits.blocks_for(self._files.stat(path).size) or 0
        if free + old < needed:
            raise self._refused("full", (free + old, needed), path)
        if not self._consent(path):
            raise NoRoomForBoth(path, free, 2 * needed + MORE_CLUSTERS)
        return False

    def _refused(self, rule: str, numbers: Tuple[int, ...], path: str) -> ShellRefused:
        refused = ShellRefused(rule, numbers)
        refused.paths, refused.limits = (path,), self._files.limits
        return refused

    # --- the new file ---

    def _put_at(self, pieces: Iterator[bytes], path: str, progress: Progress, is_there: bool) -> None:
        """A file over chains that grows in its place, where none or one without bytes is; so there is then where it is
        cut off."""
        stage = Stage(self._files.kind, below("/", f"put-{secrets.token_hex(4)}"))
        with contextlib.suppress(ShellRefused):
            self._files.bring("put", stage.begun, path.encode())
        try:
            self._write(pieces, path, progress)
        except (ShellRefused, Stopped, OSError):
            if is_there:
                self._files.bring("put", path, b"")
            else:
                self._remove(path)
            self._remove(stage.begun)
            raise
        self._remove(stage.begun)

    def _put_beside(self, write: Callable[[str], None], path: str, progress: Progress, is_old: bool) -> None:
        """A file that is whole before it takes its place; where it is cut off before, what was written is taken
        away."""
        stage = self._new_stage(path)
        try:
            write(stage.new)
            self._files.bring("put", stage.to, path.encode())
            if is_old:
                self._show_room(stage, path)
            else:
                self._files.do("cp", stage.new, path)
        except (ShellRefused, NoRoomForBoth, Stopped, OSError) as error:
            self.clear(stage)
            if isinstance(error, ShellRefused):
                error.paths = (path,)
            raise
        if is_old:
            self.finish(Left(stage, State.WHOLE, path), progress)
        else:
            self.clear(stage)

    def _new_stage(self, path: str) -> Stage:
        """A name beside all others: in the top directory, or where that is full in the one of the path."""
        above, name = split_path(path)[0], f"put-{secrets.token_hex(4)}"
        stage = Stage(self._files.kind, below("/", name))
        if self._files.kind != INODE:
            return stage
        try:
            self._files.do("mkdir", stage.at)
        except ShellRefused as refused:
            if refused.rule != "dir-full" or above == "/" or above.count("/") > MOST_NAMES - 2:
                refused.paths = (path,)
                raise
            stage = Stage(self._files.kind, below(above, name))
            self._files.do("mkdir", stage.at)
        return stage

    def _write(self, pieces: Iterator[bytes], path: str, progress: Progress) -> None:
        sent, name = 0, "put"
        for piece in pieces:
            self._files.bring(name, path, piece)
            sent, name = sent + len(piece), "append"
            progress(sent)

    def _show_room(self, stage: Stage, path: str) -> None:
        """Refuses where what follows would be. Over inodes a second name is made and goes again: the room that it had
        is then there for the last one, which nobody else can take. Over chains the file is written once more: what it
        took in clusters has to be free."""
        if self._files.kind == INODE:
            self._files.do("cp", stage.new, stage.copy)
            self._files.do("rm", stage.copy)
            return
        before = self._files.free()
        taken = self._files.limits.blocks_for(self._files.stat(stage.new).size)
        if taken is not None and before < taken:
            raise NoRoomForBoth(path, before, taken)

    # --- its place ---

    def finish(self, left: Left, progress: Progress = no_progress) -> None:
        """Puts a new file that is whole into its place, and takes away what is beside it. CutOff where that is refused
        or stopped: then the new file is still there."""
        stage, path = left.stage, left.target
        assert left.state is State.WHOLE and path is not None
        try:
            if stage.kind == INODE:
                if self._files.look(path) == FILE:
                    self._files.do("rm", path)
                self._files.do("cp", stage.new, path)
            else:
                self._write_again(stage.new, path, progress)
        except (ShellRefused, Stopped, OSError) as error:
            raise CutOff(stage, error) from None
        self.clear(stage)

    def _write_again(self, source: str, path: str, progress: Progress) -> None:
        """Over chains the bytes are read and written again: the old file goes with the first of them."""
        with tempfile.TemporaryFile() as file:
            for piece in self._files.get(source):
                file.write(piece)
            file.seek(0)
            self._write(iter(lambda: file.read(MOST_DATA), b""), path, progress)

    # --- what was cut off ---

    def clear(self, stage: Stage) -> None:
        """Takes away what stands beside the tree: the new file first, and then the path that says that it is whole."""
        self._remove(stage.copy if stage.kind == INODE else stage.begun)
        self._remove(stage.new)
        self._remove(stage.to)
        if stage.kind == INODE:
            self._remove(stage.at)

    def discard(self, left: Left) -> None:
        """Takes away what a put left: of a file that grew in its place over chains that file too."""
        if left.state is State.BEGUN and left.target is not None:
            self._remove(left.target)
            self._begun.pop(left.target, None)
        self.clear(left.stage)

    def left(self, directory: str = "/") -> List[Left]:
        """What earlier puts left in a directory."""
        try:
            names = self._files.names(directory)
        except ShellRefused:
            return []
        found = [match for match in map(NAME.match, names) if match]
        stages = dict.fromkeys(match[1] for match in found)
        left = [self._left_at(Stage(self._files.kind, below(directory, name)), names) for name in stages]
        self._begun = {one.target: one.stage for one in left if one.state is State.BEGUN and one.target is not None}
        return left

    def _left_at(self, stage: Stage, names: List[str]) -> Left:
        if stage.kind == INODE and self._files.look(stage.at) == FILE:
            return Left(stage, State.PART, None)
        inside = self._files.names(stage.at) if stage.kind == INODE else names
        has_new, has_to, is_begun = (split_path(path)[1] in inside for path in (stage.new, stage.to, stage.begun))
        if has_to:
            target = self._path_in(stage.to)
            return Left(stage, State.WHOLE if has_new and target else State.PART if has_new else State.DONE, target)
        if is_begun and not has_new:
            return Left(stage, State.BEGUN, self._path_in(stage.begun))
        return Left(stage, State.PART, None)

    def _path_in(self, file: str) -> Optional[str]:
        text = b"".join(self._files.get(file)).decode("latin-1")
        try:
            return disk_path(text)
        except BadPath:
            return None

    def _remove(self, path: str) -> None:
        """Takes something away, if it is there."""
        try:
            self._files.do("rm", path)
        except ShellRefused as refused:
            if refused.rule not in ("no-entry", "not-dir"):
                raise

"""The calls of a file system, over a tree of files of a disk. They have the names and the arguments that fusepy gives
them, and need nothing of it; what they refuse is an OSError with the system's number.

A file is held while somebody has it open, and goes to the disk when it is closed or synced: so it may be written
anywhere, and the old file stays until then. Nothing else is kept back: a name that was made, changed or taken away is
so on the disk when the call is answered.
"""

from __future__ import annotations

import contextlib
import errno
import logging
import os
import stat
import tempfile
import time
from typing import Any, Dict, Iterator, Optional, Tuple

from tsd.errors import TsdError
from tsd.mount.held import Held
from tsd.mount.known import Known
from tsd.mount.numbers import checked, failure, is_plain, number_of
from tsd.plain import plain_lines
from tsd.shell.asks import MOST_DATA
from tsd.shell.files import DIRECTORY, FILE, Files
from tsd.shell.paths import INODE, split_path
from tsd.shell.puts import Puts
from tsd.shell.trees import Trees

LOG = logging.getLogger("tsd.mount")
FILE_MODE, DIRECTORY_MODE = 0o644, 0o755
SECTOR = 512
MOST_NAME = 28


class Operations:
    """Of one tree. They are called one after the other."""

    # To fusepy: times are whole nanoseconds; an open file that has no name any more comes without a path.
    use_ns = True
    flag_nullpath_ok = 1

    def __init__(self, files: Files, blocks: int, is_read_only: bool = False, takes_modes: bool = False) -> None:
        """The disk has so many blocks. Where modes are taken, chmod and chown say that they did what they can't."""
        self._files = files
        self._known = Known(files)
        self._puts = Puts(files)
        self._trees = Trees(files, self._puts)
        self._blocks = blocks
        self._is_read_only = is_read_only
        self._takes_modes = takes_modes
        self._began = time.time_ns()
        self._times: Dict[str, Tuple[int, int]] = {}
        self._held: Dict[str, Held] = {}
        self._handles: Dict[int, Held] = {}
        self._last = 0
        self._free: Optional[int] = None
        self._told = ""

    @property
    def puts(self) -> Puts:
        """By which files go to the disk."""
        return self._puts

    def __call__(self, name: str, *given: Any) -> Any:
        """Carries out a call. What it can't do is an OSError; where its number doesn't tell all, the log does."""
        try:
            return getattr(self, name)(*given)
        except (TsdError, OSError) as error:
            if not is_plain(error):
                self._tell(name, given[0] if given else "", error)
            raise failure(number_of(error)) from None

    def _tell(self, name: str, path: object, error: Exception) -> None:
        """A line of the log; none where it would be the one before again."""
        why = getattr(error, "strerror", None) or str(error)
        text = plain_lines(f"{name} {path}: {'; '.join(why.splitlines())}")
        if text != self._told:
            LOG.error("%s", text)
        self._told = text

    # --- what is there ---

    def getattr(self, path: Optional[str], fh: Optional[int] = None) -> Dict[str, int]:
        held = self._handles.get(fh) if fh is not None else None
        if path is not None:
            path = checked(path)
            held = held or self._held.get(path)
        if held is not None:
            return self._about(held.path or "", FILE, held.size)
        if path is None:
            raise failure(errno.EBADF)
        kind = self._kind_at(path)
        return self._about(path, kind, self._known.size(path) if kind == FILE else 0)

    def _kind_at(self, path: str) -> str:
        kind = self._known.kind(path)
        if kind is None:
            raise failure(errno.ENOENT)
        return kind

    def _about(self, path: str, kind: str, size: int) -> Dict[str, int]:
        accessed, changed = self._times.get(path, (self._began, self._began))
        mode = stat.S_IFDIR | DIRECTORY_MODE if kind == DIRECTORY else stat.S_IFREG | FILE_MODE
        return {"st_mode": mode, "st_nlink": 2 if kind == DIRECTORY else 1, "st_size": size, "st_uid": os.getuid(),
                "st_gid": os.getgid(), "st_atime": accessed, "st_mtime": changed, "st_ctime": changed,
                "st_blocks": -(-size // SECTOR)}

    def readdir(self, path: Optional[str], fh: int) -> Iterator[str]:
        return iter([".", "..", *self._known.names(checked(path or "/"))])

    def statfs(self, path: str) -> Dict[str, int]:
        length = self._files.limits.block_length or SECTOR
        free = self._room()
        return {"f_bsize": length, "f_frsize": length, "f_blocks": self._blocks, "f_bfree": free, "f_bavail": free,
                "f_namemax": MOST_NAME}

    def _room(self) -> int:
        """How many blocks are free."""
        if self._free is None:
            self._free = self._files.free()
        return self._free

    # --- open files ---

    def open(self, path: str, flags: int) -> int:
        path = checked(path)
        is_writing = flags & os.O_ACCMODE != os.O_RDONLY
        if is_writing:
            self._check_writable()
        if self._kind_at(path) == DIRECTORY:
            raise failure(errno.EISDIR)
        held = self._held.get(path)
        if is_writing and flags & os.O_TRUNC:
            if held is None:
                held = Held.emptied(path, self._known.size(path))
            held.cut(0)
        return self._handle(held or Held(path, self._known.pieces(path)))

    def create(self, path: str, mode: int, fi: None = None) -> int:
        path = checked(path, is_new=True)
        with self._change(path):
            self._files.bring("put", path, b"")
        self._puts.settle(path)
        self._known.made(path, FILE)
        return self._handle(Held(path))

    def _handle(self, held: Held) -> int:
        assert held.path is not None
        self._held[held.path] = held
        held.handles += 1
        self._last += 1
        self._handles[self._last] = held
        return self._last

    def _of(self, fh: int) -> Held:
        held = self._handles.get(fh)
        if held is None:
            raise failure(errno.EBADF)
        return held

    def read(self, path: Optional[str], size: int, offset: int, fh: int) -> bytes:
        return self._of(fh).read(offset, size)

    def write(self, path: Optional[str], data: bytes, offset: int, fh: int) -> int:
        self._check_writable()
        held = self._of(fh)
        self._check_room(held, offset + len(data))
        held.write(offset, data)
        self._touch(held.path)
        return len(data)

    def truncate(self, path: Optional[str], length: int, fh: Optional[int] = None) -> None:
        self._check_writable()
        held = self._handles.get(fh) if fh is not None else None
        if held is None and path is not None:
            held = self._held.get(checked(path))
        if held is not None:
            self._check_room(held, length)
            held.cut(length)
            self._touch(held.path)
            return
        fh = self.open(path or "/", os.O_RDWR)
        try:
            self.truncate(path, length, fh)
            self._store(self._of(fh))
        finally:
            self._let_go(fh)

    def _check_room(self, held: Held, size: int) -> None:
        """Refuses at once what can't have room when the file is closed, whatever else changes until then."""
        limits = self._files.limits
        if held.path is None or size <= held.size:
            return
        if limits.is_too_big(size):
            held.refuse(failure(errno.EFBIG, "too big for a file of this disk"))
        shares = held.only_grew or limits.kind != INODE
        needed = (limits.blocks_for(size) or 0) - ((limits.blocks_for(held.on_disk) or 0) if shares else 0)
        if needed > self._room():
            held.refuse(failure(errno.ENOSPC, f"no room: {self._room():,} blocks free, {needed:,} needed"))

    def flush(self, path: Optional[str], fh: int) -> None:
        self._store(self._of(fh))

    def fsync(self, path: Optional[str], datasync: int, fh: int) -> None:
        self._store(self._of(fh))

    def release(self, path: Optional[str], fh: int) -> None:
        held = self._of(fh)
        try:
            if held.handles == 1:
                self._store(held)
        except (TsdError, OSError) as error:
            LOG.error("%s: what was written since it was last saved isn't on the disk: %s", held.path,
                      plain_lines(str(error)))
        finally:
            self._let_go(fh)

    def _let_go(self, fh: int) -> None:
        held = self._handles.pop(fh)
        held.handles -= 1
        if held.handles == 0:
            if held.path is not None:
                del self._held[held.path]
            held.close()

    def _store(self, held: Held) -> None:
        """Brings a file that is held to the disk. One that only grew gets its new bytes; else all of it is written, and
        the old file stays until that is whole, or where a write of the new one was refused."""
        path = held.path
        if path is None or not held.is_changed:
            return
        if held.refused is not None:
            raise failure(held.refused, "a write to it had no room; the disk has the old file")
        with self._change(path):
            if held.only_grew and held.on_disk > 0:
                self._add(held, path)
            else:
                self._put(held, path)
        self._known.changed(path, held.size)

    def _put(self, held: Held, path: str) -> None:
        """All of it. Over chains it grows in the place of a file without bytes, so that it needs its room once."""
        self._puts.put(held.rewound(), path, size=held.size, is_empty=held.on_disk == 0)
        held.stored()

    def _add(self, held: Held, path: str) -> None:
        """What is behind the bytes that the disk has, piece by piece."""
        while held.on_disk < held.size:
            piece = held.read(held.on_disk, MOST_DATA)
            try:
                self._files.bring("append", path, piece)
            except TsdError:
                LOG.error("%s: %d of %d bytes are on the disk", path, held.on_disk, held.size)
                raise
            held.added(len(piece))

    # --- names ---

    def mkdir(self, path: str, mode: int) -> None:
        path = checked(path, is_new=True)
        with self._change(path):
            self._files.do("mkdir", path)
        self._known.made(path, DIRECTORY)
        self._touch(split_path(path)[0])

    def unlink(self, path: str) -> None:
        path = checked(path)
        if self._kind_at(path) == DIRECTORY:
            raise failure(errno.EISDIR)
        self._take_away(path)

    def rmdir(self, path: str) -> None:
        path = checked(path)
        if self._kind_at(path) != DIRECTORY:
            raise failure(errno.ENOTDIR)
        self._take_away(path)

    def _take_away(self, path: str) -> None:
        """A file or a directory without names. Who has the file open has its bytes still, and the disk hasn't."""
        with self._change(path):
            self._files.do("rm", path)
            self._puts.settle(path)
        self._known.gone(path)
        self._times.pop(path, None)
        held = self._held.pop(path, None)
        if held is not None:
            held.path = None
        self._touch(split_path(path)[0])

    def rename(self, old: str, new: str) -> None:
        """Not one change: the new name is there first, and then the old one goes."""
        old, new = checked(old), checked(new, is_new=True)
        for path in (old, new):
            if self._kind_at(split_path(path)[0]) != DIRECTORY:
                raise failure(errno.ENOTDIR)
        kind, there = self._kind_at(old), self._known.kind(new)
        if old == new:
            return
        if f"{new}/".startswith(f"{old}/"):
            raise failure(errno.EINVAL, "a directory can't go into itself")
        if f"{old}/".startswith(f"{new}/"):
            raise failure(errno.ENOTEMPTY)
        if there is not None and there != kind:
            raise failure(errno.EISDIR if there == DIRECTORY else errno.ENOTDIR)
        if there == DIRECTORY:
            self._take_away(new)
        with self._change(new):
            if kind == DIRECTORY:
                self._trees.move(old, new, lambda count: None)
            else:
                self._move_file(old, new, there is not None)
        self._known.forget()
        self._follow(old, new)

    def _move_file(self, old: str, new: str, is_old_there: bool) -> None:
        if self._files.kind == INODE and is_old_there:
            self._puts.replace(old, new)
        elif self._files.kind == INODE:
            self._files.do("cp", old, new)
        else:
            with tempfile.TemporaryFile() as file:
                for piece in self._known.pieces(old):
                    file.write(piece)
                size = file.tell()
                file.seek(0)
                self._puts.put(file, new, size=size)
        self._files.do("rm", old)

    def _follow(self, old: str, new: str) -> None:
        """What is open at a path, or below it, and times, go along with the name."""
        replaced = self._held.pop(new, None)
        if replaced is not None:
            replaced.path = None
        for path in [path for path in self._held if f"{path}/".startswith(f"{old}/")]:
            held = self._held.pop(path)
            held.path = new + path[len(old):]
            self._held[held.path] = held
        for path in [path for path in self._times if f"{path}/".startswith(f"{old}/")]:
            self._times[new + path[len(old):]] = self._times.pop(path)

    # --- what no layout has ---

    def utimens(self, path: str, times: Optional[Tuple[int, int]] = None) -> None:
        """Times are told until the folder is unmounted; the disk has none."""
        self._check_writable()
        path = checked(path)
        self._kind_at(path)
        now = time.time_ns()
        self._times[path] = times or (now, now)

    def chmod(self, path: str, mode: int) -> None:
        """Every file has one mode, and every directory another; as on FAT it is an error to ask for others."""
        self._check_writable()
        wanted = DIRECTORY_MODE if self._kind_at(checked(path)) == DIRECTORY else FILE_MODE
        if not self._takes_modes and stat.S_IMODE(mode) != wanted:
            raise failure(errno.EPERM)

    def chown(self, path: str, uid: int, gid: int) -> None:
        self._check_writable()
        if not self._takes_modes and (uid not in (-1, os.getuid()) or gid not in (-1, os.getgid())):
            raise failure(errno.EPERM)

    def symlink(self, target: str, source: str) -> None:
        raise failure(errno.EPERM)

    def link(self, target: str, source: str) -> None:
        raise failure(errno.EPERM)

    def mknod(self, path: str, mode: int, dev: int) -> None:
        raise failure(errno.EPERM)

    # --- the beginning and the end ---

    def destroy(self, path: str) -> None:
        """What is still open goes to the disk."""
        for held in list(self._held.values()):
            try:
                self._store(held)
            except (TsdError, OSError) as error:
                LOG.error("%s: what was written since it was last saved isn't on the disk: %s", held.path,
                          plain_lines(str(error)))

    def _check_writable(self) -> None:
        if self._is_read_only:
            raise failure(errno.EROFS)

    @contextlib.contextmanager
    def _change(self, path: str) -> Iterator[None]:
        """Around what changes the disk at a path; where that isn't done to its end all is looked at anew."""
        self._check_writable()
        self._free = None
        try:
            yield
        except BaseException:
            self._known.forget()
            raise
        self._touch(path)

    def _touch(self, path: Optional[str]) -> None:
        if path is not None:
            now = time.time_ns()
            self._times[path] = (self._times.get(path, (now, now))[0], now)

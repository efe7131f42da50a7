"""A file of this machine that is written whole or not at all."""

from __future__ import annotations

import contextlib
import os
import stat
import tempfile
from typing import Generator, Optional

REST = {stat.S_IFLNK: "a symbolic link", stat.S_IFDIR: "a directory", stat.S_IFCHR: "a device",
        stat.S_IFBLK: "a device", stat.S_IFIFO: "a pipe", stat.S_IFSOCK: "a socket"}


class NotRegular(OSError):
    """What is there is no regular file, and stays."""


def save(pieces: Generator[bytes, None, None], local: str) -> None:
    """Writes a file of this machine, in place of an old regular file, whose mode and owner it keeps. It is written
    under another name in the same folder, synced, and then takes its place; only that other file is ever deleted."""
    check_regular(local)
    first = next(pieces, b"")
    folder = os.path.dirname(local) or "."
    part, name = tempfile.mkstemp(prefix=".get-", suffix=".part", dir=folder)
    try:
        with contextlib.closing(pieces), os.fdopen(part, "wb") as file:
            file.write(first)
            for piece in pieces:
                file.write(piece)
            file.flush()
            keep_mode(file.fileno(), check_regular(local))
            os.fsync(file.fileno())
        os.replace(name, local)
    except BaseException:
        with contextlib.suppress(FileNotFoundError):
            os.unlink(name)
        raise
    sync_folder(folder)


def check_regular(local: str) -> Optional[os.stat_result]:
    """What is known of the regular file that is there, if one is; NotRegular where something else is."""
    try:
        found = os.lstat(local)
    except FileNotFoundError:
        return None
    if not stat.S_ISREG(found.st_mode):
        what = REST.get(stat.S_IFMT(found.st_mode), "no regular file")
        raise NotRegular(f"{local} is {what}; get replaces regular files alone")
    return found


def keep_mode(file: int, old: Optional[os.stat_result]) -> None:
    """Gives a new file the mode and, where that is allowed, the owner of the old one; else the mode of any new one."""
    if old is None:
        mask = os.umask(0)
        os.umask(mask)
        os.fchmod(file, 0o666 & ~mask)
        return
    made = os.fstat(file)
    if (made.st_uid, made.st_gid) != (old.st_uid, old.st_gid):
        with contextlib.suppress(PermissionError):
            os.fchown(file, old.st_uid, old.st_gid)
    os.fchmod(file, stat.S_IMODE(old.st_mode))


def sync_folder(folder: str) -> None:
    """Has the folder's new entry on its medium, where the file system syncs folders."""
    with contextlib.suppress(OSError):
        opened = os.open(folder, os.O_RDONLY | os.O_DIRECTORY)
        try:
            os.fsync(opened)
        finally:
            os.close(opened)

"""What went wrong as the number by which the system knows it, and whether that number says all there is to say."""

from __future__ import annotations

import errno
import os
from typing import Dict

from tsd.errors import TsdError
from tsd.shell.paths import BadPath, disk_path
from tsd.shell.puts import CutOff, NoRoomForBoth
from tsd.shell.refusals import ShellRefused
from tsd.shell.trees import InItself

MOST_NAME = 28
OF_RULE: Dict[str, int] = {
    # Directories over chains: what link and mkdir of the system answer where a file system has no such thing.
    "bad-request": errno.EPERM,
    "not-this-fs": errno.EIO,
    "not-dir": errno.ENOTDIR,
    "no-entry": errno.ENOENT,
    "is-dir": errno.EISDIR,
    "exists": errno.EEXIST,
    "not-empty": errno.ENOTEMPTY,
    "dir-full": errno.ENOSPC,
    "too-big": errno.EFBIG,
    "full": errno.ENOSPC,
    "pointers-full": errno.ENOSPC,
}
# Those that say all themselves; of any other one the log has a line.
PLAIN = frozenset({errno.ENOENT, errno.ENOTDIR, errno.EISDIR, errno.EEXIST, errno.ENOTEMPTY, errno.EROFS, errno.EPERM,
                   errno.ENAMETOOLONG})


def number_of(error: Exception) -> int:
    """The system's number for an error."""
    if isinstance(error, CutOff):
        return number_of(error.cause)
    if isinstance(error, ShellRefused):
        return OF_RULE[error.rule]
    if isinstance(error, NoRoomForBoth):
        return errno.ENOSPC
    if isinstance(error, InItself):
        return errno.EINVAL
    if isinstance(error, TsdError):
        return errno.EIO
    return getattr(error, "errno", None) or errno.EIO


def is_plain(error: Exception) -> bool:
    """Whether the number alone tells whoever asked what is the matter."""
    return not isinstance(error, CutOff) and number_of(error) in PLAIN


def failure(number: int, text: str = "") -> OSError:
    """An error of this number, with the system's words for it where it has none of its own."""
    return OSError(number, text or os.strerror(number))


def checked(path: str, is_new: bool = False) -> str:
    """The path as the disk spells it. A name that no disk has isn't there (ENOENT), and can't be made (EINVAL)."""
    names = path.split("/")
    if max(map(len, names)) > MOST_NAME:
        raise failure(errno.ENAMETOOLONG)
    try:
        return disk_path(path)
    except BadPath as error:
        if not is_new:
            raise failure(errno.ENOENT) from None
        raise failure(errno.EINVAL, str(error).partition(": ")[2]) from None

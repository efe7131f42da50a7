"""Names and paths of a disk (docs/FILES.md)."""

from __future__ import annotations

import re
from typing import Tuple

MOST_NAMES = 16
NAME = re.compile(r"[A-Za-z0-9._-]{1,28}\Z")
NO_NAMES = (".", "..", "-")
INODE, CHAIN = "inode", "chain"


class BadPath(ValueError):
    """No path of the disk."""


def disk_path(text: str) -> str:
    """A path as the disk spells it: a slash at its start may be left out, and one at its end is dropped."""
    names = text.strip("/").split("/") if text.strip("/") else []
    if len(names) > MOST_NAMES:
        raise BadPath(f"{text}: a path has at most {MOST_NAMES} names, not {len(names)}")
    for name in names:
        if not NAME.match(name) or name in NO_NAMES:
            raise BadPath(f"{text}: {name!r} is no name: it has 1 to 28 letters, digits, dots, lines below and dashes")
    return "/" + "/".join(names)


def path_from(directory: str, text: str) -> str:
    """The path of the disk that a text means in a directory: one that begins with a slash begins at the top; `.` is the
    directory, and `..` the one above it."""
    names = [] if text.startswith("/") else directory.strip("/").split("/")
    for name in text.strip("/").split("/"):
        if name == "..":
            names = names[:-1]
        elif name != "." and (name or text.strip("/")):
            names.append(name)
    return disk_path("/".join(names))


def split_path(path: str) -> Tuple[str, str]:
    """The directory above, and the last name; that of `/` is empty."""
    above, _, name = path.rpartition("/")
    return above or "/", name


def below(directory: str, name: str) -> str:
    """The path of a name in a directory."""
    return f"{directory.rstrip('/')}/{name}"

"""What is asked of a tree of files, as the bodies of the frames that the command `files` takes (docs/FILES.md)."""

from __future__ import annotations

from typing import Dict

# The most bytes that an ask brings, and that the answer to a `read` has.
MOST_DATA = 4096
START_BYTES, COUNT_BYTES = 8, 4
CODES: Dict[str, int] = {
    "mkfs": 1, "put": 2, "append": 3, "cat": 4, "ls": 5, "mkdir": 6, "rm": 7, "cp": 8, "df": 9,
    "size": 16, "read": 17,
}


def ask_of(name: str, *paths: str) -> bytes:
    """An ask that has paths alone."""
    return bytes([CODES[name]]) + b"".join(map(path_field, paths))


def bringing(name: str, path: str, data: bytes) -> bytes:
    """A `put` or an `append`."""
    return ask_of(name, path) + data


def reading(path: str, start: int, count: int) -> bytes:
    """A `read`."""
    return ask_of("read", path) + start.to_bytes(START_BYTES, "little") + count.to_bytes(COUNT_BYTES, "little")


def path_field(path: str) -> bytes:
    """A path such as `disk_path` gives."""
    names = path.strip("/").split("/") if path != "/" else []
    return bytes([len(names)]) + b"".join(map(name_field, names))


def name_field(name: str) -> bytes:
    """A name."""
    return bytes([len(name)]) + name.encode("ascii")

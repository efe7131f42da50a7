"""A file that is held here while somebody has it open: its bytes, and which of them the disk has already."""

from __future__ import annotations

import tempfile
from typing import Iterable, Optional

MOST_IN_MEMORY = 4 << 20
PIECE = 1 << 16


class Held:
    """The bytes of an open file. Up to 4 MiB are in memory, more in a file under TMPDIR that has no name."""

    def __init__(self, path: str, pieces: Iterable[bytes] = ()) -> None:
        """Of a file that the disk has with these bytes."""
        self.path: Optional[str] = path
        self.handles = 0
        self.size = 0
        self._file = tempfile.SpooledTemporaryFile(max_size=MOST_IN_MEMORY)
        for piece in pieces:
            self._file.write(piece)
            self.size += len(piece)
        self.on_disk = self._same = self.size
        # The number of an error: a write was refused, and what is here isn't to take the place of what the disk has.
        self.refused: Optional[int] = None

    @classmethod
    def emptied(cls, path: str, on_disk: int) -> Held:
        """Of a file that is to begin anew; on the disk it still has so many bytes."""
        held = cls(path)
        held.on_disk = on_disk
        return held

    @property
    def is_changed(self) -> bool:
        """Whether the disk has other bytes."""
        return self._same < self.on_disk or self.size != self.on_disk

    @property
    def only_grew(self) -> bool:
        """Whether all that the disk has is a front of it."""
        return self._same >= self.on_disk

    def read(self, offset: int, count: int) -> bytes:
        """Bytes of it; fewer at its end."""
        self._file.seek(offset)
        return self._file.read(max(0, min(count, self.size - offset)))

    def write(self, offset: int, data: bytes) -> None:
        """Sets bytes; zeros stand between its end and what begins beyond."""
        if offset > self.size:
            self.cut(offset)
        self._file.seek(offset)
        self._file.write(data)
        self.size = max(self.size, offset + len(data))
        self._same = min(self._same, offset)

    def cut(self, size: int) -> None:
        """Gives it this size; what is new is zeros."""
        self._same = min(self._same, size)
        if size == 0:
            self.refused = None
        if size < self.size:
            self._file.truncate(size)
        self._file.seek(0, 2)
        for at in range(self.size, size, PIECE):
            self._file.write(bytes(min(PIECE, size - at)))
        self.size = size

    def refuse(self, error: OSError) -> None:
        """Raises the error of a write that can't be. What was written before counts where it only grew."""
        if not self.only_grew:
            self.refused = error.errno
        raise error

    def rewound(self) -> tempfile.SpooledTemporaryFile[bytes]:
        """All of it, to be read from its beginning."""
        self._file.seek(0)
        return self._file

    def added(self, count: int) -> None:
        """So many of the bytes behind those of the disk are on it now."""
        self.on_disk += count
        self._same = self.on_disk

    def stored(self) -> None:
        """The disk has all of it."""
        self.on_disk = self._same = self.size

    def close(self) -> None:
        """Gives back the room."""
        self._file.close()

"""Bytes that come at one descriptor and go at another, neither of which blocks."""

from __future__ import annotations

import os
from enum import Enum
from typing import Optional

from tsd.frames import LENGTH_BYTES

PIECE = 65536
MOST_SLACK = 65536


class Moved(Enum):
    """How a call went: it moved all that there was or is room for; there may be more; or the other side has ended."""

    ALL = 1
    SOME = 2
    OVER = 3


class Buffer:
    """A row of bytes."""

    def __init__(self) -> None:
        self._bytes = bytearray()
        self._start = 0

    def __len__(self) -> int:
        return len(self._bytes) - self._start

    def put(self, text: bytes) -> None:
        """Puts bytes at the end."""
        self._bytes += text

    def frame_end(self, at: int) -> Optional[int]:
        """The end of the whole frame that begins so many bytes from the front, if there is one."""
        start = self._start + at
        if len(self._bytes) < start + LENGTH_BYTES:
            return None
        end = start + LENGTH_BYTES + int.from_bytes(self._bytes[start:start + LENGTH_BYTES], "little")
        return end - self._start if end <= len(self._bytes) else None

    def body(self, at: int, end: int) -> bytes:
        """The body of the frame that stands there."""
        return bytes(self._bytes[self._start + at + LENGTH_BYTES:self._start + end])

    def consume(self, count: int) -> None:
        """Takes the first bytes away."""
        self._start += count
        if self._start == len(self._bytes):
            self.clear()
        elif self._start > MOST_SLACK:
            del self._bytes[:self._start]
            self._start = 0

    def clear(self) -> None:
        """Takes all away."""
        self._bytes = bytearray()
        self._start = 0

    def read_from(self, descriptor: int, may_end: bool) -> Moved:
        """Reads once. ALL where less came than was asked for, unless an end may stand behind it."""
        try:
            piece = os.read(descriptor, PIECE)
        except BlockingIOError:
            return Moved.ALL
        except OSError:
            return Moved.OVER
        self._bytes += piece
        if not piece:
            return Moved.OVER
        return Moved.ALL if len(piece) < PIECE and not may_end else Moved.SOME

    def write_to(self, descriptor: int) -> Moved:
        """Writes as much as is taken at once."""
        try:
            while len(self):
                with memoryview(self._bytes) as all_bytes, all_bytes[self._start:] as held:
                    count = os.write(descriptor, held)
                self.consume(count)
        except BlockingIOError:
            return Moved.SOME
        except OSError:
            return Moved.OVER
        return Moved.ALL

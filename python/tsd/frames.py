"""Frames (docs/FORMAT.md): a length of two bytes, the lowest first, and a body of so many bytes."""

from __future__ import annotations

from typing import Iterator

LENGTH_BYTES = 2
MOST_BODY = 0xFFFF


def frame(body: bytes) -> bytes:
    """The frame of a body; ValueError for one of more than 65,535 bytes."""
    if len(body) > MOST_BODY:
        raise ValueError(f"a frame has at most {MOST_BODY} bytes, not {len(body)}")
    return len(body).to_bytes(LENGTH_BYTES, "little") + body


class FrameCutter:
    """Cuts bytes into the bodies of frames, in whatever pieces they come."""

    def __init__(self) -> None:
        self._left = bytearray()

    @property
    def is_inside(self) -> bool:
        """Whether what came ends inside a frame."""
        return bool(self._left)

    def feed(self, piece: bytes) -> Iterator[bytes]:
        """The bodies of the frames that are whole with this piece. All are to be taken before the next one is fed."""
        self._left += piece
        at = 0
        try:
            while len(self._left) - at >= LENGTH_BYTES:
                start = at + LENGTH_BYTES
                end = start + int.from_bytes(self._left[at:start], "little")
                if len(self._left) < end:
                    return
                at = end
                yield bytes(self._left[start:end])
        finally:
            del self._left[:at]

"""What a hub itself tells a client: a frame that is no reply of any disk.

Its body is a byte 255, a byte of what is told, a status in four bytes (the lowest first, below 0 in two's complement),
and words in UTF-8. Nothing follows it on the connection.

A client asks for the greeting: a frame whose body is a byte 255 and a byte 4, which no disk takes for a request. A hub
answers it, in its turn, by the same two bytes and four numbers; one of before, and a program alone, by the refusal of
what is no request.
"""

from __future__ import annotations

from typing import NamedTuple, Optional

from tsd.errors import DiskEnded, HubFull, HubIdle, HubStopped, LinkError

HUB = 255
FULL, DISK_ENDED, STOPPED, GREETING, STATS, IDLE = 1, 2, 3, 4, 5, 6
HELLO = bytes([HUB, GREETING])
HEAD_BYTES = 6
MOST_WORDS = 4096
NUMBER_BYTES = 4


class Greeting(NamedTuple):
    """What a hub tells of its disk: the bytes of a block, how many blocks there are and how many of them are primary,
    and the version of its image."""

    block_length: int
    blocks: int
    primaries: int
    version: int


GREETING_BYTES = len(HELLO) + NUMBER_BYTES * len(Greeting._fields)


def greeting_body(greeting: Greeting) -> bytes:
    """The body by which a hub greets."""
    return HELLO + b"".join(number.to_bytes(NUMBER_BYTES, "little") for number in greeting)


def greeting_of(body: bytes) -> Optional[Greeting]:
    """What a body greets with; None where it doesn't. What stands behind the numbers is for later."""
    if len(body) < GREETING_BYTES or not body.startswith(HELLO):
        return None
    starts = range(len(HELLO), GREETING_BYTES, NUMBER_BYTES)
    return Greeting(*(int.from_bytes(body[at:at + NUMBER_BYTES], "little") for at in starts))


def told_body(what: int, status: int = 0, words: str = "") -> bytes:
    """The body by which a hub tells this."""
    return bytes([HUB, what]) + status.to_bytes(4, "little", signed=True) + words.encode()[:MOST_WORDS]


def what_is_told(body: bytes) -> Optional[LinkError]:
    """What a hub tells by this body; None where it is no such body."""
    if len(body) < HEAD_BYTES or body[0] != HUB:
        return None
    status = int.from_bytes(body[2:HEAD_BYTES], "little", signed=True)
    words = body[HEAD_BYTES:].decode(errors="replace")
    told = {FULL: HubFull(words), DISK_ENDED: DiskEnded(status, words), STOPPED: HubStopped(), IDLE: HubIdle(words)}
    return told.get(body[1])

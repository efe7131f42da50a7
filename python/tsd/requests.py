"""The requests (docs/FORMAT.md, Frames) and their bodies: a code, the session, and the fields of the code."""

from __future__ import annotations

from dataclasses import dataclass
from typing import ClassVar, Generic, List, Optional, TypeVar

from tsd.arguments import content, kind_of, whole_number
from tsd.capability import Capability
from tsd.hub_words import HELLO, HUB, Greeting
from tsd.replies import Kind

Answer = TypeVar("Answer", covariant=True)


def number(value: int, name: str = "a number") -> bytes:
    """Four bytes, the lowest first; a TypeError or a ValueError names the field where it is no such number."""
    return whole_number(value, name).to_bytes(4, "little")


def secret(cap: Capability, name: str) -> bytes:
    """The bytes of a capability."""
    if not isinstance(cap, Capability):
        raise TypeError(f"{name} is a Capability, not {kind_of(cap)}")
    return cap.reveal()


def shown(cap: Optional[Capability]) -> bytes:
    """A byte 0 where nothing is shown, or a byte 1 and the capability."""
    return b"\0" if cap is None else b"\1" + secret(cap, "cap")


def hinted(hint: Optional[int]) -> bytes:
    """A byte 0 for no hint, or a byte 1 and a number."""
    return b"\0" if hint is None else b"\1" + number(hint, "hint")


class Request(Generic[Answer]):
    """What is asked. CODE is the first byte of its body, KIND the reply where it isn't refused. CHANGES says whether
    blocks, pointers or capabilities may be others after it."""

    CODE: ClassVar[int]
    KIND: ClassVar[Kind]
    CHANGES: ClassVar[bool] = True

    def fields(self) -> bytes:
        """What follows the session."""
        return b""

    def encode(self, session: int) -> bytes:
        """The body, as a request of this session."""
        return bytes([self.CODE]) + number(session, "session") + self.fields()


@dataclass(frozen=True)
class Hello(Request[Greeting]):
    """Asks a hub for its greeting; of no session. Who has none refuses it (BadRequest), once the disk is open."""

    CODE, KIND, CHANGES = HUB, Kind.GREETING, False

    def encode(self, session: int = 0) -> bytes:
        return HELLO


@dataclass(frozen=True)
class Begin(Request[None]):
    """Opens the session."""

    CODE, KIND, CHANGES = 1, Kind.DONE, False


@dataclass(frozen=True)
class End(Request[None]):
    """Closes the session, and what it holds."""

    CODE, KIND, CHANGES = 2, Kind.DONE, False


@dataclass(frozen=True)
class Read(Request[bytes]):
    """All bytes of a block."""

    CODE, KIND, CHANGES = 3, Kind.BYTES, False
    block: int
    cap: Optional[Capability] = None

    def fields(self) -> bytes:
        return number(self.block, "block") + shown(self.cap)


@dataclass(frozen=True)
class Write(Request[None]):
    """Sets a block's bytes; zeros follow to its end."""

    CODE, KIND = 4, Kind.DONE
    block: int
    data: bytes
    cap: Optional[Capability] = None

    def fields(self) -> bytes:
        return number(self.block, "block") + shown(self.cap) + content(self.data)


@dataclass(frozen=True)
class Alloc(Request[List[int]]):
    """Takes free blocks, with a pointer to each from the source."""

    CODE, KIND = 5, Kind.BLOCKS
    source: int
    count: int = 1
    cap: Optional[Capability] = None
    hint: Optional[int] = None

    def fields(self) -> bytes:
        return number(self.source, "source") + shown(self.cap) + hinted(self.hint) + number(self.count, "count")


@dataclass(frozen=True)
class AllocContiguous(Alloc):
    """The same with blocks in a row."""

    CODE = 6


@dataclass(frozen=True)
class GetFree(Request[int]):
    """How many blocks are free; it is of no session."""

    CODE, KIND, CHANGES = 7, Kind.FREE, False

    def encode(self, session: int = 0) -> bytes:
        return bytes([self.CODE])


@dataclass(frozen=True)
class Create(Request[None]):
    """Adds a pointer."""

    CODE, KIND = 8, Kind.DONE
    source: int
    target: int
    cap: Optional[Capability] = None

    def fields(self) -> bytes:
        return number(self.source, "source") + shown(self.cap) + number(self.target, "target")


@dataclass(frozen=True)
class Delete(Request[int]):
    """Deletes a pointer; the answer is how many blocks became free."""

    CODE, KIND = 9, Kind.GONE
    source: int
    target: int
    cap: Optional[Capability] = None

    def fields(self) -> bytes:
        return number(self.source, "source") + shown(self.cap) + number(self.target, "target")


@dataclass(frozen=True)
class SetCapabilities(Request[None]):
    """Gives a primary block new capabilities; what came from it ends in every session."""

    CODE, KIND = 10, Kind.DONE
    block: int
    read: Capability
    write: Capability
    cap: Optional[Capability] = None

    def fields(self) -> bytes:
        return number(self.block, "block") + shown(self.cap) + secret(self.read, "read") + secret(self.write, "write")


@dataclass(frozen=True)
class Sweep(Request[int]):
    """Reclaims what no primary block leads to; the answer is how many blocks became free."""

    CODE, KIND = 11, Kind.GONE
    cap: Optional[Capability] = None

    def fields(self) -> bytes:
        return shown(self.cap)


@dataclass(frozen=True)
class List64(Request[List[int]]):
    """The least 64 targets of a block's pointers that aren't below the start, ascending."""

    CODE, KIND, CHANGES = 12, Kind.TARGETS, False
    source: int
    start: int = 0
    cap: Optional[Capability] = None

    def fields(self) -> bytes:
        return number(self.source, "source") + shown(self.cap) + number(self.start, "start")

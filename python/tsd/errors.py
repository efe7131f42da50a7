"""What may go wrong: a refusal of the disk, each rule with an exception of its own, or the end of a link to it."""

from __future__ import annotations

from enum import IntEnum
from typing import Any, ClassVar, Tuple, Type

from tsd.plain import plain_lines


class Level(IntEnum):
    """What a session may do at a block."""

    NONE = 0
    READ = 1
    WRITE = 2

    def __str__(self) -> str:
        return self.name.lower()


class TsdError(Exception):
    """All errors of this package. They print as their type with what FIELDS names."""

    FIELDS: ClassVar[Tuple[str, ...]] = ()

    def __repr__(self) -> str:
        told = ", ".join(f"{name}={shown_field(getattr(self, name))}" for name in self.FIELDS)
        return f"{type(self).__name__}({told or ', '.join(map(repr, self.args))})"


def shown_field(value: Any) -> str:
    """A field as it is printed."""
    return str(value) if isinstance(value, Level) else repr(value)


class NoMemory(TsdError):
    """The disk found no memory to open a session; nothing changed."""

    def __str__(self) -> str:
        return "no memory to open a session"


class Refused(TsdError):
    """The disk refused a request by the rule whose byte is `RULE`; a refused request changed nothing."""

    RULE: ClassVar[int]
    REASON: ClassVar[str] = "refused"

    def __str__(self) -> str:
        return self.REASON


class BadRequest(Refused):
    """The frame's body is no request."""

    RULE, REASON = 0, "the body is no request"


class BadSession(Refused):
    """The session isn't in 1 to 64."""

    RULE, REASON = 1, "the session isn't in 1 to 64"


class NotOpen(Refused):
    """The session isn't open."""

    RULE, REASON = 2, "the session isn't open"


class AlreadyOpen(Refused):
    """The session is open already."""

    RULE, REASON = 3, "the session is open already"


class BadCount(Refused):
    """The count isn't in 1 to 32."""

    RULE, REASON = 4, "the count isn't in 1 to 32"


class BadSize(Refused):
    """There are more bytes than a block has."""

    RULE, REASON = 5, "more bytes than a block has"


class NoSuchBlock(Refused):
    """The disk has no block of this number."""

    RULE, REASON = 6, "the disk has no block of this number"


class FreeBlock(Refused):
    """The block is free."""

    RULE, REASON = 7, "the block is free"


class NotPrimary(Refused):
    """Only primary blocks have capabilities."""

    RULE, REASON = 8, "only primary blocks have capabilities"


class IsPrimary(Refused):
    """Nothing points to a primary block."""

    RULE, REASON = 9, "nothing points to a primary block"


class Denied(Refused):
    """The level attained is below the one needed."""

    RULE, FIELDS = 10, ("attained", "needed")

    def __init__(self, attained: Level, needed: Level) -> None:
        super().__init__(attained, needed)
        self.attained = attained
        self.needed = needed

    def __str__(self) -> str:
        return f"denied: {self.attained} attained, {self.needed} needed"


class PointerExists(Refused):
    """The pointer is held already."""

    RULE, REASON = 11, "the pointer is held already"


class NoPointer(Refused):
    """The pointer isn't held."""

    RULE, REASON = 12, "the pointer isn't held"


class Full(Refused):
    """Fewer blocks are free than were asked for."""

    RULE, FIELDS = 13, ("free", "wanted")

    def __init__(self, free: int, wanted: int) -> None:
        super().__init__(free, wanted)
        self.free = free
        self.wanted = wanted

    def __str__(self) -> str:
        return f"no room: {self.free} blocks free, {self.wanted} wanted"


class NoRun(Refused):
    """Enough blocks are free, but not in a row."""

    RULE, FIELDS = 14, ("free", "wanted")

    def __init__(self, free: int, wanted: int) -> None:
        super().__init__(free, wanted)
        self.free = free
        self.wanted = wanted

    def __str__(self) -> str:
        return f"no {self.wanted} blocks in a row: {self.free} are free"


class PointersFull(Refused):
    """There is no room for the new pointers."""

    RULE, FIELDS = 15, ("held", "most")

    def __init__(self, held: int, most: int) -> None:
        super().__init__(held, most)
        self.held = held
        self.most = most

    def __str__(self) -> str:
        return f"no room for pointers: {self.held} of {self.most} are held"


# The rules without numbers, and those with two numbers.
PLAIN_RULES: Tuple[Type[Refused], ...] = (
    BadRequest, BadSession, NotOpen, AlreadyOpen, BadCount, BadSize, NoSuchBlock, FreeBlock, NotPrimary, IsPrimary,
    PointerExists, NoPointer,
)
NUMBER_RULES = (Full, NoRun, PointersFull)


class LinkError(TsdError):
    """The link to the disk can't be used any more. What became of a request without a reply isn't known: it was
    carried out whole, or not at all."""


class WrongProcess(LinkError):
    """A disk was used in another process than the one that opened it, as a child of `fork` would."""

    FIELDS = ("opened", "here")

    def __init__(self, opened: int, here: int) -> None:
        super().__init__(opened, here)
        self.opened = opened
        self.here = here

    def __str__(self) -> str:
        return (f"the disk was opened in process {self.opened}, and this is process {self.here}: only one process may "
                "use a link. Open another one here: tsd.connect joins a hub, which serves many processes")


class Unknown(LinkError):
    """The link failed before the reply to this request came: it was carried out whole, or not at all."""

    FIELDS = ("request", "cause")

    def __init__(self, request: object, cause: LinkError) -> None:
        super().__init__(request, cause)
        self.request = request
        self.cause = cause

    def __str__(self) -> str:
        return f"{self.cause}; whether {type(self.request).__name__} was carried out isn't known"


class LockTaken(TsdError):
    """A lock was held by others for so many seconds."""

    FIELDS = ("source", "target", "seconds")

    def __init__(self, source: int, target: int, seconds: float) -> None:
        super().__init__(source, target, seconds)
        self.source = source
        self.target = target
        self.seconds = seconds

    def __str__(self) -> str:
        return (f"the lock, the pointer from block {self.source} to block {self.target}, was held for "
                f"{self.seconds:g} seconds. Where its holder crashed it stays held until that pointer is deleted")


class Closed(LinkError):
    """This side closed the link."""

    def __str__(self) -> str:
        return "the disk was closed"


class NoReply(LinkError):
    """What came is no reply, or not one to what was asked."""


class Silent(LinkError):
    """Requests were under way, and for so many seconds no reply came, or nothing could be sent."""

    FIELDS = ("seconds",)

    def __init__(self, seconds: float) -> None:
        super().__init__(seconds)
        self.seconds = seconds

    def __str__(self) -> str:
        return f"no reply for {self.seconds:g} seconds"


class Ended(LinkError):
    """The other side ended; `is_cut_off` where it did so inside a frame."""

    FIELDS: ClassVar[Tuple[str, ...]] = ("is_cut_off",)

    def __init__(self, is_cut_off: bool = False) -> None:
        super().__init__(is_cut_off)
        self.is_cut_off = is_cut_off

    def __str__(self) -> str:
        return "the connection ended" + self._where()

    def _where(self) -> str:
        return " inside a frame" if self.is_cut_off else ""


class ProgramEnded(Ended):
    """The disk's program ended, with a status (below 0 for the number of a signal) and words on standard error."""

    FIELDS = ("status", "words", "is_cut_off")

    def __init__(self, status: int, words: str, is_cut_off: bool = False) -> None:
        super().__init__(is_cut_off)
        self.args = (status, words, is_cut_off)
        self.status = status
        self.words = words

    def __str__(self) -> str:
        words = f": {plain_lines(self.words)}" if self.words else ""
        return f"the disk's program ended with status {self.status}{self._where()}{words}"


class LibraryFailed(LinkError):
    """A call of the library in this process failed, with a status of tsd_embed.h and its words."""

    FIELDS = ("status", "words")

    def __init__(self, status: int, words: str) -> None:
        super().__init__(status, words)
        self.status = status
        self.words = words

    def __str__(self) -> str:
        return f"the disk's library: {self.words} (status {self.status})"


class DiskEnded(LinkError):
    """A hub tells that its disk ended, with this status and these words."""

    FIELDS = ("status", "words")

    def __init__(self, status: int, words: str) -> None:
        super().__init__(status, words)
        self.status = status
        self.words = words

    def __str__(self) -> str:
        words = f": {plain_lines(self.words)}" if self.words else ""
        return f"the hub's disk ended with status {self.status}{words}"


class HubEnd(LinkError):
    """A hub tells that it doesn't serve this client, and may say more."""

    FIELDS = ("words",)
    REASON: ClassVar[str] = "the hub doesn't serve this client"

    def __init__(self, words: str = "") -> None:
        super().__init__(words)
        self.words = words

    def __str__(self) -> str:
        return self.REASON + (f": {plain_lines(self.words)}" if self.words else "")


class HubFull(HubEnd):
    """A hub tells that it has no session for this client: all are taken, or too many are this user's."""

    REASON = "the hub has no session left"


class HubIdle(HubEnd):
    """A hub tells that it ended the connection, since nothing was asked for long."""

    REASON = "the hub ended an idle connection"


class HubStopped(LinkError):
    """A hub tells that it stops."""

    def __str__(self) -> str:
        return "the hub stopped"

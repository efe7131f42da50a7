"""A client of the type-safe disk `tsd`: it asks, and the disk judges each request. docs/FORMAT.md has the frames.

    import tsd

    [pair] = tsd.format_disk("disk.img", blocks=1000)
    with tsd.open("disk.img", place="near") as disk, disk.session() as session:
        session.write(0, b"hello", pair.write)
        print(session.read(0, pair.read).rstrip(b"\\0"), disk.free())

Blocks are numbers, contents are bytes, and capabilities are a type that never prints itself. Each refusal is an
exception of its own, and no call of a program or a hub waits forever. This package stands outside the disk's proofs,
and weakens none.
"""

from __future__ import annotations

import importlib
from types import ModuleType
from typing import TYPE_CHECKING

from tsd.capability import Capability, Pair
from tsd.disk import Disk, connect
from tsd.disk import open_disk as open
from tsd.errors import (
    AlreadyOpen, BadCount, BadRequest, BadSession, BadSize, Closed, Denied, DiskEnded, Ended, FreeBlock, Full, HubFull,
    HubIdle, HubStopped, IsPrimary, Level, LibraryFailed, LinkError, LockTaken, NoMemory, NoPointer, NoReply, NoRun,
    NoSuchBlock, NotOpen, NotPrimary, PointerExists, PointersFull, ProgramEnded, Refused, Silent, TsdError, Unknown,
    WrongProcess,
)
from tsd.hub_words import Greeting
from tsd.locks import Lock
from tsd.programs import format_disk
from tsd.session import Session

if TYPE_CHECKING:
    from tsd import aio

__version__ = "0.2.0"

__all__ = [
    "AlreadyOpen", "BadCount", "BadRequest", "BadSession", "BadSize", "Capability", "Closed", "Denied", "Disk",
    "DiskEnded", "Ended", "FreeBlock", "Full", "Greeting", "HubFull", "HubIdle", "HubStopped", "IsPrimary", "Level",
    "LibraryFailed", "LinkError", "Lock", "LockTaken", "NoMemory", "NoPointer", "NoReply", "NoRun", "NoSuchBlock",
    "NotOpen", "NotPrimary", "Pair", "PointerExists", "PointersFull", "ProgramEnded", "Refused", "Session", "Silent",
    "TsdError", "Unknown", "WrongProcess", "aio", "connect", "format_disk", "open",
]


def __getattr__(name: str) -> ModuleType:
    """`aio` is loaded where it is first named: asyncio takes longer than all else of the package."""
    if name != "aio":
        raise AttributeError(f"module {__name__!r} has no attribute {name!r}")
    return importlib.import_module("tsd.aio")

"""A lock that is a pointer: of several who create one pointer one succeeds, and the others are refused until it is
deleted. So programs take turns at blocks that they all change."""

from __future__ import annotations

import random
import time
from types import TracebackType
from typing import TYPE_CHECKING, Optional, Type

from tsd.arguments import seconds
from tsd.capability import Capability
from tsd.errors import LockTaken, PointerExists, TsdError

if TYPE_CHECKING:
    from tsd.session import Session

LIMIT = 60.0
FIRST_NAP = 0.001
LONGEST_NAP = 0.05


class Lock:
    """Has the lock from its start as a context to its end: it creates the pointer from the source to the target, and
    deletes it. The session needs write at both, and the target another pointer that stays, since the end of its last
    one would reclaim it. Where others have the lock it tries again, and after so many seconds as the limit says raises
    LockTaken. At its end NoPointer says that somebody else has taken the lock away.

    **What a crash leaves.** The pointer is on the disk: where the holder ends without its end as a context, be it
    killed, or by a link that failed, the lock stays held, also over a new start of the disk, and what the holder has
    written stays as it is. Nothing frees it by itself. Whoever knows that the holder is gone looks at what it left,
    and deletes the pointer: `session.delete(source, target, cap)`. Where the answer to taking it didn't come (Unknown,
    or another LinkError) the lock may be held or not."""

    def __init__(self, session: Session, source: int, target: int, cap: Optional[Capability], limit: float) -> None:
        """Of `Session.lock`."""
        self._session = session
        self._source = source
        self._target = target
        self._cap = cap
        self._limit = seconds(limit)

    def __enter__(self) -> Lock:
        until = time.monotonic() + self._limit
        nap = FIRST_NAP
        while not self._is_taken_now():
            left = until - time.monotonic()
            if left <= 0:
                raise LockTaken(self._source, self._target, self._limit)
            time.sleep(min(left, nap * random.uniform(0.5, 1.0)))
            nap = min(2 * nap, LONGEST_NAP)
        return self

    def __exit__(
        self, kind: Optional[Type[BaseException]], error: Optional[BaseException], where: Optional[TracebackType]
    ) -> None:
        try:
            self._session.delete(self._source, self._target, self._cap)
        except TsdError:
            if kind is None:
                raise

    def __repr__(self) -> str:
        return f"<lock: the pointer from block {self._source} to block {self._target}>"

    def _is_taken_now(self) -> bool:
        try:
            self._session.create(self._source, self._target, self._cap)
        except PointerExists:
            return False
        return True

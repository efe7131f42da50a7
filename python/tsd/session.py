"""A session of a disk: the calls, each a request."""

from __future__ import annotations

from concurrent.futures import Future
from types import TracebackType
from typing import Callable, Iterator, List, Optional, Type, TypeVar

from tsd import requests
from tsd.capability import Capability
from tsd.errors import NotOpen, TsdError
from tsd.link import AnyLink
from tsd.locks import LIMIT, Lock
from tsd.replies import MOST_TARGETS
from tsd.requests import Request

Answer = TypeVar("Answer")


class Session:
    """A session of a disk, from its opening to its closing. As a context it closes itself.

    Each call waits for its answer, and raises the refusal or what became of the link; `ask` doesn't wait. A capability
    is shown only with the request that it is given to.
    """

    def __init__(self, link: AnyLink, number: int, give_back: Callable[[int], None]) -> None:
        """Of `Disk.session`: a session that is open, and what is told when its number is free again."""
        self._link = link
        self._give_back = give_back
        self.number = number
        self.is_open = True

    def ask(self, request: Request[Answer]) -> Future[Answer]:
        """Sends a request of this session, and doesn't wait: several may be under way, and are carried out in the
        order in which they were asked. NotOpen is raised at once where the session was closed."""
        if not self.is_open:
            raise NotOpen
        return self._link.ask(request, self.number)

    def read(self, block: int, cap: Optional[Capability] = None) -> bytes:
        """All bytes of a block."""
        return self.ask(requests.Read(block, cap)).result()

    def write(self, block: int, data: bytes, cap: Optional[Capability] = None) -> None:
        """Sets a block's bytes; zeros follow to its end."""
        self.ask(requests.Write(block, data, cap)).result()

    def alloc(
        self, source: int, count: int = 1, cap: Optional[Capability] = None, hint: Optional[int] = None
    ) -> List[int]:
        """Takes 1 to 32 free blocks, with a pointer to each from the source."""
        return self.ask(requests.Alloc(source, count, cap, hint)).result()

    def alloc_contiguous(
        self, source: int, count: int = 1, cap: Optional[Capability] = None, hint: Optional[int] = None
    ) -> List[int]:
        """The same with blocks in a row."""
        return self.ask(requests.AllocContiguous(source, count, cap, hint)).result()

    def create(self, source: int, target: int, cap: Optional[Capability] = None) -> None:
        """Adds a pointer; the capability is for the source."""
        self.ask(requests.Create(source, target, cap)).result()

    def delete(self, source: int, target: int, cap: Optional[Capability] = None) -> int:
        """Deletes a pointer; how many blocks were reclaimed."""
        return self.ask(requests.Delete(source, target, cap)).result()

    def set_capabilities(
        self, block: int, read: Capability, write: Capability, cap: Optional[Capability] = None
    ) -> None:
        """Gives a primary block new capabilities; what any session holds from it ends."""
        self.ask(requests.SetCapabilities(block, read, write, cap)).result()

    def sweep(self, cap: Optional[Capability] = None) -> int:
        """Reclaims what no primary block leads to; how many blocks that were. The capability is for block 0."""
        return self.ask(requests.Sweep(cap)).result()

    def list(self, source: int, cap: Optional[Capability] = None, start: int = 0) -> Iterator[int]:
        """All targets of a block's pointers from the start on, ascending. The first 64 are asked for at once, so a
        refusal comes here; the others 64 at a time, as they are taken. What changes meanwhile may be told or not."""
        return self._targets(source, cap, self.ask(requests.List64(source, start, cap)).result())

    def lock(
        self, source: int, target: int, cap: Optional[Capability] = None, limit: float = LIMIT
    ) -> Lock:
        """The pointer from a block to another one as a lock, for `with`: see `Lock`."""
        return Lock(self, source, target, cap, limit)

    def free(self) -> int:
        """How many blocks are free."""
        return self._link.ask(requests.GetFree()).result()

    def close(self) -> None:
        """Ends all that the session holds. Once more does nothing."""
        if self.is_open:
            self._link.check_process()
            self.is_open = False
            try:
                self._link.ask(requests.End(), self.number).result()
            finally:
                self._give_back(self.number)

    def _targets(self, source: int, cap: Optional[Capability], targets: List[int]) -> Iterator[int]:
        yield from targets
        while len(targets) == MOST_TARGETS:
            targets = self.ask(requests.List64(source, targets[-1] + 1, cap)).result()
            yield from targets

    def __repr__(self) -> str:
        return f"<session {self.number}, {'open' if self.is_open else 'closed'}, {self._link!r}>"

    def __enter__(self) -> Session:
        return self

    def __exit__(
        self, kind: Optional[Type[BaseException]], error: Optional[BaseException], where: Optional[TracebackType]
    ) -> None:
        try:
            self.close()
        except TsdError:
            if kind is None:
                raise

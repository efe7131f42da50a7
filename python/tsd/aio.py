"""The client for asyncio: the same calls over the same frames, each awaited.

    async with await tsd.aio.open("disk.img") as disk:
        await disk.write(0, b"hello", pair.write)
        print(await disk.read(0, pair.read))

The calls of a disk are those of one session of its own, which is opened when the first one is made.
"""

from __future__ import annotations

import asyncio
import functools
from types import TracebackType
from typing import Any, AsyncIterator, Callable, List, Optional, Type, TypeVar

import tsd.disk
from tsd import requests
from tsd.arguments import PathWord
from tsd.capability import Capability
from tsd.disk import Disk
from tsd.errors import LinkError, TsdError
from tsd.hub_words import Greeting
from tsd.replies import MOST_TARGETS
from tsd.requests import Request
from tsd.session import Session

Answer = TypeVar("Answer")
# So many requests of 4,122 bytes fit into a pipe, so that sending one doesn't wait.
WINDOW = 12


class AsyncCalls:
    """The calls of a session. A call that is cancelled was sent all the same."""

    async def ask(self, request: Request[Answer]) -> Answer:
        """Sends a request, and waits for its answer."""
        raise NotImplementedError

    async def read(self, block: int, cap: Optional[Capability] = None) -> bytes:
        """All bytes of a block."""
        return await self.ask(requests.Read(block, cap))

    async def write(self, block: int, data: bytes, cap: Optional[Capability] = None) -> None:
        """Sets a block's bytes; zeros follow to its end."""
        await self.ask(requests.Write(block, data, cap))

    async def alloc(
        self, source: int, count: int = 1, cap: Optional[Capability] = None, hint: Optional[int] = None
    ) -> List[int]:
        """Takes 1 to 32 free blocks, with a pointer to each from the source."""
        return await self.ask(requests.Alloc(source, count, cap, hint))

    async def alloc_contiguous(
        self, source: int, count: int = 1, cap: Optional[Capability] = None, hint: Optional[int] = None
    ) -> List[int]:
        """The same with blocks in a row."""
        return await self.ask(requests.AllocContiguous(source, count, cap, hint))

    async def create(self, source: int, target: int, cap: Optional[Capability] = None) -> None:
        """Adds a pointer; the capability is for the source."""
        await self.ask(requests.Create(source, target, cap))

    async def delete(self, source: int, target: int, cap: Optional[Capability] = None) -> int:
        """Deletes a pointer; how many blocks were reclaimed."""
        return await self.ask(requests.Delete(source, target, cap))

    async def set_capabilities(
        self, block: int, read: Capability, write: Capability, cap: Optional[Capability] = None
    ) -> None:
        """Gives a primary block new capabilities; what any session holds from it ends."""
        await self.ask(requests.SetCapabilities(block, read, write, cap))

    async def sweep(self, cap: Optional[Capability] = None) -> int:
        """Reclaims what no primary block leads to; how many blocks that were."""
        return await self.ask(requests.Sweep(cap))

    async def list(self, source: int, cap: Optional[Capability] = None, start: int = 0) -> AsyncIterator[int]:
        """All targets of a block's pointers from the start on, ascending, for `async for`; 64 are asked for at a
        time."""
        targets = await self.ask(requests.List64(source, start, cap))
        while True:
            for target in targets:
                yield target
            if len(targets) < MOST_TARGETS:
                return
            targets = await self.ask(requests.List64(source, targets[-1] + 1, cap))

    async def free(self) -> int:
        """How many blocks are free."""
        return await self.ask(requests.GetFree())


class AsyncSession(AsyncCalls):
    """A session, from its opening to its closing; as an asynchronous context it closes itself."""

    def __init__(self, session: Session, window: asyncio.Semaphore) -> None:
        """Of `AsyncDisk.session`."""
        self._session = session
        self._window = window

    @property
    def number(self) -> int:
        """The session's number."""
        return self._session.number

    async def ask(self, request: Request[Answer]) -> Answer:
        """Sends a request, when at most 11 others of the disk are under way, and waits for its answer."""
        loop = asyncio.get_running_loop()
        await self._window.acquire()
        try:
            future = self._session.ask(request)
        except BaseException:
            self._window.release()
            raise
        future.add_done_callback(lambda _: call_soon(loop, self._window.release))
        return await asyncio.wrap_future(future)

    async def close(self) -> None:
        """Ends all that the session holds."""
        await in_thread(self._session.close)

    async def __aenter__(self) -> AsyncSession:
        return self

    async def __aexit__(
        self, kind: Optional[Type[BaseException]], error: Optional[BaseException], where: Optional[TracebackType]
    ) -> None:
        try:
            await self.close()
        except TsdError:
            if kind is None:
                raise


class AsyncDisk(AsyncCalls):
    """A disk that `open` or `connect` opened, for one event loop."""

    def __init__(self, disk: Disk) -> None:
        """Of `open` and `connect`, inside a running loop."""
        self._disk = disk
        self._window = asyncio.Semaphore(WINDOW)
        self._own: Optional[asyncio.Future[AsyncSession]] = None

    @property
    def geometry(self) -> Optional[Greeting]:
        """As that of a `Disk`."""
        return self._disk.geometry

    @property
    def failure(self) -> Optional[LinkError]:
        """Why the disk can't be used any more; None while it can."""
        return self._disk.failure

    async def session(self, number: Optional[int] = None) -> AsyncSession:
        """Opens a session, as `Disk.session` does."""
        return AsyncSession(await in_thread(self._disk.session, number), self._window)

    async def ask(self, request: Request[Answer]) -> Answer:
        """A request of the disk's own session. That is opened once, also where the call that began it is cancelled."""
        if self._own is None or has_failed(self._own):
            self._own = asyncio.ensure_future(self.session())
            self._own.add_done_callback(has_failed)
        session = await asyncio.shield(self._own)
        return await session.ask(request)

    async def close(self) -> None:
        """Ends the link, once the requests under way are answered; the errors are those of `Disk.close`."""
        await in_thread(self._disk.close)

    async def __aenter__(self) -> AsyncDisk:
        return self

    async def __aexit__(
        self, kind: Optional[Type[BaseException]], error: Optional[BaseException], where: Optional[TracebackType]
    ) -> None:
        try:
            await self.close()
        except TsdError:
            if kind is None:
                raise


async def open(image: PathWord, place: str = "near", **more: Any) -> AsyncDisk:
    """`tsd.open`, awaited."""
    return AsyncDisk(await in_thread(tsd.disk.open_disk, image, place, **more))


async def connect(path: PathWord, **more: Any) -> AsyncDisk:
    """`tsd.connect`, awaited."""
    return AsyncDisk(await in_thread(tsd.disk.connect, path, **more))


def has_failed(future: asyncio.Future[AsyncSession]) -> bool:
    """Whether it ended without a result."""
    return future.done() and (future.cancelled() or future.exception() is not None)


async def in_thread(work: Callable[..., Answer], *given: Any, **more: Any) -> Answer:
    """What work in another thread gives: the loop goes on meanwhile."""
    return await asyncio.get_running_loop().run_in_executor(None, functools.partial(work, *given, **more))


def call_soon(loop: asyncio.AbstractEventLoop, work: Callable[[], None]) -> None:
    """Has a loop do something, unless it is closed."""
    try:
        loop.call_soon_threadsafe(work)
    except RuntimeError:
        pass

"""A link to a disk: requests go out as they are asked, and replies are given, in their order, to those who wait.

A thread reads the replies. It also sees that nobody waits forever: where requests are under way and no reply comes for
as long as the limit, the link has failed, and every request under way with it. A link is for the process that opened
it: a child of `fork` gives its copies of the descriptors back, and is refused.
"""

from __future__ import annotations

import logging
import os
import select
import threading
import time
import weakref
from collections import deque
from concurrent.futures import Future
from typing import Any, Deque, List, NamedTuple, Optional, TypeVar

from tsd.errors import Closed, LinkError, NoReply, Silent, TsdError, Unknown, WrongProcess
from tsd.frames import FrameCutter, frame
from tsd.hub_words import greeting_of
from tsd.peers import Peer
from tsd.replies import Kind, Reply, decode_reply
from tsd.requests import Request

Answer = TypeVar("Answer")
LOG = logging.getLogger("tsd")
LOG.addHandler(logging.NullHandler())
PIECE = 65536
LONGEST_NAP = 0.5


class Waiting(NamedTuple):
    """A request under way, and where its answer goes."""

    request: Request[Any]
    future: Future[Any]


class AnyLink:
    """What every link has: the process that opened it, and why it failed."""

    def __init__(self) -> None:
        self._process = os.getpid()
        self._state = threading.Lock()
        self._failure: Optional[LinkError] = None
        self._lost = 0
        self._untold: List[Request[Any]] = []
        self._is_closed = False
        LINKS.add(self)

    @property
    def failure(self) -> Optional[LinkError]:
        """Why the link can't be used any more."""
        return self._failure

    @property
    def lost(self) -> int:
        """How many requests were under way when it failed."""
        with self._state:
            return self._lost

    def take_lost(self) -> List[Request[Any]]:
        """These requests in their order; each is told once."""
        with self._state:
            taken, self._untold = self._untold, []
        return taken

    def check_process(self) -> None:
        """WrongProcess in any other process than the one that opened it."""
        if os.getpid() != self._process:
            raise WrongProcess(self._process, os.getpid())

    def ask(self, request: Request[Answer], session: int = 0) -> Future[Answer]:
        """Sends a request: the future gets the answer, or the error. A LinkError is raised at once where the link has
        failed before."""
        raise NotImplementedError

    def close(self) -> bool:
        """No more requests. False where it was closed before."""
        raise NotImplementedError

    def forget(self) -> None:
        """In a child of `fork`: gives back what the child has of it, and leaves the parent's as it is."""
        raise NotImplementedError


class Link(AnyLink):
    """Requests and replies to a peer. Several threads may use it."""

    def __init__(self, peer: Peer, limit: float, tells_unknown: bool = False) -> None:
        """The limit is a number of seconds, above 0. Where the link fails each request under way gets the failure, or
        where that is asked for Unknown, which has the request too."""
        super().__init__()
        self._peer = peer
        self._limit = limit
        self._tells_unknown = tells_unknown
        self._sending = threading.Lock()
        self._waiting: Deque[Waiting] = deque()
        self._has_answered = False
        self._since = time.monotonic()
        self._reader = threading.Thread(target=self._receive, name="tsd replies", daemon=True)
        self._reader.start()

    def ask(self, request: Request[Answer], session: int = 0) -> Future[Answer]:
        """Sends a request, and doesn't wait for its reply: the future gets the answer, or the error. A LinkError is
        raised at once where the link has failed before."""
        self.check_process()
        LOG.debug("asked: %s of session %s", type(request).__name__, session)
        text = frame(request.encode(session))
        future: Future[Answer] = Future()
        future.set_running_or_notify_cancel()
        with self._sending:
            self._begin(Waiting(request, future))
            self._write(text)
        return future

    def close(self) -> bool:
        """No more requests: waits for the replies that are under way and for the other side's end, within the limit.
        False where it was closed before."""
        self.check_process()
        with self._sending:
            self._is_closed, was_closed = True, self._is_closed
            if not was_closed:
                self._peer.end_requests()
        if was_closed:
            return False
        self._reader.join(self._limit)
        if self._reader.is_alive():
            self._fail(Silent(self._limit))
            self._peer.stop()
            self._reader.join()
        self._peer.release()
        LOG.info("closed: %s", self._peer)
        return True

    def forget(self) -> None:
        """In a child of `fork`: gives back what the child has of it, and leaves the parent's as it is."""
        self._peer.forget()

    def __repr__(self) -> str:
        state = "closed" if self._is_closed else "failed" if self._failure else "open"
        return f"<link to {self._peer}, {state}>"

    # --- sending ---

    def _begin(self, waiting: Waiting) -> None:
        with self._state:
            if self._is_closed:
                raise Closed
            if self._failure is not None:
                raise self._failure
            if not self._waiting:
                self._since = time.monotonic()
            self._waiting.append(waiting)

    def _write(self, text: bytes) -> None:
        """Where the other side takes nothing more the reader learns why."""
        left = memoryview(text)
        until = time.monotonic() + self._limit
        try:
            while left and self._failure is None:
                try:
                    left = left[os.write(self._peer.writing, left):]
                except BlockingIOError:
                    self._wait_for_room(until)
        except (BrokenPipeError, ConnectionResetError):
            pass
        except BaseException:
            self._fail(LinkError("sending a request was interrupted"))
            raise

    def _wait_for_room(self, until: float) -> None:
        poller = select.poll()
        poller.register(self._peer.writing, select.POLLOUT)
        seconds = until - time.monotonic()
        if seconds <= 0:
            self._fail(Silent(self._limit))
        else:
            poller.poll(1000 * min(seconds, LONGEST_NAP))

    # --- the reader's thread ---

    def _receive(self) -> None:
        cutter = FrameCutter()
        try:
            while True:
                piece = self._read()
                if not piece:
                    raise self._peer.ended(cutter.is_inside, self._limit)
                for body in cutter.feed(piece):
                    self._settle(body)
                self._check_silence()
        except LinkError as error:
            self._fail(error)
        except Exception as error:
            self._fail(LinkError(f"reading the replies failed: {error}"))
            raise

    def _read(self) -> bytes:
        poller = select.poll()
        poller.register(self._peer.reading, select.POLLIN)
        nap = 1000 * min(self._limit / 4, LONGEST_NAP)
        while not poller.poll(nap):
            if self._failure is not None:
                raise self._failure
            self._check_silence()
        try:
            return os.read(self._peer.reading, PIECE)
        except ConnectionResetError:
            return b""

    def _check_silence(self) -> None:
        """Bytes that make no whole reply are silence too."""
        with self._state:
            if self._waiting and time.monotonic() - self._since > self._limit:
                raise Silent(self._limit)

    def _settle(self, body: bytes) -> None:
        """Gives a reply to the request that has waited longest. A greeting that nobody asked for is passed over."""
        told = self._peer.told(body)
        if told is not None:
            raise told
        greeting = greeting_of(body)
        reply = decode_reply(body) if greeting is None else Reply(Kind.GREETING, greeting)
        with self._state:
            is_asked = bool(self._waiting) and (greeting is None or self._waiting[0].request.KIND == Kind.GREETING)
            waiting = self._waiting.popleft() if is_asked else None
            self._since = time.monotonic()
            self._has_answered = True
        if waiting is not None:
            give(waiting, reply)
        elif greeting is None:
            raise NoReply("a reply came to no request")

    def _fail(self, error: LinkError) -> None:
        """The first failure stays. Each request under way gets it."""
        with self._state:
            is_first = self._failure is None
            self._failure = self._failure or error
            error = self._failure
            left = list(self._waiting)
            self._lost += len(left)
            self._untold += [waiting.request for waiting in left]
            self._waiting.clear()
        if is_first and not self._is_closed:
            # Who opens it is told by an exception; a failure later may come while nobody asks.
            level = logging.WARNING if self._has_answered else logging.INFO
            LOG.log(level, "failed: %s: %s; %d requests were under way", self._peer, error, len(left))
        for waiting in left:
            waiting.future.set_exception(Unknown(waiting.request, error) if self._tells_unknown else error)


def give(waiting: Waiting, reply: Reply) -> None:
    """Gives an answer; NoReply where the reply is of another kind than the request takes."""
    kind = waiting.request.KIND
    if isinstance(reply.value, TsdError):
        waiting.future.set_exception(reply.value)
    elif reply.kind == kind:
        waiting.future.set_result(reply.value)
    else:
        error = NoReply(f"the reply is of kind {reply.kind.name}, not {kind.name}")
        waiting.future.set_exception(error)
        raise error


LINKS: weakref.WeakSet[AnyLink] = weakref.WeakSet()


def forget_all() -> None:
    """In a child of `fork`: a link is its parent's. A pipe that the child kept open would hold up the parent's end."""
    for link in list(LINKS):
        link.forget()
    LINKS.clear()


os.register_at_fork(after_in_child=forget_all)

"""A disk that is open: by its own program, by a hub that was joined, or by the library in this process."""

from __future__ import annotations

import functools
import logging
import threading
from concurrent.futures import Future
from types import TracebackType
from typing import Any, List, Optional, Set, Tuple, Type, TypeVar

from tsd import requests
from tsd.arguments import PathWord, one_of, path_word, seconds
from tsd.errors import BadRequest, Ended, LinkError, ProgramEnded, TsdError
from tsd.hub_words import Greeting
from tsd.image_header import geometry_of
from tsd.link import AnyLink, Link
from tsd.locks import LIMIT
from tsd.peers import ProgramPeer, SocketPeer
from tsd.programs import PLACES, Program, image_word, program_words
from tsd.requests import Request
from tsd.session import Session

Answer = TypeVar("Answer")
LOG = logging.getLogger("tsd")
SESSIONS = range(1, 65)
GROUP, SERVE = "group", "serve"
NEAR = "near"
USAGE = 2


class Disk:
    """A disk that `open` or `connect` opened. As a context it closes itself. Several threads may use it; another
    process may not (WrongProcess)."""

    def __init__(self, link: AnyLink, geometry: Optional[Greeting] = None) -> None:
        """Of `open` and `connect`."""
        self._link = link
        self._geometry = geometry
        self._taken: Set[int] = set()
        self._lock = threading.Lock()
        self._unknown: List[Request[Any]] = []

    @property
    def failure(self) -> Optional[LinkError]:
        """Why the disk can't be used any more; None while it can."""
        return self._link.failure

    @property
    def geometry(self) -> Optional[Greeting]:
        """The bytes of a block, how many blocks and primary blocks there are, and the version of the image; None where
        neither a hub tells it nor the image is a file of this machine."""
        return self._geometry

    def session(self, number: Optional[int] = None) -> Session:
        """Opens a session: of this number (1 to 64), or of the least that this disk's sessions don't use. Over a hub
        there is one at a time, whose number the hub sets."""
        link = self._live_link()
        with self._lock:
            if number is None:
                number = next((each for each in SESSIONS if each not in self._taken), SESSIONS[-1])
            is_new = number not in self._taken
            self._taken.add(number)
        try:
            link.ask(requests.Begin(), number).result()
        except (TsdError, TypeError, ValueError):
            if is_new:
                self._give_back(link, number)
            raise
        return Session(link, number, functools.partial(self._give_back, link))

    def free(self) -> int:
        """How many blocks are free."""
        return self.ask(requests.GetFree()).result()

    def ask(self, request: Request[Answer], session: int = 0) -> Future[Answer]:
        """Sends a request of a session, and doesn't wait. The future's callbacks run in the thread that reads, so they
        may wait for nothing."""
        return self._live_link().ask(request, session)

    def take_unknown(self) -> List[Request[Any]]:
        """The requests that change something whose replies didn't come, in the order in which they were asked: each
        was carried out whole, or not at all. The next call tells only those that came since."""
        self._note_unknown(self._link)
        unknown, self._unknown = self._unknown, []
        return unknown

    def close(self) -> None:
        """Ends the link, once the requests under way are answered. ProgramEnded where the program ended with another
        status than 0; LibraryFailed where a sync failed; another LinkError where the link failed. Once more does
        nothing."""
        if not self._link.close():
            return
        failure = self._link.failure
        if failure is not None and (self._link.lost or not is_good_end(failure)):
            raise failure

    def _live_link(self) -> AnyLink:
        """The link to ask by."""
        self._link.check_process()
        return self._link

    def _note_unknown(self, link: AnyLink) -> None:
        self._unknown += [request for request in link.take_lost() if request.CHANGES]

    def _give_back(self, link: AnyLink, number: int) -> None:
        """A number of this link, which may be one of before, is free again."""
        with self._lock:
            if link is self._link:
                self._taken.discard(number)

    def __enter__(self) -> Disk:
        return self

    def __exit__(
        self, kind: Optional[Type[BaseException]], error: Optional[BaseException], where: Optional[TracebackType]
    ) -> None:
        try:
            self.close()
        except TsdError:
            if kind is None:
                raise

    def __repr__(self) -> str:
        return f"<disk, {self._link!r}>"


def is_good_end(failure: LinkError) -> bool:
    """Whether the other side ended as it should when it is asked nothing more."""
    if not isinstance(failure, Ended) or failure.is_cut_off:
        return False
    return not isinstance(failure, ProgramEnded) or failure.status == 0


def greeted(link: Link) -> Optional[Greeting]:
    """Waits until the other side answers, so that the disk is open; what it greets with, if it does. Where it fails
    the link is closed."""
    try:
        greeting: Optional[Greeting] = link.ask(requests.Hello()).result()
    except BadRequest:
        greeting = None
    except BaseException:
        link.close()
        raise
    LOG.info("open: %r", link)
    return greeting


def started(program: List[str], image: str, command: List[str], limit: float) -> Disk:
    """Starts a program that serves frames, and waits until the disk is open. One of several words, as of ssh, may be on
    another machine: then no file here tells the geometry."""
    link = Link(ProgramPeer([*program, image_word(image), *command]), limit)
    greeting = greeted(link)
    return Disk(link, greeting or (geometry_of(image) if len(program) == 1 else None))


WITHOUT_GROUP: Set[Tuple[str, ...]] = set()


def opened_here(image: str, place: str, program: Program) -> Disk:
    """Opens an image by the library in this process."""
    from tsd.embedded import EmbeddedLink

    if place != NEAR or program is not None:
        raise ValueError(f"embedded takes blocks by {NEAR!r}, and has no program")
    link = EmbeddedLink(image)
    LOG.info("open: %r", link)
    return Disk(link, geometry_of(image))


def open_disk(
    image: PathWord, place: str = "near", *, program: Program = None, limit: float = LIMIT, group: bool = True,
    embedded: bool = False,
) -> Disk:
    """Opens an image by `tsd IMAGE group PLACE`, or by `serve` where the program has no such command or `group` is
    false, for this process alone. By `group` requests that are under way together are committed together, so that a
    crash may leave the disk further on than the last reply by several requests; by `serve` it is one at most.

    The place says which free block is taken first: `low`, `near`, `spread` or `zone`. It waits until the image is open;
    ProgramEnded where it can't be opened. Where requests are under way and no reply comes for so many seconds as the
    limit says, the disk has failed (Silent); the opening has to come within it too.

    With `embedded` the disk is opened by the library in this process (docs/EMBEDDING.md), with no program: each request
    is carried out by the time its call returns, and is durable before its reply, as by `serve`. Blocks are taken by
    `near`, and no limit holds. FileNotFoundError where there is no library, LibraryFailed where the image can't be
    opened."""
    name, place, limit = path_word(image, "image"), one_of(place, "place", PLACES), seconds(limit)
    if embedded:
        return opened_here(name, place, program)
    words = program_words(program)
    if not group or tuple(words) in WITHOUT_GROUP:
        return started(words, name, [SERVE, place], limit)
    try:
        return started(words, name, [GROUP, place], limit)
    except ProgramEnded as ended:
        if ended.status != USAGE:
            raise
    # A program that has no such command has read nothing, and has changed nothing.
    disk = started(words, name, [SERVE, place], limit)
    WITHOUT_GROUP.add(tuple(words))
    return disk


def joined(path: str, limit: float, tells_unknown: bool = False) -> Tuple[Link, Optional[Greeting]]:
    """A link to a hub that has answered, and its greeting."""
    link = Link(SocketPeer(path, limit), limit, tells_unknown)
    return link, greeted(link)


def connect(path: PathWord, *, limit: float = LIMIT, reconnect: bool = False) -> Disk:
    """Joins the hub at a Unix socket. With `reconnect` the disk joins again where the hub ended and came again: see
    `ReconnectingDisk`."""
    from tsd.reconnecting import ReconnectingDisk

    name, limit = path_word(path, "path"), seconds(limit)
    return ReconnectingDisk(name, limit) if reconnect else Disk(*joined(name, limit))

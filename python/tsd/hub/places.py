"""The numbers of sessions and guests, what stands there, and what is waited for."""

from __future__ import annotations

import select
from typing import NamedTuple

from tsd.hub.bodies import Asked

SESSIONS = range(1, 65)
# So many connections may ask for the hub's numbers where no session is left.
GUESTS = range(65, 69)
# Bytes that come are told once, and whoever is told reads until there are none.
READING = select.EPOLLIN | select.EPOLLRDHUP | select.EPOLLET
WRITING = select.EPOLLOUT | select.EPOLLET
ENDED = select.EPOLLRDHUP | select.EPOLLHUP | select.EPOLLERR
READABLE = select.EPOLLIN | ENDED
WRITABLE = select.EPOLLOUT | select.EPOLLHUP | select.EPOLLERR


class Closing(NamedTuple):
    """A session's number whose client, of this user, is gone, until the disk has closed the session."""

    user: int


class Sent(NamedTuple):
    """A request at the disk: of which session's number and generation its reply is. The hub itself asks with generation
    0: of session 0 whether the disk is open, of another that it be closed."""

    slot: int
    generation: int
    asked: Asked

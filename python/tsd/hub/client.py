"""A client's connection: its requests as they lie there, and its replies until it takes them."""

from __future__ import annotations

import socket
from typing import Optional

from tsd.frames import frame
from tsd.hub.bodies import Asked, asked_by
from tsd.hub.buffers import Buffer, Moved

# Once so many requests of a client lie between its socket and its taking their replies, no more is read of it.
WINDOW = 16


class Client:
    """Of a session's number, or a guest that has none."""

    def __init__(self, connection: socket.socket, user: int, peer: str, generation: int, now: float) -> None:
        """Which generation says which connection under its number it is: replies to one before aren't its own."""
        self.connection = connection
        self.user = user
        self.peer = peer
        self.generation = generation
        self.requests = 0
        self.at_disk = 0
        self.lying = 0
        self.last_heard = now
        self.is_in_row = False
        self.waits_for_room = False
        self.may_have_bytes = True
        self.may_end = False
        self._descriptor = connection.fileno()
        self._input = Buffer()
        self._output = Buffer()
        self._next: Optional[Asked] = None
        self._counted = 0
        self._undelivered = 0
        self._has_ended = False
        self._is_broken = False

    def read(self, now: float) -> int:
        """Reads as long as there are bytes and room for requests. How many whole frames came."""
        before = self.lying
        while self.may_have_bytes and not self._has_ended and not self._is_broken and self._window_left() > 0:
            moved = self._input.read_from(self._descriptor, self.may_end)
            self.may_have_bytes = moved != Moved.ALL
            self._has_ended = moved == Moved.OVER
            self._count_frames()
        come = self.lying - before
        if come:
            self.last_heard = now
            self.requests += come
        return come

    def _window_left(self) -> int:
        return WINDOW - self.lying - self.at_disk - self._undelivered

    def _count_frames(self) -> None:
        end = self._input.frame_end(self._counted)
        while end is not None:
            self._counted = end
            self.lying += 1
            end = self._input.frame_end(end)

    def front(self) -> bytes:
        """The body of the next request, which is there."""
        end = self._input.frame_end(0)
        assert end is not None
        return self._input.body(0, end)

    def next(self) -> Optional[Asked]:
        """What the next request is, where there is one."""
        if self._next is None and self.lying:
            self._next = asked_by(self.front())
        return self._next

    def take_front(self) -> None:
        """Takes the next request, which is there, away."""
        end = self._input.frame_end(0)
        assert end is not None
        self._input.consume(end)
        self._next = None
        self._counted -= end
        self.lying -= 1

    def give(self, body: bytes) -> None:
        """Puts a reply, or what the hub tells, behind the others."""
        if not self._is_broken:
            self._output.put(frame(body))
            self._undelivered += 1

    def send(self, now: float) -> bool:
        """Sends as much as the client takes at once; whether all."""
        if self._is_broken or not len(self._output):
            return True
        moved = self._output.write_to(self._descriptor)
        if moved == Moved.ALL:
            self._undelivered = 0
            self.last_heard = now
        elif moved == Moved.OVER:
            self._is_broken = True
            self.drop_requests()
            self._output.clear()
        return moved != Moved.SOME

    def drop_requests(self) -> None:
        """Drops the requests that haven't gone to the disk."""
        self._input.clear()
        self._next = None
        self._counted = 0
        self.lying = 0

    def is_done(self) -> bool:
        """Whether it has all that it will ever get."""
        return self._is_broken or (self._has_ended and self.is_at_rest() and not len(self._output))

    def is_at_rest(self) -> bool:
        """Whether it waits for nothing from the disk."""
        return self.lying == 0 and self.at_disk == 0

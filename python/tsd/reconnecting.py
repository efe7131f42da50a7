"""A disk over a hub that may end and come again."""

from __future__ import annotations

import logging
import threading
import time

from tsd.disk import Disk, joined
from tsd.errors import Closed, DiskEnded, Ended, HubFull, HubIdle, HubStopped
from tsd.link import AnyLink

LOG = logging.getLogger("tsd")
FIRST_NAP, LONGEST_NAP = 0.02, 0.5
# A hub that isn't there, or not yet again, or that still has the sessions of the connection before.
AWAY = (ConnectionRefusedError, FileNotFoundError, Ended, DiskEnded, HubFull, HubIdle, HubStopped)


class ReconnectingDisk(Disk):
    """A disk that joins its hub again, once the link to it has failed, at the next session or request that is of none.

    Each request under way when a link fails raises Unknown, which has the request, and `take_unknown` tells those that
    may have changed something: each was carried out whole, or not at all. None is sent twice. A session ends with its
    link, and with it all that it held: open another one. Where no hub comes within the limit the last error is raised,
    and the next use tries again.
    """

    def __init__(self, path: str, limit: float) -> None:
        """Of `connect`. It joins at once."""
        self._path = path
        self._limit = limit
        self._joining = threading.Lock()
        self._is_closed = False
        super().__init__(*joined(path, limit, tells_unknown=True))

    def _live_link(self) -> AnyLink:
        self._link.check_process()
        with self._joining:
            if self._is_closed:
                raise Closed
            if self._link.failure is not None:
                self._join_again()
            return self._link

    def close(self) -> None:
        """Ends the link. That a hub ended before is no error here: whatever was under way then has raised Unknown."""
        self._link.close()
        self._is_closed = True

    def _join_again(self) -> None:
        before, until, nap = self._link, time.monotonic() + self._limit, FIRST_NAP
        self._note_unknown(before)
        before.close()
        while True:
            try:
                self._link, self._geometry = joined(self._path, self._limit, tells_unknown=True)
                break
            except AWAY:
                if time.monotonic() + nap >= until:
                    raise
            time.sleep(nap)
            nap = min(2 * nap, LONGEST_NAP)
        with self._lock:
            self._taken.clear()
        LOG.info("joined again: %r", self._link)

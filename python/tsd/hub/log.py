"""Lines on standard error. They are limited in number, and whoever reads them delays nobody."""

from __future__ import annotations

import os
import queue
import sys
import threading
import time
from typing import Callable

from tsd.hub.limits import Allowance

# So many lines may come at once, and then so many a second.
LINES = (256.0, 10.0)
MOST_WAITING = 512
SECONDS_TO_END = 1.0


class Log:
    """A log. A thread of its own writes it, and also the file of the hub's numbers."""

    def __init__(self, now: float) -> None:
        self.left_out_total = 0
        self._left_out = 0
        self._allowance = Allowance(LINES, now)
        self._puts: queue.Queue[Callable[[], None]] = queue.Queue(MOST_WAITING)
        self._is_over = False
        self._writer = threading.Thread(target=self._put_out, daemon=True)
        self._writer.start()

    def line(self, now: float, text: str) -> None:
        """A line that may be left out where there are too many."""
        if self._allowance.take(now):
            self.always(text)
        else:
            self._leave_out()

    def always(self, text: str) -> None:
        """A line of the hub itself, of which there are few."""
        if self._left_out:
            count, self._left_out = self._left_out, 0
            self._put(f"{count} lines were left out, as too many came")
        self._put(text)

    def keep_file(self, path: str, text: str) -> None:
        """Puts a text into a file, when it is its turn. It isn't put where too much waits."""
        try:
            self._puts.put_nowait(lambda: write_file(path, text))
        except queue.Full:
            pass

    def end(self) -> None:
        """Ends it. Lines that nobody takes within a second are lost."""
        if self._left_out:
            self._put(f"{self._left_out} lines were left out, as too many came")
        until = time.monotonic() + SECONDS_TO_END
        try:
            self._puts.put(self._end, timeout=SECONDS_TO_END)
        except queue.Full:
            return
        self._writer.join(max(0.0, until - time.monotonic()))

    def _end(self) -> None:
        self._is_over = True

    def _put(self, text: str) -> None:
        try:
            self._puts.put_nowait(lambda: write_error(f"tsd-hub: {text}\n"))
        except queue.Full:
            self._leave_out()

    def _leave_out(self) -> None:
        self._left_out += 1
        self.left_out_total += 1

    def _put_out(self) -> None:
        while not self._is_over:
            try:
                self._puts.get()()
            except OSError as error:
                write_error(f"tsd-hub: {error}\n")


def write_error(text: str) -> None:
    """Writes to standard error, where it takes something."""
    left = text.encode(errors="backslashreplace")
    try:
        while left:
            left = left[os.write(sys.stderr.fileno(), left):]
    except OSError:
        pass


def write_file(path: str, text: str) -> None:
    """Puts a text into a file, which has the old text or the new one at each moment."""
    beside = f"{path}.{os.getpid()}"
    with open(beside, "w") as file:
        file.write(text)
    os.rename(beside, path)

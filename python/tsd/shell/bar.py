"""A bar for a transfer, in one line of standard error where that is a terminal; it also stops a transfer at Ctrl-C."""

from __future__ import annotations

import contextlib
import os
import shutil
import signal
import sys
import time
from types import FrameType, TracebackType
from typing import Any, BinaryIO, Iterator, Optional, Type

from tsd.plain import plain
from tsd.shell.files import Stopped

WIDTH = 30
REDRAW_SECONDS = 0.1
WAIT_SECONDS = 0.2
UNITS = ("B", "KB", "MB", "GB", "TB")
MORE = "…"
CLEAR = "\r\033[K"
STANDARD_ERROR = 2


def amount(count: float) -> str:
    """A number of bytes in a unit that people read."""
    unit = 0
    while count >= 1000 and unit < len(UNITS) - 1:
        count, unit = count / 1000, unit + 1
    return f"{count:.0f} {UNITS[unit]}" if unit == 0 else f"{count:.1f} {UNITS[unit]}"


def bar_text(name: str, count: int, total: Optional[int], columns: int = 10000) -> str:
    """The line: with a bar where the total is known. A name says nothing to the terminal, and is cut where the line
    would be longer than the terminal is wide."""
    if not total:
        behind = f": {amount(count)}"
    else:
        share = min(1.0, count / total)
        filled = int(WIDTH * share)
        behind = f": [{'#' * filled}{'.' * (WIDTH - filled)}] {share:4.0%}, {amount(count)} of {amount(total)}"
    name, room = plain(name), max(1, columns - 1 - len(behind))
    return (name if len(name) <= room else name[:room - 1] + MORE) + behind


class Transfer:
    """A context for work of many asks: call it with how many bytes have gone. A first Ctrl-C raises Stopped at the next
    call, or at once where only this machine's files are waited for; what was begun is then taken away. A further one is
    told so: the disk has to answer before that, which the limit bounds."""

    def __init__(self, name: str, total: Optional[int] = None, is_shown: bool = True) -> None:
        self._name = name
        self.total = total
        self._is_shown = is_shown and sys.stderr.isatty()
        self._is_drawn = False
        self._is_stopped = False
        self._is_waiting = False
        self._next = time.monotonic() + WAIT_SECONDS

    def __call__(self, count: int) -> None:
        if self._is_stopped:
            raise Stopped
        if self._is_shown and time.monotonic() >= self._next:
            self._next = time.monotonic() + REDRAW_SECONDS
            self._is_drawn = True
            text = bar_text(self._name, count, self.total, shutil.get_terminal_size().columns)
            print(CLEAR + text, end="", file=sys.stderr, flush=True)

    @contextlib.contextmanager
    def waiting(self) -> Iterator[None]:
        """While files of this machine are waited for, and no ask is under way, Ctrl-C stops at once."""
        if self._is_stopped:
            raise Stopped
        self._is_waiting = True
        try:
            yield
        finally:
            self._is_waiting = False

    def __enter__(self) -> Transfer:
        self._before: Any = signal.signal(signal.SIGINT, self._stop)
        return self

    def __exit__(
        self, kind: Optional[Type[BaseException]], error: Optional[BaseException], where: Optional[TracebackType]
    ) -> None:
        signal.signal(signal.SIGINT, self._before)
        self.clear()

    def clear(self) -> None:
        """Wipes the bar, so that something else may be printed."""
        if self._is_drawn:
            self._is_drawn = False
            print(CLEAR, end="", file=sys.stderr, flush=True)

    def _stop(self, number: int, frame: Optional[FrameType]) -> None:
        if self._is_waiting:
            self._is_waiting, self._is_stopped = False, True
            raise Stopped
        if self._is_stopped:
            # Not print: what it interrupts may be one.
            os.write(STANDARD_ERROR, b"\nit stops as soon as the disk has answered\n")
        self._is_stopped = True


class Reading:
    """A file of this machine that Ctrl-C stops the reading of."""

    def __init__(self, file: BinaryIO, transfer: Transfer) -> None:
        self._file = file
        self._transfer = transfer

    def read(self, count: int) -> bytes:
        """At most so many bytes; none at the end."""
        with self._transfer.waiting():
            return self._file.read(count)

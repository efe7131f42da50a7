"""The hub's side of the disk: its program, requests in, replies out, in one order."""

from __future__ import annotations

import contextlib
import fcntl
import os
import subprocess
import tempfile
from typing import List, NamedTuple

from tsd.hub.buffers import Buffer, Moved
from tsd.programs import kill_session, words_of

PIPE_BYTES = 1 << 20
SECONDS_TO_TELL = 10.0
F_SETPIPE_SZ = 1031


class Ending(NamedTuple):
    """How the disk's program ended: its status (below 0 for a signal), and its words on standard error."""

    status: int
    words: str


class DiskSide:
    """A running program that serves frames."""

    def __init__(self, words: List[str]) -> None:
        """Of the words that start it, in a session of its own: a Ctrl-C at the terminal is for the hub alone."""
        self._error = tempfile.TemporaryFile()
        self._process = subprocess.Popen(words, stdin=subprocess.PIPE, stdout=subprocess.PIPE, stderr=self._error,
                                         start_new_session=True, bufsize=0)
        assert self._process.stdin is not None and self._process.stdout is not None
        self._stdin, self._stdout = self._process.stdin, self._process.stdout
        self.input, self.output = self._stdin.fileno(), self._stdout.fileno()
        for descriptor in (self.input, self.output):
            os.set_blocking(descriptor, False)
            with contextlib.suppress(OSError):
                fcntl.fcntl(descriptor, F_SETPIPE_SZ, PIPE_BYTES)
        self.takes_requests = True
        self.waits_for_room = False
        self.requests = Buffer()
        self.replies = Buffer()

    @property
    def process(self) -> int:
        """The number of its process."""
        return self._process.pid

    def send(self) -> bool:
        """Sends as much as it takes at once; whether all. Where it takes no more it has ended, and its output says
        so."""
        if not self.takes_requests:
            return True
        moved = self.requests.write_to(self.input)
        if moved == Moved.OVER:
            self.requests.clear()
        return moved != Moved.SOME

    def read(self, may_end: bool) -> bool:
        """Reads what has come, with the end that may stand behind it; whether its output goes on."""
        moved = Moved.SOME
        while moved == Moved.SOME:
            moved = self.replies.read_from(self.output, may_end)
        return moved != Moved.OVER

    def end_requests(self) -> None:
        """Ends its requests."""
        if self.takes_requests:
            self.takes_requests = False
            self._stdin.close()

    def kill(self) -> None:
        """Kills it, with what it has started itself."""
        if self._process.poll() is None:
            kill_session(self.process)

    def ending(self, seconds: float) -> Ending:
        """How it ended; it is killed where it hasn't when the time is over."""
        try:
            self._process.wait(max(0.0, seconds))
        except subprocess.TimeoutExpired:
            self.kill()
        return Ending(self._process.wait(), words_of(self._error))


def serving_command(program: List[str]) -> str:
    """The command that serves frames: `group`, by which requests that come together share their syncs, where the
    program has it, and else `serve`."""
    null = subprocess.DEVNULL
    process = subprocess.Popen(program + ["help", "group"], stdin=null, stdout=null, stderr=null,
                               start_new_session=True)
    try:
        return "group" if process.wait(SECONDS_TO_TELL) == 0 else "serve"
    except subprocess.TimeoutExpired:
        kill_session(process.pid)
        process.wait()
        return "serve"

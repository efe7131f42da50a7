"""What is at the other end of a link: a program on two pipes, or a hub on a socket."""

from __future__ import annotations

import errno
import os
import socket
import struct
import subprocess
import tempfile
import time
from typing import Optional, Sequence

from tsd.arguments import PathWord
from tsd.errors import Ended, LinkError, ProgramEnded, Silent
from tsd.hub_words import what_is_told
from tsd.programs import kill_session, words_of

LONGEST_NAP = 0.5


class Peer:
    """The other end. Its descriptors don't block."""

    reading: int
    writing: int

    def told(self, body: bytes) -> Optional[LinkError]:
        """What a body tells that is no reply of a disk."""
        return None

    def ended(self, is_cut_off: bool, limit: float) -> Ended:
        """How it ended, once nothing more comes from it."""
        return Ended(is_cut_off)

    def end_requests(self) -> None:
        """Tells it that no more requests come."""

    def stop(self) -> None:
        """Ends it, whatever it does."""

    def release(self) -> None:
        """Gives back all that is held for it."""

    def forget(self) -> None:
        """In a child of `fork`: closes the child's copies of its descriptors, and says nothing to it."""


class ProgramPeer(Peer):
    """A program that was started for this link, in a session of its own: a Ctrl-C at the terminal doesn't reach it."""

    def __init__(self, words: Sequence[str], pass_fds: Sequence[int] = ()) -> None:
        self._error = tempfile.TemporaryFile(buffering=0)
        try:
            self._process = subprocess.Popen(words, stdin=subprocess.PIPE, stdout=subprocess.PIPE, stderr=self._error,
                                             start_new_session=True, bufsize=0, pass_fds=pass_fds)
        except OSError:
            self._error.close()
            raise
        assert self._process.stdin is not None and self._process.stdout is not None
        self._input, self._output = self._process.stdin, self._process.stdout
        self._name = os.path.basename(words[0])
        self.writing, self.reading = self._input.fileno(), self._output.fileno()
        os.set_blocking(self.writing, False)
        os.set_blocking(self.reading, False)

    @property
    def process(self) -> int:
        """The number of its process."""
        return self._process.pid

    def ended(self, is_cut_off: bool, limit: float) -> ProgramEnded:
        """Waits for its status; where it has closed its output and doesn't end, it is killed."""
        try:
            self._process.wait(limit)
        except subprocess.TimeoutExpired:
            self.stop()
        return ProgramEnded(self._process.wait(), words_of(self._error), is_cut_off)

    def end_requests(self) -> None:
        self._input.close()

    def stop(self) -> None:
        if self._process.poll() is None:
            kill_session(self._process.pid)

    def release(self) -> None:
        self.stop()
        self._process.wait()
        self._input.close()
        self._output.close()
        self._error.close()

    def forget(self) -> None:
        for file in (self._input, self._output, self._error):
            file.close()
        self._process.returncode = 0  # The parent's child, for which this process has nothing to wait.

    def __repr__(self) -> str:
        return f"program {self._name!r} in process {self.process}"


class SocketPeer(Peer):
    """A hub at a Unix socket."""

    def __init__(self, path: PathWord, limit: float) -> None:
        """Joins it: where others wait before it, within the limit (Silent). An OSError names the path."""
        self._path = os.fspath(path)
        self._socket = socket.socket(socket.AF_UNIX, socket.SOCK_STREAM)
        try:
            connect_within(self._socket, self._path, limit)
        except OSError as error:
            self._socket.close()
            if error.errno is None:
                raise OSError(errno.ENAMETOOLONG, str(error), self._path) from None
            raise type(error)(error.errno, error.strerror, self._path) from None
        except BaseException:
            self._socket.close()
            raise
        self._socket.setblocking(False)
        self.reading = self.writing = self._socket.fileno()

    def told(self, body: bytes) -> Optional[LinkError]:
        return what_is_told(body)

    def end_requests(self) -> None:
        self._shut(socket.SHUT_WR)

    def stop(self) -> None:
        self._shut(socket.SHUT_RDWR)

    def release(self) -> None:
        self._socket.close()

    def forget(self) -> None:
        self._socket.close()

    def __repr__(self) -> str:
        return f"hub at {self._path!r}"

    def _shut(self, how: int) -> None:
        try:
            self._socket.shutdown(how)
        except OSError:
            pass


def connect_within(client: socket.socket, path: str, limit: float) -> None:
    """Connects a socket; Silent where those who wait to be taken leave no room for as long as the limit."""
    until = time.monotonic() + limit
    while True:
        left = until - time.monotonic()
        if left <= 0:
            raise Silent(limit)
        # A Unix socket's connect waits by the kernel's limit for sending alone; Python's own would not wait at all.
        client.setsockopt(socket.SOL_SOCKET, socket.SO_SNDTIMEO, timeval(min(left, LONGEST_NAP)))
        try:
            client.connect(path)
            return
        except (BlockingIOError, InterruptedError):
            continue


def timeval(seconds: float) -> bytes:
    """Seconds as the system's struct timeval; not 0, which would be without end."""
    return struct.pack("ll", int(seconds), max(1000, int(seconds % 1 * 1000000)))

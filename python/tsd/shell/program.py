"""The program that answers asks: one goes out as a frame, and a line answers it before the next one."""

from __future__ import annotations

import os
import select
import time
from typing import Iterator, List

from tsd.errors import LinkError, NoReply, Silent
from tsd.frames import frame
from tsd.peers import ProgramPeer
from tsd.shell.refusals import refusal

PIECE = 65536
MOST_REFUSAL = 64
NO = b"no "


class ShellProgram:
    """`tsd IMAGE files ...`, started. Nothing waits longer than the limit, in seconds, while no byte goes or comes."""

    def __init__(self, peer: ProgramPeer, limit: float) -> None:
        self._peer = peer
        self._limit = limit
        self._left = b""
        self._is_asking = False

    def ask(self, body: bytes) -> List[str]:
        """The words of an answer; ShellRefused where they refuse it."""
        return b"".join(self.pieces(body)).decode("latin-1").split(" ")

    def expect(self, body: bytes, first: str) -> List[str]:
        """The words behind the first one of an answer, which has to be this."""
        words = self.ask(body)
        if words[0] != first:
            raise NoReply(f"an answer begins with {words[0][:20]!r}, not {first!r}")
        return words[1:]

    def pieces(self, body: bytes) -> Iterator[bytes]:
        """The answer as it comes, without its line feed; ShellRefused where it is a refusal. The rest of an answer that
        isn't taken to its end is passed over. An ask that was interrupted leaves no other one: LinkError."""
        if self._is_asking:
            raise LinkError("an earlier ask was interrupted")
        self._is_asking = True
        self._send(frame(body))
        first = self._first_piece()
        if first.startswith(NO):
            raise self._refusal(first)
        piece = first
        while True:
            text, feed, rest = piece.partition(b"\n")
            if feed:
                self._left, self._is_asking = rest, False
            try:
                yield text
            except GeneratorExit:
                self._pass_over()
                raise
            if feed:
                return
            piece = self._receive()

    def close(self) -> None:
        """Ends its input and waits for it; ProgramEnded where it ends with another status than 0."""
        self._peer.end_requests()
        ended = self._peer.ended(False, self._limit)
        self._peer.release()
        if ended.status != 0:
            raise ended

    def abandon(self) -> None:
        """Ends it, whatever it does."""
        self._peer.release()

    def _pass_over(self) -> None:
        while self._is_asking:
            _, feed, self._left = self._receive().partition(b"\n")
            self._is_asking = not feed

    def _first_piece(self) -> bytes:
        """Enough of an answer to tell a refusal, which is taken whole."""
        text, self._left = self._left, b""
        while b"\n" not in text and (len(text) < len(NO) or text.startswith(NO)) and len(text) < MOST_REFUSAL:
            text += self._receive()
        return text

    def _refusal(self, text: bytes) -> Exception:
        words, _, self._left = text[len(NO):].partition(b"\n")
        self._is_asking = False
        try:
            return refusal(words.decode("latin-1"))
        except ValueError as error:
            return NoReply(str(error))

    def _send(self, text: bytes) -> None:
        left = memoryview(text)
        try:
            while left:
                self._wait(self._peer.writing, select.POLLOUT)
                left = left[os.write(self._peer.writing, left):]
        except BrokenPipeError:
            raise self._peer.ended(False, self._limit) from None

    def _receive(self) -> bytes:
        self._wait(self._peer.reading, select.POLLIN)
        piece = os.read(self._peer.reading, PIECE)
        if not piece:
            raise self._peer.ended(False, self._limit)
        return piece

    def _wait(self, descriptor: int, what: int) -> None:
        poller = select.poll()
        poller.register(descriptor, what)
        until = time.monotonic() + self._limit
        while not poller.poll(max(0.0, 1000 * (until - time.monotonic()))):
            if time.monotonic() >= until:
                raise Silent(self._limit)

"""The disk in this process: the library and its host in C, as one shared library, called by ctypes; and a link over it.

docs/EMBEDDING.md says when to use it, and what the process owes: a stray write of any code in it may reach the image.
"""

from __future__ import annotations

import ctypes
import errno
import logging
import os
import threading
from concurrent.futures import Future
from pathlib import Path
from typing import Any, TypeVar

from tsd.errors import Closed, LibraryFailed, LinkError
from tsd.frames import LENGTH_BYTES, frame
from tsd.link import AnyLink, Waiting, give
from tsd.replies import decode_reply
from tsd.requests import Request

Answer = TypeVar("Answer")
LOG = logging.getLogger("tsd")
LIBRARY_VARIABLE = "TSD_EMBED_LIBRARY"
LIBRARY_NAME = "libtsd_embed.so"
# Of tsd_embed.h: all was done, and a call of the system failed.
DONE, SYSTEM = 0, 29
# More than the library asks for of one request.
ROOM = 8192


def library_path() -> str:
    """The shared library: that which the variable TSD_EMBED_LIBRARY names, else the one that stands beside this package
    where it is installed, or that `tools/embed shared` has made in its clone. FileNotFoundError where there is none."""
    named = os.environ.get(LIBRARY_VARIABLE)
    if named:
        return named
    above = Path(__file__).resolve().parent.parent.parent
    for path in (above / LIBRARY_NAME, above / "crates/tsd_c/out" / LIBRARY_NAME):
        if path.is_file():
            return str(path)
    why = (f"the disk's library isn't there: `tools/embed shared` makes it in a clone, by a C compiler; "
           f"docs/EMBEDDING.md says how elsewhere; {LIBRARY_VARIABLE} may name it")
    raise FileNotFoundError(errno.ENOENT, why, LIBRARY_NAME)


def loaded(path: str) -> ctypes.CDLL:
    """The library, with the calls that a link makes. An OSError where it can't be loaded, or is another one."""
    try:
        library = ctypes.CDLL(path, use_errno=True)
        disk, size = ctypes.c_void_p, ctypes.c_size_t
        library.tsd_embed_open.argtypes = [ctypes.c_char_p, ctypes.POINTER(disk)]
        library.tsd_embed_apply.argtypes = [disk, ctypes.c_char_p, size, disk, size, ctypes.POINTER(size)]
        library.tsd_embed_close.argtypes = [disk]
        library.tsd_embed_words.restype = ctypes.c_char_p
    except AttributeError as error:
        raise OSError(errno.ENOEXEC, f"it isn't the disk's library: {error}", path) from None
    return library


class EmbeddedLink(AnyLink):
    """Requests to a disk that this process has open itself. Each is carried out by the time `ask` returns, and what it
    changed is on the medium. Several threads may use it; the others wait meanwhile."""

    def __init__(self, image: str) -> None:
        """Opens an image. An OSError where the system fails, LibraryFailed where the image can't be opened."""
        super().__init__()
        self._image = image
        self._library = loaded(library_path())
        self._disk = ctypes.c_void_p()
        self._room = ctypes.create_string_buffer(ROOM)
        self._filled = ctypes.c_size_t()
        self._told = ctypes.byref(self._filled)
        self._calling = threading.Lock()
        status = self._library.tsd_embed_open(os.fsencode(image), ctypes.byref(self._disk))
        if status == SYSTEM:
            error = ctypes.get_errno()
            raise OSError(error, os.strerror(error), image)
        if status != DONE:
            raise self._failed(status)

    def ask(self, request: Request[Answer], session: int = 0) -> Future[Answer]:
        """Carries out a request; the future has the answer, or the refusal. A LinkError is raised where the link fails
        now or has failed before."""
        self.check_process()
        LOG.debug("asked: %s of session %s", type(request).__name__, session)
        text = frame(request.encode(session))
        future: Future[Answer] = Future()
        future.set_running_or_notify_cancel()
        with self._calling:
            body = self._applied(request, text)
        give(Waiting(request, future), decode_reply(body))
        return future

    def close(self) -> bool:
        """Does what is left to be done, and lets go of the image. False where it was closed before."""
        self.check_process()
        with self._calling:
            if self._is_closed:
                return False
            self._is_closed = True
            status = self._let_go()
        if status != DONE and self._failure is None:
            self._failure = self._failed(status)
        LOG.info("closed: %s", self._image)
        return True

    def forget(self) -> None:
        """In a child of `fork`: gives back the child's copies of the descriptors, the image's lock among them."""
        self._let_go()

    def __repr__(self) -> str:
        state = "closed" if self._is_closed else "failed" if self._failure else "open"
        return f"<link to the library over {self._image!r}, {state}>"

    def _applied(self, request: Request[Any], text: bytes) -> bytes:
        """The body of the reply to one frame."""
        if self._is_closed:
            raise Closed
        if self._failure is not None:
            raise self._failure
        status = self._library.tsd_embed_apply(self._disk, text, len(text), self._room, ROOM, self._told)
        if status != DONE:
            self._failure = self._failed(status)
            self._lost += 1
            self._untold.append(request)
            LOG.warning("failed: %s: %s", self._image, self._failure)
            raise self._failure
        return self._room[LENGTH_BYTES:self._filled.value]

    def _failed(self, status: int) -> LinkError:
        return LibraryFailed(status, self._library.tsd_embed_words(status).decode())

    def _let_go(self) -> int:
        disk, self._disk = self._disk, ctypes.c_void_p()
        return int(self._library.tsd_embed_close(disk))

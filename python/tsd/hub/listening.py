"""The socket at which a hub listens: one that systemd hands over, or its own at a path, with the lock that makes it the
only hub there."""

from __future__ import annotations

import contextlib
import errno
import fcntl
import os
import socket
import stat
from typing import Iterator, Optional, Tuple

FIRST_INHERITED = 3
# So many connections may lie there untaken; more would only wait longer.
BACKLOG = 128
# The bytes that the system takes of a socket's path.
MOST_PATH = 107
MOST_TRIES = 100


class InUse(OSError):
    """Somebody listens at this path, or it is no socket."""


def inherited() -> Optional[socket.socket]:
    """The one socket that systemd has opened for this process (LISTEN_PID, LISTEN_FDS), if it has."""
    if os.environ.get("LISTEN_PID") != str(os.getpid()) or os.environ.get("LISTEN_FDS") != "1":
        return None
    os.set_inheritable(FIRST_INHERITED, False)
    return socket.socket(fileno=FIRST_INHERITED)


@contextlib.contextmanager
def listening(path: str, mode: int) -> Iterator[socket.socket]:
    """Listens at a path, which is there once it listens and has this mode. A socket that nobody listens at any more is
    replaced; InUse for anything else that is there. In the end what stands at the path is taken away where it is this
    hub's socket, and nothing else."""
    length = len(os.fsencode(path))
    if length > MOST_PATH:
        raise OSError(f"{path}: a socket's path has at most {MOST_PATH} bytes, not {length}")
    lock, held = hold(path)
    try:
        check_stale(path)
        try:
            listener, identity = listen(path, mode)
        except OSError as error:
            raise OSError(f"{path}: {error.strerror or error}") from error
        try:
            yield listener
        finally:
            listener.close()
            with contextlib.suppress(OSError):
                if identity_of(path) == identity:
                    os.unlink(path)
    finally:
        with contextlib.suppress(OSError):
            os.unlink(lock)
        os.close(held)


def identity_of(path: str) -> Tuple[int, int]:
    """Which file this is."""
    about = os.lstat(path)
    return about.st_dev, about.st_ino


def hold(path: str) -> Tuple[str, int]:
    """The lock of a path, a file beside it that one process has locked: its name, and its descriptor. It is of no use
    where another process has taken it away meanwhile; then the new one is locked."""
    lock = f"{path}.lock"
    for _ in range(MOST_TRIES):
        try:
            held = os.open(lock, os.O_RDWR | os.O_CREAT | os.O_NOFOLLOW | os.O_CLOEXEC, 0o600)
        except OSError as error:
            raise OSError(f"{lock}: {error.strerror}") from error
        try:
            fcntl.flock(held, fcntl.LOCK_EX | fcntl.LOCK_NB)
        except BlockingIOError:
            process = os.read(held, 32).decode(errors="replace").strip()
            os.close(held)
            raise InUse(f"somebody listens at {path}: process {process}") from None
        about = os.fstat(held)
        with contextlib.suppress(FileNotFoundError):
            if identity_of(lock) == (about.st_dev, about.st_ino):
                os.ftruncate(held, 0)
                os.write(held, b"%d\n" % os.getpid())
                return lock, held
        os.close(held)
    raise InUse(f"{lock} is made and taken away by others")


def check_stale(path: str) -> None:
    """InUse where something stands at the path that isn't a socket at which nobody listens."""
    try:
        kind = os.lstat(path).st_mode
    except FileNotFoundError:
        return
    except OSError as error:
        raise OSError(f"{path}: {error.strerror}") from error
    if not stat.S_ISSOCK(kind):
        raise InUse(f"{path} is there, and is no socket")
    with socket.socket(socket.AF_UNIX, socket.SOCK_STREAM) as probe:
        probe.setblocking(False)
        found = probe.connect_ex(path)
    if found == errno.EACCES:
        raise OSError(f"{path}: {os.strerror(found)}")
    if found not in (errno.ECONNREFUSED, errno.ENOENT):
        raise InUse(f"somebody listens at {path}")


def listen(path: str, mode: int) -> Tuple[socket.socket, Tuple[int, int]]:
    """Binds under a name beside the path, by way of the folder's descriptor: so it may be as long as the path."""
    folder = os.path.dirname(path) or "."
    name = f".tsd-hub.{os.getpid()}"
    beside = os.path.join(folder, name)
    with contextlib.suppress(FileNotFoundError):
        os.unlink(beside)
    listener = socket.socket(socket.AF_UNIX, socket.SOCK_STREAM)
    held = os.open(folder, os.O_RDONLY | os.O_DIRECTORY)
    before = os.umask(0o777 & ~mode)
    try:
        listener.bind(f"/proc/self/fd/{held}/{name}")
        os.chmod(beside, mode)
        listener.listen(BACKLOG)
        identity = identity_of(beside)
        os.rename(beside, path)
        return listener, identity
    except BaseException:
        listener.close()
        with contextlib.suppress(OSError):
            os.unlink(beside)
        raise
    finally:
        os.umask(before)
        os.close(held)

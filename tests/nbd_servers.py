"""nbdkit with a virtual disk, for tests, and a client of it that has requests under way."""

from __future__ import annotations

import contextlib
import os
import select
import shutil
import signal
import socket
import struct
import subprocess
import time
from pathlib import Path
from typing import Dict, Iterator, List, NamedTuple, Optional, Tuple

from parts import Context

MOST_SECONDS = 120
READ, WRITE, FLUSH = 0, 1, 3
FUA = 1
REQUEST, REPLY = struct.Struct(">IHHQQI"), struct.Struct(">IIQ")
REQUEST_MAGIC, REPLY_MAGIC = 0x25609513, 0x67446698
EXPORT_NAME, NO_ZEROES = 1, 2


class Server:
    """An nbdkit that serves a virtual disk, by the plugin that these words name."""

    plugin: List[str] = []

    def __init__(self, context: Context, *words: object, name: str = "nbd") -> None:
        self.path, self.log = context.folder / f"{name}.sock", context.folder / f"{name}.log"
        self.path.unlink(missing_ok=True)
        pid = context.folder / f"{name}.pid"
        pid.unlink(missing_ok=True)
        with open(self.log, "wb") as log:
            command = ["nbdkit", "-f", "-U", str(self.path), "--pidfile", str(pid), *self.plugin, *map(str, words)]
            self.process = subprocess.Popen(command, stdin=subprocess.DEVNULL, stdout=log, stderr=log)
        end = time.monotonic() + MOST_SECONDS
        while not pid.exists() and self.process.poll() is None and time.monotonic() < end:
            time.sleep(0.01)
        self.uri = f"nbd+unix:///?socket={self.path}"

    def words(self) -> str:
        """What it has told."""
        return self.log.read_text()

    def stop(self, number: int = signal.SIGTERM) -> None:
        """Ends it."""
        if self.process.poll() is None:
            self.process.send_signal(number)
        self.process.wait(MOST_SECONDS)


@contextlib.contextmanager
def served(context: Context, *words: object, name: str = "nbd") -> Iterator[Server]:
    """A server, to the end of the block."""
    server = Server(context, *words, name=name)
    try:
        yield server
    finally:
        server.stop()


def call(*words: object) -> Tuple[int, str]:
    """Runs a tool: its status, and all that it prints."""
    done = subprocess.run([*map(str, words)], stdin=subprocess.DEVNULL, capture_output=True, text=True,
                          timeout=MOST_SECONDS)
    return done.returncode, done.stdout + done.stderr


def made(
    context: Context, name: str, blocks: int, primaries: int = 1, sectors: int = 8
) -> Tuple[Path, List[Path]]:
    """A disk with blocks of 4,096 bytes, or of so many sectors, and a file with each primary block's capability to
    write it."""
    import tsd

    image, caps = context.folder / f"{name}.img", []
    for root, pair in enumerate(tsd.format_disk(image, blocks=blocks, sectors=sectors, primaries=primaries)):
        caps.append(context.folder / f"{name}.{root}.cap")
        caps[-1].touch(mode=0o600)
        caps[-1].write_text(pair.write.reveal().hex())
    return image, caps


def children(server: Server) -> List[int]:
    """The programs that it has started."""
    if shutil.which("ps") is None:
        return []
    told = subprocess.run(["ps", "-o", "pid=", "--ppid", str(server.process.pid)], capture_output=True, text=True)
    return [int(one) for one in told.stdout.split()]


def kill_all(server: Server, programs: List[int]) -> None:
    """Kills a server and its programs at once, as far as they are there, and waits until they have gone."""
    for process in (*programs, server.process.pid):
        with contextlib.suppress(ProcessLookupError):
            os.kill(process, signal.SIGKILL)
    server.process.wait(MOST_SECONDS)
    end = time.monotonic() + MOST_SECONDS
    while any(is_there(program) for program in programs) and time.monotonic() < end:
        time.sleep(0.01)


def is_there(process: int) -> bool:
    """Whether a process hasn't ended."""
    told = subprocess.run(["ps", "-o", "stat=", "-p", str(process)], capture_output=True, text=True).stdout.strip()
    return told != "" and not told.startswith("Z")


class Answer(NamedTuple):
    """What came to a request: its number, the error (0 for none), and what was read."""

    number: int
    error: int
    data: bytes


class Client:
    """A client at a server's socket. Requests get numbers from 0 on, and answers come in any order."""

    def __init__(self, path: Path) -> None:
        self._socket = socket.socket(socket.AF_UNIX)
        self._socket.settimeout(MOST_SECONDS)
        self._socket.connect(str(path))
        self._came = b""
        self._lengths: Dict[int, int] = {}
        self.sent = 0
        greeting = self._bytes(18, MOST_SECONDS)
        assert greeting[:16] == b"NBDMAGICIHAVEOPT", greeting
        self._socket.sendall(struct.pack(">I8sII", 1 | NO_ZEROES, b"IHAVEOPT", EXPORT_NAME, 0))
        self.size = int.from_bytes(self._bytes(10, MOST_SECONDS)[:8], "big")

    def close(self) -> None:
        """Goes away without a word."""
        self._socket.close()

    def send(self, kind: int, offset: int = 0, data: bytes = b"", length: int = 0, flags: int = 0) -> int:
        """Sends a request; its number."""
        number, self.sent = self.sent, self.sent + 1
        self._lengths[number] = length if kind == READ else 0
        head = REQUEST.pack(REQUEST_MAGIC, flags, kind, number, offset, len(data) or length)
        self._socket.sendall(head + data)
        return number

    def take(self, seconds: float = MOST_SECONDS) -> Optional[Answer]:
        """The next answer; None where none comes for so long."""
        head = self._bytes(REPLY.size, seconds)
        if not head:
            return None
        magic, error, number = REPLY.unpack(head)
        assert magic == REPLY_MAGIC, head
        return Answer(number, error, b"" if error else self._bytes(self._lengths[number], MOST_SECONDS))

    def take_all(self, seconds: float) -> List[Answer]:
        """The answers until none comes for so long."""
        return list(iter(lambda: self.take(seconds), None))

    def ask(self, kind: int, offset: int = 0, data: bytes = b"", length: int = 0, flags: int = 0) -> Answer:
        """Sends a request and takes its answer; none other may be under way."""
        number = self.send(kind, offset, data, length, flags)
        answer = self.take()
        assert answer is not None and answer.number == number, (number, answer)
        return answer

    def _bytes(self, count: int, seconds: float) -> bytes:
        """So many bytes; none where nothing comes for so long."""
        while len(self._came) < count:
            if not select.select([self._socket], [], [], seconds)[0]:
                return b""
            piece = self._socket.recv(1 << 16)
            if not piece:
                raise ConnectionError("the server has gone")
            self._came += piece
        taken, self._came = self._came[:count], self._came[count:]
        return taken

"""Network block devices: a server of nbdkit, and what it serves attached as a file by nbdfuse, or by the kernel's own
client where it has one."""

from __future__ import annotations

import os
import signal
import subprocess
from contextlib import contextmanager
from pathlib import Path
from typing import Iterator, List, Optional

from machine import Broken, call, missing, tried, wait_until

START_SECONDS = 20
KERNEL_DEVICE = Path("/dev/nbd0")
SERVER_NEEDS = ["nbdkit"]


def lack_of_fuse() -> Optional[str]:
    """What is missing for a served file that is attached by nbdfuse, in words; none where nothing is."""
    return missing([*SERVER_NEEDS, "nbdfuse"], ["/dev/fuse"], ["fuse"])


def lack_of_kernel() -> Optional[str]:
    """The same for the kernel's client."""
    tried("modprobe", "-q", "nbd")
    return missing([*SERVER_NEEDS, "nbd-client"], [str(KERNEL_DEVICE)])


class Server:
    """nbdkit with these words, at a socket. It is a process of this one, and can be killed and started again."""

    def __init__(self, socket: Path, *words: str) -> None:
        self.socket, self.words = socket, words
        self.process: Optional[subprocess.Popen] = None

    def start(self) -> None:
        """Starts it, and waits until its socket is there."""
        self.socket.unlink(missing_ok=True)
        command = ["nbdkit", "--foreground", "--unix", str(self.socket), *self.words]
        self.process = subprocess.Popen(command, stdin=subprocess.DEVNULL, stdout=subprocess.DEVNULL,
                                        stderr=subprocess.DEVNULL)
        wait_until(self.is_up, START_SECONDS, f"{' '.join(command)}")

    def is_up(self) -> bool:
        """Whether it takes connections."""
        if self.process.poll() is not None:
            raise Broken(f"nbdkit {' '.join(self.words)} ended with {self.process.returncode}")
        return self.socket.exists()

    def kill(self) -> None:
        """Ends it at once."""
        if self.process is not None:
            self.process.kill()
            self.process.wait()


@contextmanager
def served(socket: Path, *words: str) -> Iterator[Server]:
    """A server that runs until the end, or until it is killed."""
    server = Server(socket, *words)
    server.start()
    try:
        yield server
    finally:
        server.kill()


class Fuse:
    """What a socket serves, as a file of a mount by nbdfuse."""

    def __init__(self, folder: Path, socket: Path) -> None:
        self.folder, self.socket = folder, socket
        self.path = folder / "nbd"
        self.folder.mkdir(exist_ok=True)
        self.process: Optional[subprocess.Popen] = None

    def attach(self) -> None:
        """Mounts it."""
        command = ["nbdfuse", str(self.folder), f"nbd+unix:///?socket={self.socket}"]
        self.process = subprocess.Popen(command, stdin=subprocess.DEVNULL, stdout=subprocess.DEVNULL,
                                        stderr=subprocess.DEVNULL)
        wait_until(self.path.exists, START_SECONDS, " ".join(command))

    def detach(self) -> None:
        """Takes the mount down, also one whose server is gone."""
        tried("umount", "--lazy", self.folder)
        self.process.send_signal(signal.SIGTERM)
        self.process.wait()


class Kernel:
    """What a socket serves, as a device of the kernel."""

    def __init__(self, socket: Path) -> None:
        self.socket, self.path = socket, KERNEL_DEVICE

    def attach(self) -> None:
        """Connects the device."""
        call("nbd-client", "-unix", self.socket, self.path, "-block-size", "512")

    def detach(self) -> None:
        """Disconnects it."""
        tried("nbd-client", "-d", self.path)


@contextmanager
def attached(client) -> Iterator[Path]:
    """What a client attaches, until the end."""
    client.attach()
    try:
        yield client.path
    finally:
        client.detach()


def file_words(file: Path, *filters: str) -> List[str]:
    """The words of a server of a file, behind these filters."""
    return [*(f"--filter={name}" for name in filters), "file", os.fspath(file)]

"""What the tests share: where things are, disks, hubs, and programs that misbehave. `./test` runs them as its part
`clients`; alone: `python3 -m unittest discover -s python/tests`. TSD_PROGRAM names the program that is tried."""

from __future__ import annotations

import contextlib
import functools
import os
import re
import shutil
import socket
import subprocess
import sys
import tempfile
import threading
import time
import unittest
from pathlib import Path
from typing import Callable, Dict, Iterator, List, Optional, Sequence, Tuple, Type

PYTHON = Path(__file__).resolve().parent.parent
TOP = PYTHON.parent
for folder in (PYTHON, TOP / "tests"):
    if str(folder) not in sys.path:
        sys.path.insert(0, str(folder))
os.environ.setdefault("TSD_PROGRAM", str(TOP / "dist/x86_64-linux/tsd"))

import tsd  # noqa: E402

PROGRAM = os.environ["TSD_PROGRAM"]
HUB = PYTHON / "bin" / "tsd-hub"
COMPILED_HUB = TOP / "hub" / "target" / "release" / "tsd-hub"
SHELL = PYTHON / "bin" / "tsd-shell"
MOST_SECONDS = float(os.environ.get("TSD_MOST_SECONDS", "60"))
MOST_SECONDS_TO_BUILD = 600
SEED = bytes(range(32))
OPEN_LINE = re.compile(r"open in process (\d+)")


def until(is_so: Callable[[], object], what: str) -> None:
    """Waits until something is so; an error after a minute."""
    end = time.monotonic() + MOST_SECONDS
    while not is_so():
        if time.monotonic() > end:
            raise AssertionError(f"it took too long: {what}")
        time.sleep(0.005)


def fake(code: str, is_asked: bool = True) -> List[str]:
    """A program of Python that is started in place of tsd; `out` puts bytes. It is first asked for a greeting, and has
    none, as a program alone."""
    head = ("import sys, os, time\n"
            "def out(text): sys.stdout.buffer.write(text); sys.stdout.buffer.flush()\n"
            "def take(): return os.read(0, 65536)\n")
    greeting = "assert os.read(0, 4) == b'\\2\\0\\xff\\4'; out(b'\\2\\0\\x08\\0')\n"
    return [sys.executable, "-c", head + greeting * is_asked + code]


class InFolder(unittest.TestCase):
    """A test with a folder of its own, in memory where that can be."""

    def setUp(self) -> None:
        place = "/dev/shm" if os.access("/dev/shm", os.W_OK) else None
        holder = tempfile.TemporaryDirectory(prefix="tsd-python-", dir=place)
        self.addCleanup(holder.cleanup)
        self.folder = Path(holder.name)
        self.image = self.folder / "disk.img"

    def make(self, blocks: int = 64, **more: int) -> List[tsd.Pair]:
        """Makes the disk; its capabilities."""
        return tsd.format_disk(self.image, blocks=blocks, seed=SEED, **more)


@functools.lru_cache(maxsize=None)
def compiled_hub() -> Tuple[List[str], str]:
    """The words that start the compiled hub, which is built where there is cargo; or none, and why."""
    if shutil.which("cargo") is None:
        return [], "there is no cargo"
    words = ["cargo", "build", "--release", "--offline", "--quiet"]
    done = subprocess.run(words, cwd=TOP / "hub", capture_output=True, text=True, timeout=MOST_SECONDS_TO_BUILD)
    return ([str(COMPILED_HUB)], "") if done.returncode == 0 else ([], f"cargo can't build it: {done.stderr}")


class WithHub(InFolder):
    """A test of the hub, Python's; a class beside it tries the compiled one."""

    IS_COMPILED = False

    def setUp(self) -> None:
        super().setUp()
        self.hub_words = [sys.executable, str(HUB)]
        if self.IS_COMPILED:
            self.hub_words, why_not = compiled_hub()
            if not self.hub_words:
                self.skipTest(why_not)

    @contextlib.contextmanager
    def running_hub(self, more: Sequence[str] = (), name: str = "disk.sock") -> Iterator[RunningHub]:
        """A hub over the image, with its socket beside it."""
        path = self.folder / name
        hub = RunningHub(self.image, path, more, command=self.hub_words + self.hub_image(path))
        try:
            yield hub
        finally:
            hub.stop()

    def hub_image(self, path: Path) -> List[str]:
        """The words for a hub over the image at a socket."""
        return [str(self.image), "near", "--socket", str(path)]


def compiled(*cases: Type[WithHub]) -> Dict[str, Type[WithHub]]:
    """The same tests of the compiled hub, by their classes' names."""
    return {f"Compiled{case.__name__}": type(f"Compiled{case.__name__}", (case,), {
        "IS_COMPILED": True, "__module__": case.__module__, "__doc__": case.__doc__}) for case in cases}


class RunningHub:
    """A hub that runs, and what it logs."""

    def __init__(self, image: Path, path: Path, more: Sequence[str] = (), environment: Optional[Dict[str, str]] = None,
                 command: Optional[Sequence[str]] = None) -> None:
        self.path = path
        words = list(command or [sys.executable, str(HUB), str(image), "near", "--socket", str(path)]) + list(more)
        self.process = subprocess.Popen(words, stderr=subprocess.PIPE, env=environment)
        self._lines: List[str] = []
        self._logger = threading.Thread(target=self._read_log, daemon=True)
        self._logger.start()
        until(lambda: OPEN_LINE.search(self.log) or self.process.poll() is not None, f"the hub opens\n{self.log}")

    def _read_log(self) -> None:
        assert self.process.stderr is not None
        for line in self.process.stderr:
            self._lines.append(line.decode())

    @property
    def log(self) -> str:
        """What it has logged so far."""
        return "".join(self._lines)

    @property
    def disk_process(self) -> int:
        """The process of its disk."""
        found = OPEN_LINE.search(self.log)
        assert found, self.log
        return int(found[1])

    def ended(self) -> int:
        """Its status, once it has ended and its log is whole."""
        status = self.process.wait(MOST_SECONDS)
        self._logger.join(MOST_SECONDS)
        return status

    def stop(self) -> None:
        """Ends it."""
        if self.process.poll() is None:
            self.process.terminate()
        self.ended()
        assert self.process.stderr is not None
        self.process.stderr.close()


@contextlib.contextmanager
def running_hub(image: Path, more: Sequence[str] = (), **rest: object) -> Iterator[RunningHub]:
    """A hub over an image, with its socket beside it."""
    hub = RunningHub(image, image.with_suffix(".sock"), more, **rest)  # type: ignore[arg-type]
    try:
        yield hub
    finally:
        hub.stop()


class RawClient:
    """A client of a hub that sends bytes as they are."""

    def __init__(self, path: Path) -> None:
        self.socket = socket.socket(socket.AF_UNIX, socket.SOCK_STREAM)
        self.socket.settimeout(MOST_SECONDS)
        self.socket.connect(str(path))
        self._left = b""

    def send(self, text: bytes) -> None:
        """Sends bytes."""
        self.socket.sendall(text)

    def body(self) -> Optional[bytes]:
        """The body of the next frame; None at the end."""
        head = self._take(2)
        return None if head is None else self._take(int.from_bytes(head, "little"))

    def ask(self, body: bytes) -> Optional[bytes]:
        """Sends a body as a frame, and takes the next one."""
        self.send(len(body).to_bytes(2, "little") + body)
        return self.body()

    def close(self) -> None:
        """Ends the connection."""
        self.socket.close()

    def _take(self, count: int) -> Optional[bytes]:
        while len(self._left) < count:
            piece = self.socket.recv(65536)
            if not piece:
                return None
            self._left += piece
        taken, self._left = self._left[:count], self._left[count:]
        return taken


def run_alone(image: Path, text: bytes) -> Tuple[int, bytes]:
    """The status and the replies of the program alone over this text of frames."""
    done = subprocess.run([PROGRAM, str(image), "serve", "near"], input=text, capture_output=True, timeout=MOST_SECONDS)
    return done.returncode, done.stdout


def told_of(image: Path) -> List[bytes]:
    """What the program tells of an image: how full it is, and what hangs on its primary blocks. Two disks of one world
    may differ in their journal and in which slots they have, by how requests were committed together."""
    return [subprocess.run([PROGRAM, str(image), command], capture_output=True, timeout=MOST_SECONDS, check=True).stdout
            for command in ("check", "audit")]

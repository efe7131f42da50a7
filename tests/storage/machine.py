"""What the tests need of the machine: commands, what is missing of them, waiting, and loop devices."""

from __future__ import annotations

import os
import random
import shutil
import subprocess
import threading
import time
from contextlib import contextmanager
from pathlib import Path
from typing import Callable, Iterator, List, NamedTuple, Optional, Sequence

CALL_SECONDS = 120
# A daemon of a busy machine may take long until it stands.
LAUNCH_SECONDS = 300
TURN_SECONDS = 0.1


class Broken(Exception):
    """What a test stands on couldn't be set up, or a call of the machine failed; the text says which."""


class Place(NamedTuple):
    """What a test may use: the program, an empty folder of its own, and the seed of its random numbers."""

    program: Path
    folder: Path
    seed: int

    def numbers(self, name: str) -> random.Random:
        """Random numbers that the seed and the name alone decide."""
        return random.Random(f"{self.seed}/{name}")

    def inner(self, name: str) -> Path:
        """A folder in the folder."""
        path = self.folder / name
        path.mkdir()
        return path


def call(*words: object, seconds: float = CALL_SECONDS) -> str:
    """Runs a command, and gives what it printed; `Broken` where it fails."""
    command = [str(word) for word in words]
    try:
        done = subprocess.run(command, stdin=subprocess.DEVNULL, capture_output=True, text=True, timeout=seconds)
    except (OSError, subprocess.TimeoutExpired) as error:
        raise Broken(f"{' '.join(command)}: {error}") from error
    if done.returncode != 0:
        raise Broken(f"{' '.join(command)}: status {done.returncode}: {(done.stdout + done.stderr).strip()}")
    return done.stdout


def launch(*words: object) -> None:
    """Runs a command that leaves a process behind, which would keep a pipe of its output open."""
    command = [str(word) for word in words]
    nothing = subprocess.DEVNULL
    try:
        done = subprocess.run(command, stdin=nothing, stdout=nothing, stderr=nothing, timeout=LAUNCH_SECONDS)
    except (OSError, subprocess.TimeoutExpired) as error:
        raise Broken(f"{' '.join(command)}: {error}") from error
    if done.returncode != 0:
        raise Broken(f"{' '.join(command)}: status {done.returncode}")


def tried(*words: object) -> bool:
    """Runs a command, and tells whether it succeeded."""
    try:
        call(*words)
    except Broken:
        return False
    return True


def wait_until(holds: Callable[[], bool], seconds: float, what: str) -> float:
    """Waits until something holds, and tells how many seconds that took; `Broken` where it doesn't come."""
    began = time.monotonic()
    while not holds():
        if time.monotonic() - began > seconds:
            raise Broken(f"{what}: not within {seconds:.0f} s")
        time.sleep(TURN_SECONDS)
    return time.monotonic() - began


@contextmanager
def beside(action: Callable[[], object]) -> Iterator[None]:
    """Does this beside what stands within, and ends when both have; what it raises is raised then."""
    errors: List[Exception] = []

    def work() -> None:
        try:
            action()
        except Exception as error:
            errors.append(error)

    thread = threading.Thread(target=work)
    thread.start()
    try:
        yield
    finally:
        thread.join()
    for error in errors:
        raise error


def missing(commands: Sequence[str] = (), paths: Sequence[str] = (), systems: Sequence[str] = ()) -> Optional[str]:
    """Which of these commands, paths and file systems isn't there, in words; none where all are."""
    for name in systems:
        tried("modprobe", "-q", name)
    texts = [f"no command {name}" for name in commands if shutil.which(name) is None]
    texts += [f"no {path}" for path in paths if not os.path.exists(path)]
    known = Path("/proc/filesystems").read_text().split()
    texts += [f"the kernel has no {name}" for name in systems if name not in known]
    return ", ".join(texts) or None


@contextmanager
def loop(file: Path) -> Iterator[Path]:
    """A loop device over a file. It is detached while it is held open, which has the kernel take it away with its last
    user, also where the test is killed."""
    device = call("losetup", "--find", "--show", file).strip()
    held = os.open(device, os.O_RDONLY)
    try:
        call("losetup", "--detach", device)
        yield Path(device)
    finally:
        os.close(held)


def sized(path: Path, size: int) -> Path:
    """A file of so many bytes, all of them a hole."""
    with path.open("wb") as file:
        file.truncate(size)
    return path

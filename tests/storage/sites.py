"""A disk in an image that runs of the program serve, beside the model of tests/: each request is sent when the one
before was answered, each answer is the model's, and afterwards the image stands where the answered requests lead, or
where one more leads that was sent and not answered.
"""

from __future__ import annotations

import os
import random
import select
import subprocess
import time
from pathlib import Path
from typing import List, Optional, Sequence

from crash_requests import Drawer, Drawn, random_caps, text_of
from disk_model import PLACES, Disk
from image_reader import read_image
from judging import Course, Different, Standing, course_of_requests, difference, matching

BLOCKS, SECTORS = 40, 2
REQUESTS = 300
ANSWER_SECONDS = 20
END_SECONDS = 120
LOOK_SECONDS = 0.001
TURN_SECONDS = 0.05
DEVICE_FAULT = 4
IN_USE = b"in use by another process"
PIECE = 65536


def alone(command: Sequence[str]) -> subprocess.CompletedProcess:
    """Runs a command over no input."""
    return subprocess.run(command, stdin=subprocess.DEVNULL, capture_output=True, timeout=END_SECONDS)


class Running:
    """A run of the program, and the course that the model has of it."""

    def __init__(self, command: Sequence[str], lines: List[bytes], course: Course) -> None:
        self.lines = lines
        self.course = course
        self.answered = 0
        self.is_asked = False
        self.is_over = False
        self.status: Optional[int] = None
        self.error = b""
        self.taken = b""
        self.process = subprocess.Popen(command, stdin=subprocess.PIPE, stdout=subprocess.PIPE,
                                        stderr=subprocess.PIPE, bufsize=0)

    def ask(self, amount: int = REQUESTS * 2, seconds: float = ANSWER_SECONDS) -> int:
        """Asks so many requests, or all that are left; how many were answered until one wasn't within the time."""
        before = self.answered
        while self.answered < min(before + amount, len(self.lines)):
            line = self.answer_of_next(seconds)
            if line is None:
                break
            wanted = self.course.answers[self.answered]
            if line != wanted:
                raise Different(f"request {self.answered} was answered by {line!r}, not {wanted!r}")
            self.answered += 1
            self.is_asked = False
        return self.answered - before

    def answer_of_next(self, seconds: float) -> Optional[bytes]:
        """The answer to the next request, which is sent if it wasn't before."""
        if not self.is_asked:
            self.is_asked = True
            try:
                self.process.stdin.write(self.lines[self.answered])
            except BrokenPipeError:
                self.is_over = True
                return None
        return self.line(seconds)

    def line(self, seconds: float) -> Optional[bytes]:
        """The next line of the output; none at its end, or where the time is over."""
        end = time.monotonic() + seconds
        output = self.process.stdout.fileno()
        while b"\n" not in self.taken:
            if not select.select([output], [], [], max(0.0, end - time.monotonic()))[0]:
                return None
            piece = os.read(output, PIECE)
            if not piece:
                self.is_over = True
                return None
            self.taken += piece
        line, _, self.taken = self.taken.partition(b"\n")
        return line + b"\n"

    def wait_for(self, answers: int, seconds: float = END_SECONDS) -> None:
        """Waits until so many requests were answered that another thread asks, or the program has ended."""
        end = time.monotonic() + seconds
        while self.answered < answers and not self.has_ended() and time.monotonic() < end:
            time.sleep(LOOK_SECONDS)

    def refused(self) -> bytes:
        """What it told where it ended before an answer."""
        if not self.is_over or self.answered:
            return b""
        self.end()
        return self.error

    def has_ended(self) -> bool:
        """Whether the program has ended by itself."""
        return self.process.poll() is not None

    def end(self, seconds: float = END_SECONDS) -> int:
        """Ends the input; the status of the program."""
        if self.status is not None:
            return self.status
        self.process.stdin.close()
        try:
            self.status = self.process.wait(seconds)
        except subprocess.TimeoutExpired:
            self.process.kill()
            self.status = self.process.wait()
        self.error = self.process.stderr.read()
        self.process.stdout.close()
        self.process.stderr.close()
        return self.status

    def told(self) -> str:
        """How it ended, in words."""
        return f"status {self.status} after {self.answered} answers: {self.error.decode(errors='replace').strip()}"

    def allowed(self) -> List[Standing]:
        """Where the image may stand."""
        return self.course.prefixes[self.answered:self.answered + (2 if self.is_asked else 1)]


class Site:
    """A disk in an image, and where it stands by the model. `before` are words before the program's own; `pause` is how
    many seconds a storage may take to give a lock free when its holder has ended."""

    def __init__(
        self, program: Path, image: Path, numbers: random.Random, before: Sequence[str] = (), pause: float = 0.0,
    ) -> None:
        self.program, self.image, self.numbers, self.before = program, image, numbers, tuple(before)
        self.pause = pause
        self.waited = 0.0
        caps = random_caps(numbers)
        words = ("fresh", str(BLOCKS), str(SECTORS), caps[0].hex(), caps[1].hex(), "low")
        made = self.alone(*words)
        if made.returncode != 0:
            raise Different(f"`fresh` ended with {made.returncode}: {made.stderr!r}")
        self.standing = Standing(Disk.fresh(BLOCKS, SECTORS, *caps).world(), (caps,))

    def command(self, *words: str) -> List[str]:
        """The command of a run."""
        return [*self.before, str(self.program), str(self.image), *words]

    def alone(self, *words: str) -> subprocess.CompletedProcess:
        """A run over no input."""
        began = time.monotonic()
        while True:
            ended = alone(self.command(*words))
            if not self.waits(began, ended.stderr):
                return ended

    def waits(self, began: float, error: bytes) -> bool:
        """Waits a moment if an opening was refused that may succeed later, and keeps how long that has lasted."""
        passed = time.monotonic() - began
        if IN_USE not in error or passed > self.pause:
            return False
        self.waited = max(self.waited, passed)
        time.sleep(TURN_SECONDS)
        return True

    def begin(self, amount: int = REQUESTS) -> Running:
        """A run over requests that are drawn beside the model, as they are asked."""
        disk = Disk(self.standing.outcome, self.numbers.choice(PLACES))
        return self.begin_with(Drawer(self.numbers, disk, self.standing.caps).draw(amount), disk.place)

    def begin_with(self, requests: Sequence[Drawn], place: str = "low") -> Running:
        """A run over these requests."""
        disk = Disk(self.standing.outcome, place)
        lines = [text_of([one], frames=False) for one in requests]
        course = course_of_requests([self.standing], disk, self.standing.caps, requests, frames=False)
        began = time.monotonic()
        while True:
            running = Running(self.command("run", disk.place), lines, course)
            if not self.pause or running.ask(1) or not self.waits(began, running.refused()):
                return running

    def look(self, running: Running, content: Optional[bytes] = None) -> None:
        """Where the image stands after a run, which the run allows."""
        outcome = read_image(self.image.read_bytes() if content is None else content)
        standing = matching(outcome, running.allowed())
        if standing is None:
            raise Different(f"{running.told()}\n{difference(outcome, running.allowed())}")
        self.standing = standing

    def go_on(self, amount: int = REQUESTS) -> None:
        """`check` finds the disk as it stands, and a further run is answered to its end."""
        checked = self.alone("check")
        wanted = Disk(self.standing.outcome).check_line()
        if (checked.returncode, checked.stdout) != (0, wanted):
            raise Different(f"check: {checked.returncode}, {checked.stdout!r}, {checked.stderr!r}, not {wanted!r}")
        self.run_through(amount)

    def run_through(self, amount: int = REQUESTS) -> None:
        """A run that is answered to its end."""
        running = self.begin(amount)
        running.ask()
        self.finish(running)

    def finish(self, running: Running) -> None:
        """Ends a run of which all that was asked was answered."""
        if running.end() != 0 or running.is_asked:
            raise Different(f"the run didn't go on: {running.told()}")
        self.look(running)

    def refuse_second(self, image: Optional[Path] = None) -> Optional[str]:
        """Whether a second opening, of this path or of another one to the same image, is refused while a run holds it;
        none where it is, else how the second one ended."""
        running = self.begin(2)
        running.ask(1)
        second = alone([str(self.program), str(image or self.image), "check"])
        running.ask()
        self.finish(running)
        is_refused = second.returncode == DEVICE_FAULT and IN_USE in second.stderr
        return None if is_refused else f"status {second.returncode}, {second.stdout!r}, {second.stderr!r}"

"""`kill -9` in mid-run, a hundred times: by the clock, after a number of replies, or before a chosen call of the image.

After each kill the file stands where a prefix of the requests leads that holds every one whose reply came out, and at
most one more; an opening finds that, also where openings are killed before it; and the next run goes on from there.
"""

from __future__ import annotations

import signal
import subprocess
import time
from typing import Iterator, NamedTuple, Optional, Tuple

from crash_images import Progress
from crash_requests import Drawer, random_caps, text_of
from disk_model import PLACES, Disk
from image_reader import Fault, read_image
from judging import Course, Different, Standing, course_of_requests, difference, matching
from parts import Context, Result, failed, passed, skipped
from recording import NoRecorder, Recorder

NAME = "kills"
DISKS, KILLS_OF_A_DISK = 10, 10
REQUESTS_OF_A_RUN = 120
MOST_SECONDS = 120
KILLED = -signal.SIGKILL


class Ended(NamedTuple):
    """How a run ended that was to be killed, and what it sent until then."""

    status: int
    out: bytes


class Site:
    """A disk in a file that runs are killed over."""

    def __init__(self, context: Context, recorder: Optional[Recorder], number: int) -> None:
        self.program = context.program
        self.recorder = recorder
        self.numbers = context.random(f"kills/{number}")
        self.path = context.folder / f"killed-{number}.img"
        self.text = context.folder / "requests"
        self.standing = self.make()
        self.seconds = self.time_of_a_run()

    # --- runs ---

    def run(self, words: Tuple[object, ...], text: bytes = b"") -> Ended:
        """A run to its end."""
        command = [str(word) for word in (self.program, self.path, *words)]
        done = subprocess.run(command, input=text, capture_output=True, timeout=MOST_SECONDS)
        return Ended(done.returncode, done.stdout)

    def killed(self, words: Tuple[object, ...], text: bytes) -> Ended:
        """A run that is killed in one of three ways."""
        way = self.numbers.randrange(3)
        if way == 0 and self.recorder is not None:
            recording = self.recorder.run(self.path, words, text, (f"image:{self.numbers.randrange(1, 400)}:KILL",))
            return Ended(recording.status, recording.out)
        self.text.write_bytes(text)
        command = [str(word) for word in (self.program, self.path, *words)]
        with open(self.text, "rb") as requests:
            process = subprocess.Popen(command, stdin=requests, stdout=subprocess.PIPE, stderr=subprocess.DEVNULL)
        lines = []
        if way == 1:
            time.sleep(self.numbers.uniform(0.0, self.seconds))
        else:
            lines = [process.stdout.readline() for _ in range(self.numbers.randrange(1, REQUESTS_OF_A_RUN))]
        process.kill()
        with process.stdout:
            out = b"".join(lines) + process.stdout.read()
        return Ended(process.wait(MOST_SECONDS), out)

    # --- steps ---

    def make(self) -> Standing:
        """Makes the disk by `fresh`, and looks at what is there where that is killed on the way."""
        caps = random_caps(self.numbers)
        blocks, sectors = self.numbers.choice((8, 16, 40)), self.numbers.choice((1, 2))
        words = ("fresh", blocks, sectors, caps[0].hex(), caps[1].hex(), "low")
        world = Disk.fresh(blocks, sectors, *caps).world()
        for call in self.numbers.sample(range(1, 40), 2 if self.recorder else 0):
            assert self.recorder is not None
            self.recorder.run(self.path, words, b"", (f"image:{call}:KILL",))
            found = read_image(self.path.read_bytes() if self.path.exists() else b"")
            if found not in (Fault("not-formatted"), world):
                raise Different(f"`fresh` killed before call {call} of the image left {found}")
        if self.run(words).status != 0:
            raise Different("`fresh` failed after it was killed")
        return Standing(world, (caps,))

    def time_of_a_run(self) -> float:
        """How many seconds a run takes that isn't killed."""
        began = time.monotonic()
        words, text, course = self.drawn()
        if self.run(words, text) != Ended(0, course.out()):
            raise Different("a run that wasn't killed isn't right")
        self.standing = course.prefixes[-1]
        return time.monotonic() - began

    def drawn(self) -> Tuple[Tuple[object, ...], bytes, Course]:
        """The words and the input of a run, and its course."""
        disk = Disk(self.standing.outcome, self.numbers.choice(PLACES))
        requests = Drawer(self.numbers, disk, self.standing.caps).draw(REQUESTS_OF_A_RUN)
        course = course_of_requests([self.standing], disk, self.standing.caps, requests, frames=False)
        return ("run", disk.place), text_of(requests, frames=False), course

    def kill_one(self) -> bool:
        """One run that is killed, and the opening after it; whether it was killed before its last reply."""
        words, text, course = self.drawn()
        ended = self.killed(words, text)
        wanted = course.out()
        if ended.status not in (KILLED, 0) or not wanted.startswith(ended.out):
            raise Different(f"status {ended.status}; {ended.out!r} was sent, of {wanted!r}")
        self.standing = self.found(course, ended)
        self.open_again()
        return ended.status == KILLED and len(ended.out) < len(wanted)

    def found(self, course: Course, ended: Ended) -> Standing:
        """Where the file stands, which one of at most two prefixes allows."""
        progress = Progress()
        progress.sent, progress.syncs, progress.took_input = len(ended.out), 1, True
        allowed = course.allowed(progress) if ended.status == KILLED else course.prefixes[-1:]
        outcome = read_image(self.path.read_bytes())
        standing = matching(outcome, allowed)
        if standing is None:
            replies = course.whole_answers(len(ended.out))
            raise Different(f"after {replies} replies: {difference(outcome, allowed)}")
        return standing

    def open_again(self) -> None:
        """Openings that are killed too, and then one that isn't: `check` finds the same world."""
        disk = Disk(self.standing.outcome)
        if self.recorder is not None and self.numbers.random() < 0.3:
            self.recorder.run(self.path, ("check",), b"", (f"image:{self.numbers.randrange(1, 60)}:KILL",))
        if self.numbers.random() < 0.5:
            ended = self.run(("check",))
            if ended != Ended(0, disk.check_line()):
                raise Different(f"check gave {ended}, not {disk.check_line()!r}")
        outcome = read_image(self.path.read_bytes())
        if outcome != self.standing.outcome:
            raise Different(f"opened again: {difference(outcome, [self.standing])}")


def one_disk(context: Context, recorder: Optional[Recorder], number: int) -> Result:
    """All kills of one disk."""
    within = kills = 0
    try:
        site = Site(context, recorder, number)
        for kills in range(1, KILLS_OF_A_DISK + 1):
            within += site.kill_one()
    except Different as different:
        return failed(f"disk {number} of seed {context.seed}, kill {kills}", str(different))
    return passed(f"disk {number}: {kills} kills, {within} of them before the last reply")


def run(context: Context) -> Iterator[Result]:
    """A hundred kills over ten disks."""
    recorder = None
    try:
        if context.compiler is not None:
            recorder = Recorder(context.program, context.compiler, context.folder)
            recorder.refuse_blindness(context.folder / "blind.img")
    except NoRecorder:
        recorder = None
    if recorder is None:
        yield skipped("kills before a chosen call", "the recorder can't be made or loaded; the other kills are tried")
    for number in range(DISKS):
        yield one_disk(context, recorder, number)

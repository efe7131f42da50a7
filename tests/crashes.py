"""Crashes of the real program: recorded runs over a file, and from them images as a crash at any moment may leave them.

A history makes a small disk and goes on with runs of all commands over it, one after another. Of each run images are
made at moments of all kinds and judged by the rules of the format against the model. Now and then the history goes on
from one of these images, so that the opening after a crash is recorded too and crashes are made inside it; or the run
is killed, so that sectors are loose when the next one opens. Some images are opened by the program itself.

A history that fails says how it is repeated: `python3 tests/crashes.py --program P --seed S --history H`.
"""

from __future__ import annotations

import argparse
import random
import shutil
import sys
import tempfile
import time
from pathlib import Path
from typing import Iterator, List, NamedTuple, Optional, Tuple

from crash_images import SECTOR, Choices, Medium, Progress, Unrecorded, moments, some_choices
from crash_requests import Drawer, random_bytes, random_caps, random_geometry, text_of
from disk_model import PLACES, Disk, Geometry
from image_reader import FORMAT_GATE, Fault, has_closed_gates, is_settled, read_image
from judging import (
    NOT_FORMATTED, Course, Different, Standing, caps_of_seed, course_of_check, course_of_format, course_of_load,
    course_of_requests, course_of_upgrade, difference, judge_image, matching,
)
from parts import Context, Result, failed, passed, skipped
from program import without_length
from recording import NoRecorder, Recorder, Recording

NAME = "crashes"
IMAGES_OF_A_HISTORY = 300
IMAGES_OF_A_RUN = 70
MOST_REQUESTS = 30
MOST_SHOWN = 160
KILLED = -9
SHARE_KILLED, SHARE_GOING_ON, SHARE_OPENED = 0.2, 0.6, 0.03


class Step(NamedTuple):
    """One run: the command's words, its input, and its course as the model has it."""

    words: Tuple[object, ...]
    text: bytes
    course: Course

    def told(self) -> str:
        """The run in words; long lines are cut, since the seed gives them whole."""
        requests = [self.text.hex()] if self.words[0] == "serve" else self.text.decode(errors="replace").splitlines()
        lines = [" ".join(map(str, self.words)), *requests]
        return "\n".join(line if len(line) <= MOST_SHOWN else f"{line[:MOST_SHOWN]}..." for line in lines)


class History:
    """A disk in a file, and where it stands: its medium, and what a crash before the next sync may leave of it."""

    def __init__(self, recorder: Recorder, folder: Path, seed: int, number: int) -> None:
        self.recorder = recorder
        self.numbers = random.Random(f"{seed}/crashes/{number}")
        self.path = folder / "crash.img"
        self.scratch = folder / "opened.img"
        self.medium = Medium(b"")
        self.before: List[Standing] = [Standing(NOT_FORMATTED)]
        self.known_caps: List[bytes] = []
        self.images = 0
        self.opened = 0
        self.steps: List[Step] = []
        self.chosen: Optional[Tuple[bytes, Standing]] = None

    # --- the steps of a history ---

    def play(self) -> None:
        """Goes through the history; raises Different."""
        self.path.unlink(missing_ok=True)
        if self.numbers.random() < 0.3:
            self.lay_rubbish()
        while self.images < IMAGES_OF_A_HISTORY:
            self.take(self.next_step())

    def lay_rubbish(self) -> None:
        """A file that held something else before; sometimes with open gates."""
        size = SECTOR * self.numbers.randrange(1, 300)
        data = bytearray(random_bytes(self.numbers, size))
        if self.numbers.random() < 0.5:
            data[SECTOR::SECTOR] = b"\1" * len(data[SECTOR::SECTOR])
        self.start_from(bytes(data), Standing(read_image(bytes(data))))

    def start_from(self, data: bytes, standing: Standing) -> None:
        """The file has this from now on, all of it firm."""
        self.path.write_bytes(data)
        self.path.chmod(0o600)
        self.medium = Medium(data)
        self.before = [standing]

    def now(self) -> Standing:
        """Where the file stands as it reads."""
        standing = matching(read_image(self.file()), self.before)
        assert standing is not None
        return standing

    def file(self) -> bytes:
        """The bytes of the file; none where it isn't there."""
        return self.path.read_bytes() if self.path.exists() else b""

    def next_step(self) -> Step:
        """A run that fits where the disk stands."""
        now = self.now()
        kind = self.numbers.random()
        if isinstance(now.outcome, Fault) or not now.caps or kind < 0.04:
            return self.making()
        disk = Disk(now.outcome, self.numbers.choice(PLACES))
        if kind < 0.12:
            return Step(("check",), b"", course_of_check(self.before, disk, now.caps))
        if kind < 0.22:
            return Step(("upgrade",), b"", course_of_upgrade(self.before, disk, now.caps))
        if kind < 0.32:
            seed, count = random_bytes(self.numbers, 32), self.numbers.randrange(1, 60)
            course = course_of_load(self.before, disk, now.caps, seed, count)
            return Step(("load", seed.hex(), count, disk.place), b"", course)
        frames = self.numbers.random() < 0.3
        requests = Drawer(self.numbers, disk, now.caps).draw(self.numbers.randrange(1, MOST_REQUESTS))
        course = course_of_requests(self.before, disk, now.caps, requests, frames)
        return Step(("serve" if frames else "run", disk.place), text_of(requests, frames), course)

    def making(self) -> Step:
        """A run of `fresh` or `format`."""
        self.known_caps.clear()
        geometry = random_geometry(self.numbers)
        place = self.numbers.choice(PLACES)
        if self.numbers.random() < 0.5:
            return self.formatting(geometry)
        caps = random_caps(self.numbers)
        disk = Disk.fresh(geometry.n, geometry.k, *caps, place=place)
        requests = Drawer(self.numbers, disk, (caps,)).draw(self.numbers.randrange(1, MOST_REQUESTS))
        course = course_of_requests(self.before, disk, (caps,), requests, frames=False, formats=True)
        words = ("fresh", geometry.n, geometry.k, caps[0].hex(), caps[1].hex(), place)
        return Step(words, text_of(requests, frames=False), course)

    def formatting(self, geometry: Geometry) -> Step:
        """A run of `format`."""
        seed = random_bytes(self.numbers, 32)
        disk = Disk.formatted(geometry.n, geometry.k, geometry.m, geometry.p, seed)
        course = course_of_format(self.before, disk, caps_of_seed(seed, geometry.p))
        return Step(("format", geometry.n, geometry.k, geometry.m, geometry.p, seed.hex()), b"", course)

    # --- one step ---

    def take(self, step: Step) -> None:
        """Records a run, judges it and crashes of it, and goes on from the file or from one of the images."""
        self.steps.append(step)
        self.chosen = None
        self.known_caps += [cap for standing in step.course.prefixes for pair in standing.caps for cap in pair]
        step.course.old_gate = self.medium.read(FORMAT_GATE)
        kills = self.numbers.random() < SHARE_KILLED
        faults = [f"image:{self.numbers.randrange(1, 200)}:KILL"] if kills else []
        recording = self.recorder.run(self.path, step.words, step.text, faults)
        self.judge_ending(step, recording, kills)
        progress = self.try_crashes(step, recording)
        self.judge_file(step, recording, progress)
        self.before = step.course.allowed(progress)
        if recording.status == 0:
            self.before = step.course.prefixes[-1:]
        if self.chosen is not None and self.numbers.random() < SHARE_GOING_ON:
            self.start_from(*self.chosen)

    def judge_ending(self, step: Step, recording: Recording, kills: bool) -> None:
        """Status, replies and standard error are right."""
        wanted = step.course.out()
        if kills and recording.status == KILLED:
            right = wanted.startswith(recording.out) and not recording.error
        else:
            right = (recording.status, recording.out, recording.error) == (0, wanted, b"")
        if not right:
            raise Different(f"the run ended with {recording.status} and {recording.error!r}; it sent\n"
                            f"{recording.out!r}\nwhere this is right\n{wanted!r}")

    def judge_file(self, step: Step, recording: Recording, progress: Progress) -> None:
        """The file is what the calls make of it, and stands where the run came to."""
        data = self.file()
        self.medium.compare(data)
        found = read_image(data)
        done = recording.status == 0
        allowed = step.course.prefixes[-1:] if done else step.course.allowed(progress)
        if matching(found, allowed) is None:
            raise Different(f"the file after the run: {difference(found, allowed)}")
        if done and (self.medium.loose or not is_settled(data)):
            raise Different("the run ended, and something is loose or doomed on the disk")
        if done and step.words[0] != "check" and not has_closed_gates(data):
            raise Different("the run ended, and a gate of the journal is open")
        if done and step.words[0] == "upgrade" and any(cap in data for cap in self.known_caps):
            raise Different("the disk was upgraded, and one of its capabilities still stands in the file")

    def try_crashes(self, step: Step, recording: Recording) -> Progress:
        """Makes images at moments of the run and judges them; the medium is then as the run left it."""
        amounts = self.amounts(recording)
        progress = Progress()
        for number, progress in moments(self.medium, recording.events):
            for _ in range(amounts.get(number, 0)):
                choices = some_choices(self.numbers, self.medium)
                standing = self.judge(step, recording, number, progress, choices)
                self.images += 1
                self.use(standing, choices)
        return progress

    def amounts(self, recording: Recording) -> dict:
        """How many images are made at each moment: more where more is loose."""
        weights = {number: 1 + min(8, len(medium.loose)) for medium in (self.medium.copy(),)
                   for number, _ in moments(medium, recording.events)}
        amounts: dict = {}
        for number in self.numbers.choices(list(weights), list(weights.values()), k=IMAGES_OF_A_RUN):
            amounts[number] = amounts.get(number, 0) + 1
        return amounts

    def judge(self, step: Step, recording: Recording, number: int, progress: Progress, choices: Choices) -> Standing:
        """Judges one image; where it stands."""
        try:
            return judge_image(self.medium, choices, progress, step.course)
        except Different as different:
            calls = recording.events
            inside = calls[number].named() if number < len(calls) else "the end"
            text = f"a crash at call {number + 1} of {len(calls)}, inside {inside}, {different}"
        raise Different(text)

    def use(self, standing: Standing, choices: Choices) -> None:
        """Opens one image in many with the program, and keeps one to go on from."""
        opens, keeps = self.numbers.random() < SHARE_OPENED, self.numbers.random() < 2 / IMAGES_OF_A_RUN
        if opens or keeps:
            data = self.medium.image(choices)
            if opens:
                self.open(data, standing)
            if keeps:
                self.chosen = data, standing

    # --- images opened by the program ---

    def open(self, data: bytes, standing: Standing) -> None:
        """The program itself reads the image so, and goes on from there."""
        self.opened += 1
        self.scratch.write_bytes(data)
        if isinstance(standing.outcome, Fault):
            line = standing.outcome.line
            self.ask(("check",), b"", 3, f"{line}\n".encode(), f"tsd: not an image: {line}\n".encode())
            if self.scratch.read_bytes() != data:
                raise Different(f"opening an image that is none ({line}) changed the file")
            return
        disk = Disk(standing.outcome, self.numbers.choice(PLACES))
        if self.numbers.random() < 0.5:
            self.ask(("check",), b"", 0, disk.check_line(), b"")
        if standing.caps:
            requests = Drawer(self.numbers, disk, standing.caps).draw(6)
            course = course_of_requests([], disk, standing.caps, requests, frames=False)
            self.ask(("run", disk.place), text_of(requests, frames=False), 0, course.out(), b"")
        found = read_image(self.scratch.read_bytes())
        if found != disk.world():
            raise Different(f"an image opened by the program: {difference(found, [Standing(disk.world())])}")

    def ask(self, words: Tuple[object, ...], text: bytes, status: int, out: bytes, error: bytes) -> None:
        """One run over an opened image."""
        recording = self.recorder.run(self.scratch, words, text)
        if (recording.status, recording.out, without_length(recording.error)) != (status, out, error):
            raise Different(f"an image opened by `{' '.join(map(str, words))}` with\n{text.decode(errors='replace')}\n"
                            f"gave {recording.status} {recording.error!r}\n{recording.out!r}\n"
                            f"where this is right: {status} {error!r}\n{out!r}")


def one_history(recorder: Recorder, folder: Path, seed: int, number: int) -> Tuple[Result, int]:
    """One history from its start to its end, and how many images it made."""
    history = History(recorder, folder, seed, number)
    runs = recorder.runs
    try:
        history.play()
    except (Different, Unrecorded) as different:
        steps = "\n".join(f"-- run {number}: {step.told()}" for number, step in enumerate(history.steps, 1))
        again = f"python3 tests/crashes.py --program {recorder.program} --seed {seed} --history {number}"
        return failed(f"history {number} of seed {seed}", f"{different}\n{steps}\nagain by: {again}"), history.images
    runs = recorder.runs - runs
    return passed(f"history {number}: {history.images} images, {history.opened} opened, {runs} runs"), history.images


def run(context: Context) -> Iterator[Result]:
    """Histories until so many crashes were tried as are asked for."""
    if context.compiler is None:
        yield skipped("all crashes", "no C compiler was found")
        return
    try:
        recorder = Recorder(context.program, context.compiler, context.folder)
        recorder.refuse_blindness(context.folder / "blind.img")
    except NoRecorder as no_recorder:
        yield skipped("all crashes", str(no_recorder))
        return
    tried = number = 0
    while tried < context.crashes:
        result, images = one_history(recorder, context.folder, context.seed, number)
        tried += images
        number += 1
        yield result


def main() -> int:
    """This part alone, or one history of it again."""
    parser = argparse.ArgumentParser(description=__doc__.split("\n")[0])
    parser.add_argument("--program", type=Path, required=True)
    parser.add_argument("--seed", type=int, default=random.SystemRandom().randrange(2**32))
    parser.add_argument("--crashes", type=int, default=3000)
    parser.add_argument("--history", type=int)
    given = parser.parse_args()
    compiler = shutil.which("cc") or shutil.which("gcc") or shutil.which("clang")
    began, failures = time.monotonic(), 0
    with tempfile.TemporaryDirectory(dir="/dev/shm" if Path("/dev/shm").is_dir() else None) as folder:
        top = Path(__file__).resolve().parent.parent
        context = Context(given.program.resolve(), Path(folder), top, given.seed, given.crashes, compiler, False)
        if given.history is None:
            results: Iterator[Result] = run(context)
        else:
            recorder = Recorder(context.program, compiler or "cc", context.folder)
            results = iter([one_history(recorder, context.folder, given.seed, given.history)[0]])
        for result in results:
            failures += result.outcome == "failed"
            print(result.outcome, result.name, result.text)
    print(f"{failures} failed, seed {given.seed}, {time.monotonic() - began:.1f} s")
    return 1 if failures else 0


if __name__ == "__main__":
    sys.exit(main())

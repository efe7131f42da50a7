"""Crashes of a host of the library, for tests/embedding.py. The host in C is linked with
clients/embed/tests/watching.c, which notes each write to the mapped image, each sync that was done and each reply that
was put. So each moment of a run is known as it is for a program over a file: a sector is loose from a write to it on
until the next sync is done.

At each moment images are made with all that is loose old, new, zeros, 0x01 or 0xff, and some with each loose sector on
its own, also torn. Each stands where a prefix of the requests leads that holds every one whose reply was put, and none
that wasn't given. Of a call of `apply` that is one more at most; of one of `batch` it may be all that were given. Some
images are opened again, by the program and by the library, and that run is crashed in the same way."""

from __future__ import annotations

import os
import subprocess
from itertools import accumulate
from pathlib import Path
from typing import Iterator, List, NamedTuple, Optional, Sequence, Tuple

from crash_images import Medium, Unrecorded, moments, some_choices
from crash_requests import Drawer, random_bytes, random_geometry, text_of
from crash_rows import all_choices, judged
from disk_model import Disk, Geometry, Request
from groups import FREED_AND_TAKEN, judge_file, writes
from image_reader import read_image
from judge_faults import READ_CAP, WRITE_CAP, Recorded, plain_requests, planted
from judging import Caps, Course, Different, Standing, caps_of_seed, course_of_requests
from parts import Context, Result, compared, failed, passed
from program import Program, without_length
from recording import PUT, SYNC, WRITE, Event, Recording, read_notes
from rows import CAPS, OPEN, SEED, SWEEP, alloc, chain, create, delete, write

WAYS = ("each", "apply", "batch")
WRAPPED = ("mmap", "munmap", "msync", "memcpy", "memmove", "tsd_c_apply", "tsd_c_batch")
DONE = b"done, done\n"
DRAWN_RUNS = 2
DRAWN_REQUESTS = 24
# So many images a moment have each loose sector on its own.
IMAGES_AT_A_MOMENT = 3
# Of so many images one is opened again, by so many requests.
OPENED_EVERY = 150
REQUESTS_AGAIN = 5
MOST_SECONDS = 120


class Row(NamedTuple):
    """A run: how its frames come to the library, the disk's size and capabilities, the requests before it that make the
    disk, and its own."""

    name: str
    way: str
    geometry: Geometry
    seed: bytes
    before: Sequence[Request]
    requests: Sequence[Optional[Request]]

    def caps(self) -> Caps:
        """The capabilities with which the disk is made."""
        return caps_of_seed(self.seed, self.geometry.p)

    def disk(self) -> Disk:
        """The disk that it begins with."""
        k, n, p, m = self.geometry
        disk = Disk.formatted(n, k, m, p, self.seed)
        for request in (OPEN, *self.before):
            disk.apply(request)
        disk.end_sessions()
        return disk

    def made(self, program: Program, path: Path) -> bytes:
        """The image that it begins with, which the program makes."""
        path.unlink(missing_ok=True)
        k, n, p, m = self.geometry
        program.run([path, "format", *map(str, (n, k, m, p)), self.seed.hex()])
        program.run([path, "serve", "near"], text_of([OPEN, *self.before], frames=True))
        data = path.read_bytes()
        if read_image(data) != self.disk().world():
            raise Different("the disk before the run isn't the one that was asked for")
        return data


def course_of(way: str, disk: Disk, caps: Caps, requests: Sequence[Optional[Request]]) -> Course:
    """The course of a run that begins with this disk."""
    course = course_of_requests([Standing(disk.world(), caps)], disk, caps, requests, frames=True)
    if way != "apply":
        course.ends = list(accumulate(len(text_of([request], frames=True)) for request in requests))
    return course


class Watched:
    """The host whose image is watched, and the program that opens what it leaves."""

    def __init__(self, context: Context, archive: str, flags: Sequence[str]) -> None:
        self.program = Program(context.program)
        self.path, self.log = context.folder / "watched", context.folder / "watched.log"
        self.image, self.again = context.folder / "watched.img", context.folder / "again.img"
        self.numbers = context.random("embedding/crashes")
        self.images = self.opened = 0
        folder = context.top / "clients/embed"
        sources = [folder / "tests/run_embed.c", folder / "tests/watching.c", folder / "tsd_embed.c", archive]
        wraps = [f"-Wl,--wrap={name}" for name in WRAPPED]
        command = [context.compiler, *flags, "-O1", "-fno-builtin", *wraps, "-o", self.path, *sources]
        done = subprocess.run(list(map(str, command)), capture_output=True, text=True, timeout=MOST_SECONDS)
        self.said = done.stderr + (f"status {done.returncode}" if done.returncode else "")

    def run(self, way: str, image: Path, text: bytes) -> Recording:
        """A run over an image, and what was noted of it."""
        self.log.write_bytes(b"")
        done = subprocess.run([str(self.path), way, str(image)], input=text, capture_output=True, timeout=MOST_SECONDS,
                              env={**os.environ, "RECORDER_LOG": str(self.log)})
        return Recording(done.returncode, done.stdout, done.stderr, read_notes(self.log.read_bytes()))

    def judged_run(self, way: str, image: Path, course: Course, requests: Sequence[Optional[Request]]) -> Recording:
        """A run with its answers, its notes and the file that it leaves."""
        before = image.read_bytes()
        recording = self.run(way, image, text_of(requests, frames=True))
        found = recording.status, recording.out, recording.error
        if found != (0, course.out(), DONE):
            raise Different(f"{found}, not {course.out()!r}")
        if b"".join(event.data for event in recording.events if event.kind == PUT) != course.out():
            raise Unrecorded("replies were put that weren't noted")
        compare(before, recording.events, image.read_bytes())
        judge_file(image.read_bytes(), course)
        return recording

    def crash_all(self, before: bytes, recording: Recording, course: Course, opens: bool) -> None:
        """Judges images of each moment, and opens some of them again; raises Different."""
        medium = Medium(before)
        for number, progress in moments(medium, recording.events):
            some = [some_choices(self.numbers, medium) for _ in range(IMAGES_AT_A_MOMENT if medium.loose else 0)]
            for choices in [*all_choices(medium), *some]:
                standing = judged(medium, choices, progress, course, number, recording)
                self.images += 1
                if opens and self.images % OPENED_EVERY == 0:
                    self.open(medium.image(choices), standing)

    def open(self, image: bytes, standing: Standing) -> None:
        """What a crash left: the program finds it, the library goes on from there, and is crashed there."""
        self.opened += 1
        self.again.write_bytes(image)
        disk = Disk(standing.outcome)
        run = self.program.run([self.again, "check"])
        if (run.status, run.out, without_length(run.error)) != (0, disk.check_line(), b""):
            raise Different(f"opened again by the program: {run}, not {disk.check_line()!r}")
        self.again.write_bytes(image)
        requests = Drawer(self.numbers, disk, standing.caps).draw(REQUESTS_AGAIN)
        way = self.numbers.choice(WAYS)
        course = course_of(way, disk, standing.caps, requests)
        self.crash_all(image, self.judged_run(way, self.again, course, requests), course, opens=False)

    def result(self, row: Row) -> Result:
        """One row: its answers, its file and its crashes."""
        self.images = self.opened = 0
        try:
            before = row.made(self.program, self.image)
            course = course_of(row.way, row.disk(), row.caps(), row.requests)
            recording = self.judged_run(row.way, self.image, course, row.requests)
            self.crash_all(before, recording, course, opens=True)
        except (Different, Unrecorded) as different:
            return failed(row.name, f"{different}\n{row.geometry}\n{text_of(row.requests, frames=True).hex()}")
        return passed(f"{row.name}: {self.images} crashes, {self.opened} images opened again")


def compare(before: bytes, events: Sequence[Event], after: bytes) -> None:
    """Raises Unrecorded where the file isn't what the noted writes make of it."""
    medium = Medium(before)
    for event in events:
        if event.kind == WRITE:
            medium.write(event.offset, event.data, True)
    medium.sync()
    medium.compare(after)


def drawn(watched: Watched, way: str, number: int) -> Row:
    """Random requests over a small disk."""
    numbers = watched.numbers
    geometry, seed = random_geometry(numbers), random_bytes(numbers, 32)
    row = Row(f"crashes, {way}, drawn requests, {number}", way, geometry, seed, [], [])
    return row._replace(requests=Drawer(numbers, row.disk(), row.caps()).draw(DRAWN_REQUESTS))


RING = [alloc(0), alloc(1), create(2, 1), delete(0, 1)]
WRITTEN: Sequence[Tuple[str, str, int, Sequence[Request], Sequence[Request]]] = (
    ("a chain of six goes", "apply", 8, chain(6), [OPEN, delete(0, 1), alloc(0, 2)]),
    ("a ring is swept", "each", 8, RING, [OPEN, SWEEP, write(0, b"end")]),
    ("a block goes and is taken again", "batch", 8, [], FREED_AND_TAKEN),
    ("writes that share a batch", "batch", 64, [alloc(0, 32)], [OPEN, *writes(33, 300)]),
    ("nine writes", "each", 8, [], [OPEN, *writes(1, 300) * 9]),
)


def rows(watched: Watched) -> Iterator[Row]:
    """Written ones, and drawn ones in each way."""
    for name, way, blocks, before, requests in WRITTEN:
        yield Row(f"crashes, {way}, {name}", way, Geometry(1, blocks, 1, 4 * blocks), SEED, before, requests)
    for way in WAYS:
        for number in range(1, DRAWN_RUNS + 1):
            yield drawn(watched, way, number)


def planted_faults(watched: Watched, way: str) -> Iterator[Result]:
    """Syncs that the host forgets, replies that come too early, and gates that do, are each caught."""
    watched.image.unlink(missing_ok=True)
    watched.program.run([watched.image, "fresh", "8", "1", READ_CAP.hex(), WRITE_CAP.hex(), "near"])
    before, requests = watched.image.read_bytes(), plain_requests()
    course = course_of(way, Disk.fresh(8, 1, READ_CAP, WRITE_CAP), ((READ_CAP, WRITE_CAP),), requests)
    events = watched.judged_run(way, watched.image, course, requests).events
    names = ["a sync that is lost", "a reply before its sync", "two bodies swapped",
             "a gate before its bodies are firm"]
    yield from planted(f"crashes, {way}", Recorded(events, course, before), names)


def results(context: Context, archive: str, flags: Sequence[str]) -> Iterator[Result]:
    """All rows, and whether their judge can fail."""
    watched = Watched(context, archive, flags)
    yield compared("compiled with its image watched", "", watched.said)
    if watched.said:
        return
    for way in WAYS:
        try:
            yield from planted_faults(watched, way)
        except (Different, Unrecorded) as different:
            yield failed(f"planted faults, {way}", str(different))
    for row in rows(watched):
        yield watched.result(row)

"""Runs that are crashed at each of their moments, with all that is loose there old, new, zeros, or filled with 0x01 or
0xff; and of many of them each image that such a crash leaves is opened (of one with many long openings each sixteenth),
and that opening is crashed in the same way: opened once more, it stands where the first crash let it stand. And
openings of a disk on which nothing is left to be done, which write nothing.
"""

from __future__ import annotations

import time
from pathlib import Path
from typing import Dict, Iterator, List, Optional, Tuple

from crash_images import SECTOR, ZEROS, Choice, Choices, Medium, Progress, Unrecorded, moments
from image_reader import read_image
from judging import Course, Different, Standing, difference, judge_image, matching
from parts import Context, Result, compared, failed, passed, skipped
from recording import WRITE, NoRecorder, Recorder, Recording
from rows import ROWS, Row

NAME = "crash_rows"
# Images that crashes left, each with where it stands.
Images = Dict[bytes, Standing]
FILLS = {"zeros": ZEROS, "0x01": b"\x01" * SECTOR, "0xff": b"\xff" * SECTOR}
OPENING = ("run", "low")
# The openings of one row take no longer than this.
MOST_SECONDS = 30
# Openings that ask for nothing.
QUIET_RUNS: Tuple[Tuple[str, ...], ...] = (("check",), ("run", "near"), ("serve", "near"))


def all_choices(medium: Medium) -> List[Choices]:
    """What the loose sectors may hold, all in the same way; nothing is to be chosen where none is loose."""
    loose = medium.loose
    if not loose:
        return [{}]
    found: List[Choices] = [
        {sector: Choice("old", medium.firm.get(sector, ZEROS)) for sector in loose},
        {sector: Choice("new", writes[-1]) for sector, writes in loose.items()},
    ]
    return found + [{sector: Choice(why, fill) for sector in loose} for why, fill in FILLS.items()]


def crash_all(before: bytes, recording: Recording, course: Course, images: Optional[Images] = None) -> int:
    """Judges images of each moment; raises Different. Adds them to those that are given; how many it judged."""
    medium, count = Medium(before), 0
    for number, progress in moments(medium, recording.events):
        for choices in all_choices(medium):
            standing = judged(medium, choices, progress, course, number, recording)
            count += 1
            if images is not None:
                images.setdefault(medium.image(choices), standing)
    return count


def judged(
    medium: Medium, choices: Choices, progress: Progress, course: Course, number: int, recording: Recording
) -> Standing:
    """Where one image stands."""
    try:
        return judge_image(medium, choices, progress, course)
    except Different as different:
        calls = recording.events
        inside = calls[number].named() if number < len(calls) else "the end"
        text = f"a crash at call {number + 1} of {len(calls)}, inside {inside}, {different}"
    raise Different(text)


def made(recorder: Recorder, path: Path, row: Row) -> bytes:
    """The image that a row begins with."""
    path.unlink(missing_ok=True)
    recorder.run(path, row.format_words())
    recorder.run(path, ("run", "low"), row.text_before())
    data = path.read_bytes()
    if read_image(data) != row.disk().world():
        raise Different("the disk before the run isn't the one that was asked for")
    return data


def opened_again(recorder: Recorder, path: Path, image: bytes, standing: Standing) -> int:
    """An opening of what a crash left, which is crashed at each of its moments; how many images that are."""
    path.write_bytes(image)
    path.chmod(0o600)
    recording = recorder.run(path, OPENING)
    if (recording.status, recording.out, recording.error) != (0, b"", b""):
        raise Different(f"opened again: {recording.status} {recording.out!r} {recording.error!r}")
    found = read_image(path.read_bytes())
    if matching(found, [standing]) is None:
        raise Different(f"opened again: {difference(found, [standing])}")
    return crash_all(image, recording, Course([standing], standing))


def row_results(recorder: Recorder, path: Path, row: Row) -> Iterator[Result]:
    """One row: the run itself, and its crashes; then the openings of what these leave."""
    try:
        images: Images = {}
        before = made(recorder, path, row)
        recording = recorder.run(path, row.words(), row.text())
        course = row.course()
        if (recording.status, recording.out, recording.error) != (0, course.out(), b""):
            raise Different(f"{recording.status} {recording.out!r} {recording.error!r}, not {course.out()!r}")
        count = crash_all(before, recording, course, images if row.opens_every else None)
        yield passed(f"{row.name}: {count} crashes")
        if row.opens_every:
            yield openings_result(recorder, path, row, images)
    except (Different, Unrecorded) as different:
        yield failed(row.name, f"{different}\n{row.text().decode()}")


def openings_result(recorder: Recorder, path: Path, row: Row, images: Images) -> Result:
    """The openings of the images that a row's crashes left; raises Different."""
    end = time.monotonic() + MOST_SECONDS
    chosen = list(images.items())[::row.opens_every]
    crashes = 0
    for opened, (image, standing) in enumerate(chosen):
        if time.monotonic() > end:
            text = f"{opened} of {len(chosen)} images were opened, with {crashes} crashes; then the time was over"
            return skipped(f"{row.name}: openings", text)
        crashes += opened_again(recorder, path, image, standing)
    return passed(f"{row.name}: openings of {len(chosen)} of {len(images)} images, with {crashes} crashes")


def quiet_results(recorder: Recorder, path: Path) -> Iterator[Result]:
    """Nothing is left to be done on the disk, so an opening writes nothing and syncs what may be loose."""
    for row in (ROWS[0], ROWS[2], ROWS[3]):
        for words in QUIET_RUNS:
            made(recorder, path, row)
            recorder.run(path, row.words(), row.text())
            before = path.read_bytes()
            recording = recorder.run(path, words)
            writes = [event.named() for event in recording.events if event.kind == WRITE]
            name = f"{words[0]} of nothing after: {row.name}"
            yield compared(name, (0, b"", [], True),
                           (recording.status, recording.error, writes, path.read_bytes() == before))


def run(context: Context) -> Iterator[Result]:
    """A result for each row."""
    if context.compiler is None:
        yield skipped("crashes of rows", "no C compiler was found")
        return
    path = context.folder / "row.img"
    try:
        recorder = Recorder(context.program, context.compiler, context.folder)
        recorder.refuse_blindness(path)
    except NoRecorder as no_recorder:
        yield skipped("crashes of rows", str(no_recorder))
        return
    for row in ROWS:
        yield from row_results(recorder, path, row)
    yield from quiet_results(recorder, path)

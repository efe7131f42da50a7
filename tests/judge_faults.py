"""Can the judge of crashes fail? Faults are planted into a recorded run, and each must be caught.

The run is a real one of the program and fixed. A fault takes a sync or a write out of it, or puts a reply before its
sync, or gives a record the wrong bodies; then images are made as for crashes. Without a fault none may differ. Which
syncs and writes can be missed by no rule is said where they are left out.
"""

from __future__ import annotations

import random
from struct import pack, unpack_from
from typing import Callable, Dict, Iterator, List, NamedTuple, Sequence

from crash_images import SECTOR, Medium, moments, some_choices
from crash_requests import text_of
from disk_model import Disk, Request
from image_reader import FIRST_BODY, JOURNAL, SWEEP_FLAG, Fault, gate_sector, read_image
from judging import NOT_FORMATTED, Course, Different, Standing, course_of_requests, judge_image
from parts import Context, Result, compared, failed, passed, skipped
from recording import PUT, SYNC, WRITE, Event, NoRecorder, Recorder, by_sectors

NAME = "judge_faults"
READ_CAP, WRITE_CAP = b"\xaa" * 16, b"\xbb" * 16
IMAGES_AT_A_MOMENT = 12
GATES = {gate_sector(record) for record in range(8)}
LATER_GATES = GATES - {JOURNAL}
LAST_BODY = FIRST_BODY + 112


class Recorded(NamedTuple):
    """A run and its course, and the image that it begins with."""

    events: List[Event]
    course: Course
    before: bytes = b""


def plain_requests() -> List[Request]:
    """Requests after which nothing is left to be reclaimed, so that each batch is one that a reply tells of: batches of
    one sector and of several, enough for two checkpoints."""
    at_root = {"session": 1, "block": 0, "shown": WRITE_CAP}
    requests = [
        Request("open", 1),
        Request("alloc", count=3, **at_root),
        Request("write", data=b"first", **at_root),
        Request("write", 1, 1, data=b"second"),
        Request("alloc", 1, 1, count=2),
        Request("create", 1, 2, target=1),
        Request("write", 1, 4, data=b"third" * 99),
        Request("delete", target=1, **at_root),
        Request("write", 1, 2, data=b"fourth"),
        Request("create", target=1, **at_root),
        Request("create", target=4, **at_root),
        Request("create", 1, 4, target=1),
        Request("delete", 1, 1, target=4),
        Request("contig", count=2, **at_root),
        Request("delete", 1, 2, target=1),
        Request("setcap", 1, 0, WRITE_CAP, read_cap=b"\xcc" * 16, write_cap=WRITE_CAP),
    ]
    return requests + [Request("write", data=bytes([number]) * 500, **at_root) for number in range(1, 10)]


def reclaiming_requests() -> List[Request]:
    """Chains that go block by block after the reply."""
    at_root = {"session": 1, "block": 0, "shown": WRITE_CAP}
    chain = [Request("alloc", 1, block, WRITE_CAP, count=1) for block in range(7)]
    end = Request("delete", target=1, **at_root)
    return [Request("open", 1), *chain, end, *chain[:3], Request("write", data=b"between", **at_root), end]


def sweeping_requests() -> List[Request]:
    """Cycles that are swept. A sweep's batches behind its first one change no world, so some may be lost unseen."""
    at_root = {"session": 1, "block": 0, "shown": WRITE_CAP}
    ring = [
        Request("alloc", count=1, **at_root),
        Request("alloc", 1, 1, count=1),
        Request("create", 1, 2, target=1),
        Request("delete", target=1, **at_root),
        Request("sweep", 1, shown=WRITE_CAP),
    ]
    return [Request("open", 1), *ring, *ring, *reclaiming_requests()[1:], *ring]


def record(recorder: Recorder, context: Context, requests: Sequence[Request]) -> Recorded:
    """A run over a fresh disk of eight blocks."""
    image = context.folder / "judged.img"
    image.unlink(missing_ok=True)
    words = ("fresh", 8, 1, READ_CAP.hex(), WRITE_CAP.hex(), "low")
    recording = recorder.run(image, words, text_of(requests, frames=False))
    disk, before = Disk.fresh(8, 1, READ_CAP, WRITE_CAP, "low"), [Standing(NOT_FORMATTED)]
    course = course_of_requests(before, disk, ((READ_CAP, WRITE_CAP),), requests, frames=False, formats=True)
    if recording.out != course.out() or recording.status:
        raise Different(f"the run itself: {recording.status} {recording.error!r}\n{recording.out!r}\n{course.out()!r}")
    return Recorded(by_sectors(recording.events), course)


def caught(events: Sequence[Event], recorded: Recorded, first: int = 0) -> str:
    """What the judge says of a run with these calls, looked at from one on: the first difference, or nothing."""
    medium = Medium(recorded.before)
    numbers = random.Random(42)
    for number, progress in moments(medium, events):
        for _ in range(IMAGES_AT_A_MOMENT if number >= first else 0):
            try:
                judge_image(medium, some_choices(numbers, medium), progress, recorded.course)
            except Different as different:
                return str(different)
    return ""


# --- faults ---------------------------------------------------------------------------------------------------------


def sector_written(event: Event) -> int:
    """The sector of a write, or -1."""
    return event.offset // SECTOR if event.kind == WRITE else -1


def without(events: Sequence[Event], number: int) -> List[Event]:
    """The run without one call."""
    return [*events[:number], *events[number + 1:]]


def writes_before(events: Sequence[Event], number: int) -> List[Event]:
    """The writes that a sync makes firm."""
    writes: List[Event] = []
    for event in events[:number]:
        if event.kind == SYNC:
            writes = []
        elif event.kind == WRITE:
            writes.append(event)
    return writes


def lost_syncs(events: Sequence[Event]) -> Iterator[List[Event]]:
    """Each sync lost that has something to make firm, but for those that nobody can miss: one with another sync behind
    it, and the one behind the later gates of a checkpoint, since the next commit syncs before it opens a gate."""
    for number, event in enumerate(events):
        writes = writes_before(events, number)
        if event.kind != SYNC or not writes or next_kind(events, number) == SYNC:
            continue
        if not all(sector_written(write) in LATER_GATES and not write.data[0] for write in writes):
            yield without(events, number)


def next_kind(events: Sequence[Event], number: int) -> str:
    """The kind of the next call that writes, syncs or sends; a sync where the run ends."""
    return next((event.kind for event in events[number + 1:] if event.kind in (WRITE, SYNC, PUT)), SYNC)


def early_replies(events: Sequence[Event]) -> Iterator[List[Event]]:
    """Each reply that comes right after a sync, put before it."""
    for number, event in enumerate(events):
        if event.kind == PUT and events[number - 1].kind == SYNC and writes_before(events, number - 1):
            yield [*events[:number - 1], event, events[number - 1], *events[number + 1:]]


def swapped_bodies(events: Sequence[Event]) -> Iterator[List[Event]]:
    """Two bodies of one record, one written for the other."""
    for number, (one, other) in enumerate(zip(events, events[1:])):
        bodies = all(FIRST_BODY <= sector_written(event) <= LAST_BODY for event in (one, other))
        if bodies and one.data != other.data:
            swapped = [one._replace(data=other.data), other._replace(data=one.data)]
            yield [*events[:number], *swapped, *events[number + 2:]]


def lost_writes(events: Sequence[Event]) -> Iterator[List[Event]]:
    """Each write left out that changes a sector of the journal or a home. A gate that is closed behind the first closed
    one can be lost unseen, and so can what formatting writes over zeros."""
    medium = Medium(b"")
    for number, event in enumerate(events):
        if event.kind == WRITE:
            changes = medium.read(sector_written(event)) != event.data
            medium.write(event.offset, event.data, True)
            closes = sector_written(event) in LATER_GATES and not event.data[0]
            if changes and not closes:
                yield without(events, number)


def gates_too_early(events: Sequence[Event]) -> Iterator[List[Event]]:
    """Each gate that opens, written before the sync of its bodies."""
    for number, event in enumerate(events):
        opens = sector_written(event) in GATES and event.data[0] == 1
        if opens and events[number - 1].kind == SYNC:
            yield [*events[:number - 1], event, events[number - 1], *events[number + 1:]]


FAULTS: Dict[str, Callable[[Sequence[Event]], Iterator[List[Event]]]] = {
    "a sync that is lost": lost_syncs,
    "a reply before its sync": early_replies,
    "two bodies swapped": swapped_bodies,
    "a write that is lost": lost_writes,
    "a gate before its bodies are firm": gates_too_early,
}


def planted(what: str, recorded: Recorded, names: Sequence[str]) -> Iterator[Result]:
    """No fault in a recorded run, and each kind of fault at each place where it can be."""
    said = caught(recorded.events, recorded)
    yield failed(f"{what}: no fault", said) if said else passed(f"{what}: no fault")
    for name in names:
        runs = list(FAULTS[name](recorded.events))
        missed = [number for number, events in enumerate(runs)
                  if not caught(events, recorded, first_change(recorded.events, events))]
        text = f"{len(missed)} of {len(runs)} weren't caught: number {missed}"
        yield failed(f"{what}: {name}", text) if missed or not runs else passed(f"{what}: {name}: {len(runs)} caught")


def first_change(events: Sequence[Event], others: Sequence[Event]) -> int:
    """The first call that isn't the same."""
    return next(number for number, pair in enumerate(zip(events, others)) if pair[0] != pair[1])


# --- the reader ------------------------------------------------------------------------------------------------------


def damaged(image: bytes) -> Iterator[tuple]:
    """An image with each fault of docs/FORMAT.md, and its line. The image has 8 blocks: counts in sector 134, bits in
    135, slots in 136; it holds the pairs (0, 1) and (0, 2) in slots 0 and 1."""
    def put(*pieces: tuple) -> bytes:
        data = bytearray(image)
        for sector, at, piece in pieces:
            data[SECTOR * sector + at:SECTOR * sector + at + len(piece)] = piece
        return bytes(data)

    def words(*numbers: int) -> bytes:
        return pack(f"<{len(numbers)}I", *numbers)

    yield put((1, 0, b"\0")), "not-formatted"
    yield put((2, 0, b"\1"), (3, 0, words(0))), "damaged descriptor"
    yield put((2, 0, b"\1"), (3, 0, words(114, *range(131, 245)))), "damaged descriptor"
    yield put((2, 0, b"\1"), (3, 0, words(2, 200, 200))), "damaged descriptor"
    yield put((2, 0, b"\1"), (3, 0, words(1, 130))), "damaged descriptor"
    yield put((0, 0, b"t")), "header magic"
    yield put((0, 8, words(3))), "header version 3"
    yield put((0, 12, words(3))), "header field 1 3"
    yield put((0, 16, words(7))), "header field 2 7"
    yield put((0, 20, words(8))), "header field 3 8"
    yield put((0, 24, words(0))), "header field 4 0"
    yield put((136, 16, words(9, 1))), "damaged slot 2 9 1"
    yield put((136, 16, words(1, 0))), "damaged slot 2 1 0"
    yield put((136, 16, words(1, 1))), "damaged repeated 0 1"
    yield put((135, 0, b"\6")), "damaged primary 0"
    yield put((135, 0, b"\3")), "damaged end 0 2"
    yield put((134, 4, words(2))), "damaged count 1 2 1"
    # the home of an image has an open record in place: here the bitmap's sector without block 1
    yield put((2, 0, b"\1"), (3, 0, words(1, 135)), (4, 0, b"\5")), "damaged end 0 1"
    # behind a closed gate nothing counts, whatever it says
    yield put((117, 0, b"\1"), (118, 0, words(0))), ""


def reader_faults(recorder: Recorder, context: Context) -> Iterator[Result]:
    """The reader names each fault, and so does `check`."""
    image = context.folder / "damaged.img"
    text = b"open 1\nalloc 1 0 %s - 2\n" % WRITE_CAP.hex().encode()
    recorder.run(image, ("fresh", 8, 1, READ_CAP.hex(), WRITE_CAP.hex(), "low"), text)
    sound = image.read_bytes()
    assert unpack_from("<4I", sound, 136 * SECTOR) == (1, 1, 1, 2) and not sound[SWEEP_FLAG * SECTOR]
    for data, line in damaged(sound):
        found = read_image(data)
        yield compared(f"the reader of images: {line or 'clean'}", line, found.line if isinstance(found, Fault) else "")
        image.write_bytes(data)
        wanted = line or "clean 3 5 2"
        yield compared(f"check: {wanted}", wanted, recorder.run(image, ("check",)).out.decode().strip())


def run(context: Context) -> Iterator[Result]:
    """The planted faults, then the damaged images."""
    if context.compiler is None:
        yield skipped("the judge of crashes", "no C compiler was found")
        return
    try:
        recorder = Recorder(context.program, context.compiler, context.folder)
        recorder.refuse_blindness(context.folder / "blind.img")
    except NoRecorder as no_recorder:
        yield skipped("the judge of crashes", str(no_recorder))
        return
    yield from reader_faults(recorder, context)
    yield from planted("plain requests", record(recorder, context, plain_requests()), list(FAULTS))
    reclaiming = record(recorder, context, reclaiming_requests())
    yield from planted("reclamation", reclaiming, ["a reply before its sync"])
    yield from planted("sweeps", record(recorder, context, sweeping_requests()), [])

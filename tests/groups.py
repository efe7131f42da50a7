"""Group commit (`group`): requests that come together share a batch of the journal.

The input of each run comes in takes of so many whole requests: of 1, of 2, of 7, of 64, or all in one. The answers are
those of `serve`. A crash at any moment leaves the world after a prefix of the requests that holds each one whose answer
was sent, and none that was not taken yet; before each take all that was taken is answered. Requests that come together
and fit a batch are on the disk together or not at all.
"""

from __future__ import annotations

import resource
import signal
import subprocess
from itertools import accumulate
from pathlib import Path
from typing import Iterator, List, NamedTuple, Optional, Sequence, Tuple

from crash_images import Medium, Unrecorded, moments
from crash_requests import Drawer, text_of
from crash_rows import all_choices, judged
from disk_model import Disk, Request, frame, reply_body
from endings import is_checked
from image_reader import has_closed_gates, is_settled, read_image
from judging import Course, Different, Standing, difference, matching
from mirror import Sides, of_tries, without_end
from parts import Context, Result, compared, failed, passed, skipped
from program import Program, write_image
from recording import INPUT, MOST_SECONDS, PUT, SYNC, WRITE, NoRecorder, Recorder, Recording
from rows import (
    CAPS, OPEN, READ_ONE, SEED, SWEEP, WRITE_CAP, alloc, chain, course_of_groups, create, delete, each, write,
)

NAME = "groups"
COMMAND = "group"
NO_MEMORY = b"\x07"
# A session holds two bits for each block of a disk.
MANY_BLOCKS = 1_000_000
LEAST_MEMORY, MOST_MEMORY, MEMORY_STEP = 30 << 20, 58 << 20, 4 << 20


class Row(NamedTuple):
    """A run: the disk's blocks, sectors a block and slots, the requests that make it, its own, and how many of them
    come in each take (0: all that lie there). `fits`: what comes in one take fits one batch."""

    name: str
    blocks: int
    sectors: int
    slots: int
    before: Sequence[Request]
    requests: Sequence[Optional[Request]]
    together: int
    fits: bool = False

    def format_words(self) -> Tuple[object, ...]:
        """The words that make its disk."""
        return ("format", self.blocks, self.sectors, self.slots, 1, SEED.hex())

    def disk(self) -> Disk:
        """The disk that it begins with."""
        disk = Disk.formatted(self.blocks, self.sectors, self.slots, 1, SEED, "low")
        for request in (OPEN, *self.before):
            disk.apply(request)
        disk.end_sessions()
        return disk

    def text(self) -> bytes:
        """Its input."""
        return text_of(self.requests, frames=True)

    def takes(self) -> List[int]:
        """How many bytes each take brings; none where all that lies there comes."""
        if self.together == 0:
            return []
        ends = [0, *accumulate(len(text_of([one], frames=True)) for one in self.requests)]
        marks = [*ends[::self.together], ends[-1]]
        return [end - start for start, end in zip(marks, marks[1:]) if end > start]

    def faults(self) -> List[str]:
        """The words for the recorder that measure the takes out."""
        return [f"input:{number}:short={size}" for number, size in enumerate(self.takes(), 1)]

    def course(self) -> Course:
        """Its course; where each take fits a batch it leaves no world inside one."""
        disk = self.disk()
        course = course_of_groups([Standing(disk.world(), CAPS)], disk, CAPS, self.requests)
        if self.fits:
            course.boundaries = sorted({0, *range(0, len(self.requests), self.together), len(self.requests)})
        return course


def drawn(name: str, amount: int, together: int, context: Context) -> Row:
    """Random requests over a small disk."""
    disk = Disk.formatted(24, 1, 96, 1, SEED, "low")
    requests = Drawer(context.random(f"groups/{name}"), disk, CAPS).draw(amount)
    return Row(name, 24, 1, 96, [], requests, together)


def writes(count: int, size: int) -> List[Request]:
    """So many writes, over all of the first blocks."""
    return [write(number % count, bytes([number % 251 + 1]) * size) for number in range(count)]


# 150 blocks, each written through the pointers of block 0.
WIDE = [alloc(0, 30) for _ in range(5)]
ALL_AT_ONCE = [OPEN, *writes(151, 512)]
FREED_AND_TAKEN = [OPEN, alloc(0), write(1, b"secret" * 80), delete(0, 1), alloc(0), READ_ONE,
                   Request("read", 1, 0, WRITE_CAP)]
# 32 blocks of 8 sectors have more sectors than a batch has room for.
TOO_LARGE = [OPEN, write(0, b"before"), alloc(0, 32), write(1, b"after"), Request("read", 1, 1), write(0, b"end")]
SWEPT = [OPEN, *chain(4), create(4, 1), delete(0, 1), write(0, b"kept"), SWEEP, Request("free"), write(0, b"end")]


def rows(context: Context) -> List[Row]:
    """All rows."""
    return [
        drawn("groups of one", 25, 1, context),
        drawn("groups of two", 50, 2, context),
        drawn("groups of seven", 150, 7, context),
        drawn("groups of 64", 256, 64, context),
        drawn("as many as lie there", 200, 0, context),
        Row("writes that share a batch", 64, 1, 256, [alloc(0, 32)], [OPEN, *writes(33, 300), *writes(33, 40)], 17,
            True),
        Row("writes that fill a batch to its last home", 256, 1, 1024, WIDE, ALL_AT_ONCE, 0),
        Row("a block goes and is taken again within a group", 8, 1, 32, [], FREED_AND_TAKEN, 0),
        Row("blocks that no batch has room for", 64, 8, 256, [], TOO_LARGE, 0),
        Row("a sweep among writes", 16, 1, 64, [], SWEPT, 0),
        Row("a chain of 40 goes in one group", 64, 1, 256, chain(40), [OPEN, delete(0, 1), alloc(0, 2)], 0),
    ]


def made(recorder: Recorder, path: Path, row: Row) -> bytes:
    """The image that a row begins with."""
    path.unlink(missing_ok=True)
    recorder.run(path, row.format_words())
    recorder.run(path, ("run", "low"), text_of([OPEN, *row.before], frames=False))
    data = path.read_bytes()
    if read_image(data) != row.disk().world():
        raise Different("the disk before the run isn't the one that was asked for")
    return data


def crash_all(before: bytes, recording: Recording, course: Course) -> int:
    """Judges images of each moment; raises Different. How many it judged."""
    medium, count = Medium(before), 0
    for number, progress in moments(medium, recording.events):
        for choices in all_choices(medium):
            judged(medium, choices, progress, course, number, recording)
            count += 1
    return count


def judge_turns(recording: Recording, course: Course) -> None:
    """Before each take all requests that were taken are answered."""
    taken = sent = 0
    for number, event in enumerate(recording.events):
        if event.kind == PUT:
            sent += max(event.answer, 0)
        if event.kind == INPUT:
            wanted = len(b"".join(course.answers[:course.requests_in(taken)]))
            if sent < wanted:
                raise Different(f"at call {number + 1}, a take, {sent} bytes were sent, and not yet all {wanted}")
            taken += max(event.answer, 0)


def judge_file(data: bytes, course: Course) -> None:
    """The run has ended: the world is the last one, the gates are closed, and nothing is left to be done."""
    found = read_image(data)
    if matching(found, course.prefixes[-1:]) is None:
        raise Different(f"the file after the run: {difference(found, course.prefixes[-1:])}")
    if not is_settled(data) or not has_closed_gates(data):
        raise Different("the run ended, and a gate of the journal is open or something is doomed")


def row_result(recorder: Recorder, path: Path, row: Row) -> Result:
    """One row: its answers, its file, and its crashes."""
    try:
        before = made(recorder, path, row)
        recording = recorder.run(path, (COMMAND, "low"), row.text(), row.faults())
        course = row.course()
        if (recording.status, recording.out, recording.error) != (0, course.out(), b""):
            raise Different(f"{recording.status} {recording.out!r} {recording.error!r}, not {course.out()!r}")
        judge_turns(recording, course)
        judge_file(path.read_bytes(), course)
        return passed(f"{row.name}: {crash_all(before, recording, course)} crashes")
    except (Different, Unrecorded) as different:
        return failed(row.name, f"{different}\n{row.text().hex()}")


def count_of(recording: Recording, *kinds: str) -> int:
    """How many calls of these kinds there were."""
    return sum(event.kind in kinds for event in recording.events)


def cost_results(recorder: Recorder, path: Path) -> Iterator[Result]:
    """What 64 requests cost that are sent in one piece: syncs of writes, and calls of reads beside the image's."""
    row = Row("64", 64, 1, 256, [alloc(0, 32)], [OPEN, *writes(32, 512), *writes(32, 512)], 0)
    made(recorder, path, row)
    opening = count_of(recorder.run(path, (COMMAND, "low"), text_of([OPEN], frames=True)), SYNC)
    syncs = count_of(recorder.run(path, (COMMAND, "low"), row.text()), SYNC) - opening
    yield compared(f"64 writes of a sector take at most 6 syncs ({syncs}) beside those of opening and ending", True,
                   syncs <= 6)
    reads = [OPEN, Request("read", 1, 0, WRITE_CAP), *each(lambda n: Request("read", 1, n % 33), range(63))]
    recording = recorder.run(path, (COMMAND, "low"), text_of(reads, frames=True))
    name = "64 reads take at most 6 calls beside those of the image, and write nothing"
    yield compared(name, (True, 0), (count_of(recording, PUT, INPUT) <= 6, count_of(recording, WRITE)))
    alone = recorder.run(path, (COMMAND, "low"), text_of(reads[:2], frames=True))
    yield compared("a read of a disk with nothing to do syncs no more than its opening",
                   count_of(recorder.run(path, (COMMAND, "low"), b""), SYNC), count_of(alone, SYNC))


def memory_results(context: Context) -> Iterator[Result]:
    """A disk in memory is blank, so it stands for no world, as `serve` says of it."""
    program = Program(context.program)
    served, grouped = (tuple(program.run(["-", word, "low"], b"")) for word in ("serve", COMMAND))
    yield compared(f"{COMMAND} over a disk in memory", (3, b"", b"tsd: not an image: not-formatted\n"), grouped)
    yield compared(f"{COMMAND} over a disk in memory, as serve", served, grouped)


# --- over a mirror ---

MIRRORED = [OPEN, alloc(0, 2), *writes(3, 300), delete(0, 1), alloc(0), write(1, b"again" * 20), READ_ONE]


class GroupSides(Sides):
    """Two images as one disk that is served in groups: the first has these bytes, the second one is missing. The calls
    of one of them are recorded, and each take brings so many whole requests as the row says."""

    def __init__(self, recorder: Recorder, folder: Path, content: bytes, row: Row) -> None:
        super().__init__(recorder, folder, content)
        self.row = row

    def run(self, side: int, text: bytes, *faults: str) -> Recording:
        """A run over both; of the calls of this side these fail."""
        for path, content in zip(self.paths, (self.content, b"")):
            path.unlink(missing_ok=True)
            for mark in path.parent.glob(f"{path.name}.*"):
                mark.unlink()
            write_image(path, content)
        command = [str(word) for word in (self.recorder.program, "mirror", *self.paths, COMMAND, "low")]
        environment = self.recorder.environment(self.paths[side], [*self.row.faults(), *faults])
        done = subprocess.run(command, input=text, env=environment, timeout=MOST_SECONDS, capture_output=True)
        return Recording(done.returncode, done.stdout, done.stderr, self.recorder.events())


def mirror_row(together: int) -> Row:
    """A run over a mirror."""
    return Row(f"over a mirror, groups of {together}", 8, 1, 32, [], MIRRORED, together)


def standing_in(path: Path, course: Course, answered: int) -> bool:
    """Whether an image stands for the world after a prefix that holds this many requests."""
    return matching(read_image(path.read_bytes()), course.prefixes[answered:]) is not None


def both_result(sides: GroupSides, course: Course) -> Result:
    """Nothing fails: the answers, both files, and their worlds."""
    recording = sides.run(0, sides.row.text())
    if (recording.status, recording.out) != (0, course.out()):
        return failed(sides.row.name, f"{recording.status} {recording.out!r} {recording.error!r}")
    judge_turns(recording, course)
    for path in sides.paths:
        judge_file(path.read_bytes(), course)
    return compared(f"{sides.row.name}: both are alike", *map(without_end, sides.paths))


def stops_result(sides: GroupSides, course: Course, side: int) -> Result:
    """The run is killed before calls of one image. The first one stands for the world after a prefix that holds each
    request whose answer was sent; so does the second one where a byte was sent, since the copying is done then."""
    wrong, text = [], sides.row.text()
    stops = sides.stops(side, text)
    for number in stops:
        recording = sides.run(side, text, f"image:{number}:KILL")
        if recording.status != -signal.SIGKILL or not course.out().startswith(recording.out):
            wrong.append(f"before call {number}: {recording.status} {recording.out!r}")
        answered = course.whole_answers(len(recording.out))
        for path in sides.paths[:2 if recording.out else 1]:
            if not standing_in(path, course, answered):
                wrong.append(f"before call {number}, with {answered} answers sent: {path.name}")
    return of_tries(f"{sides.row.name}: killed before each call of side {side}", len(stops), wrong)


def torn_result(sides: GroupSides, course: Course, side: int) -> Result:
    """What a stop leaves of one image with all that is loose old, new or torn: of the second one from the first byte
    on that was sent."""
    recording = sides.run(side, sides.row.text())
    medium, count = Medium((sides.content, b"")[side]), 0
    for number, progress in moments(medium, recording.events):
        for choices in all_choices(medium) if side == 0 or progress.sent else ():
            judged(medium, choices, progress, course, number, recording)
            count += 1
    return passed(f"{sides.row.name}: {count} crashes of side {side}")


def faults_result(sides: GroupSides, course: Course, side: int) -> Result:
    """Each call of one image fails in turn, once or from there on: it is lost, all is answered, and the other image
    stands for the last world. Until the second image is a copy the run ends with nothing sent where the first fails."""
    wrong, tries, losses, text = [], 0, 0, sides.row.text()
    for word, is_again in sides.calls(side, text):
        for fault in (f"{word}:EIO", f"{word}+:EIO"):
            tries += 1
            recording = sides.run(side, text, fault)
            found = recording.status, recording.out
            if side == 0 and found == (4, b"") and losses == 0:
                is_right = standing_in(sides.paths[0], course, 0)
            else:
                is_done = found == (11, course.out()) or is_again and "+" not in fault and found == (0, course.out())
                is_right = is_done and standing_in(sides.paths[1 - side], course, len(course.prefixes) - 1)
                losses += found[0] == 11
            if not is_right:
                wrong.append(f"with {fault}: {found} {recording.error!r}")
    if not losses:
        wrong.append("the image was never lost")
    return of_tries(f"{sides.row.name}: each call of side {side} fails", tries, wrong)


def mirror_results(recorder: Recorder, context: Context, path: Path) -> Iterator[Result]:
    """Groups of one, of two, and as many requests as lie there, over two images as one disk."""
    for together in (1, 2, 0):
        row = mirror_row(together)
        sides, course = GroupSides(recorder, context.folder, made(recorder, path, row), row), row.course()
        try:
            yield both_result(sides, course)
            for side in (0, 1):
                yield torn_result(sides, course, side)
                if together != 1:
                    yield stops_result(sides, course, side)
                    yield faults_result(sides, course, side)
        except (Different, Unrecorded) as different:
            yield failed(row.name, str(different))


# --- want of memory ---


def frames_in(text: bytes) -> List[bytes]:
    """The bodies of the whole frames of a text."""
    bodies, at = [], 0
    while at + 2 <= len(text) and at + 2 + int.from_bytes(text[at:at + 2], "little") <= len(text):
        end = at + 2 + int.from_bytes(text[at:at + 2], "little")
        bodies.append(text[at + 2:end])
        at = end
    return bodies


def judge_short(out: bytes, status: int, disk: Disk, requests: Sequence[Request], path: Path) -> int:
    """A run in little memory: an OPEN may find none, and all else is answered as it then has to be; where the run ends
    for want of memory, what was answered is on the disk. How many OPENs found none."""
    bodies, without, worlds = frames_in(out), 0, [disk.world()]
    for request, body in zip(requests, bodies):
        if request.name == "open" and body == NO_MEMORY:
            without += 1
        elif reply_body(disk.apply(request)) != body:
            raise Different(f"{request} was answered by {body[:40].hex()}, behind {without} without memory")
        worlds.append(disk.world())
    if status == 0 and len(bodies) < len(requests) or b"".join(map(frame, bodies)) != out:
        raise Different(f"{len(bodies)} of {len(requests)} were answered, and it ended with {status}")
    for request in requests[len(bodies):]:
        disk.apply(request)
        worlds.append(disk.world())
    found = read_image(path.read_bytes())
    if matching(found, [Standing(world) for world in worlds[len(bodies):]]) is None:
        raise Different(f"with {status}: the file isn't where the answers say")
    return without


def memory_result(context: Context) -> Result:
    """Sessions are opened between writes in less and less memory."""
    name, program, path = "sessions in little memory", Program(context.program), context.folder / "little.img"
    if is_checked(program):
        return skipped(name, "this program was built with a checker of memory")
    program.run([path, *map(str, ("format", MANY_BLOCKS, 1, 64, 1, SEED.hex()))])
    content, without, runs = path.read_bytes(), 0, 0
    requests = [one for number in range(1, 65) for one in (Request("open", number), write(0, bytes([number]) * 300))]
    for amount in range(LEAST_MEMORY, MOST_MEMORY, MEMORY_STEP):
        path.write_bytes(content)
        run = program.run([path, COMMAND, "low"], text_of(requests, frames=True), lambda: limited(amount))
        runs += 1
        if run.status not in (0, 8):
            return failed(name, f"in {amount} bytes: {run.status} {run.error!r}")
        disk = Disk.formatted(MANY_BLOCKS, 1, 64, 1, SEED, "low")
        try:
            without += judge_short(run.out, run.status, disk, requests, path)
        except Different as different:
            return failed(name, f"in {amount} bytes: {different}")
    if not without:
        return failed(name, "each OPEN found memory, so nothing was tried")
    return passed(f"{name}: {runs} runs, {without} without memory")


def limited(amount: int) -> None:
    """For a child: it gets no more memory than this."""
    resource.setrlimit(resource.RLIMIT_AS, (amount, amount))


def run(context: Context) -> Iterator[Result]:
    """A result for each row."""
    if context.compiler is None:
        yield skipped("group commit", "no C compiler was found")
        return
    path = context.folder / "group.img"
    try:
        recorder = Recorder(context.program, context.compiler, context.folder)
        recorder.refuse_blindness(path)
    except NoRecorder as no_recorder:
        yield skipped("group commit", str(no_recorder))
        return
    for row in rows(context):
        yield row_result(recorder, path, row)
    yield from cost_results(recorder, path)
    yield from memory_results(context)
    yield from mirror_results(recorder, context, path)
    yield memory_result(context)

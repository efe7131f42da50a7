"""Each call of a run failing once, and each failing from a number on: writes, syncs and reads of the image, puts, and
takes of input, also takes of an input that comes in pieces.

After each: status and text are those of the fault; what was sent is a front of the answers, of whole answers where the
image's call failed; nothing more is written to the image; the file, and every image that a crash now leaves of it,
stands where a prefix of the requests leads that holds every answered one, and at most one more; and the next run goes
on from there. Calls that are short are gone on with. One that is interrupted is made again at once, as it was, and
changes nothing of the run: its other calls are those of a run without a fault. Before each take all requests that came
whole are answered.

A read of several sectors that fails once goes unseen: the sector that was asked for is then read alone.
"""

from __future__ import annotations

import errno
import os
import random
import time
from pathlib import Path
from typing import Callable, Dict, Iterator, List, NamedTuple, Sequence, Tuple

from crash_images import SECTOR, Choices, Medium, Progress, Unrecorded, moments, some_choices
from crash_requests import text_of
from disk_model import Disk, Request, World
from image_reader import Fault, is_settled, read_image
from judging import (
    NOT_FORMATTED, Course, Different, Standing, caps_of_seed, course_of_audit, course_of_check, course_of_format,
    course_of_load, course_of_requests, course_of_upgrade, course_of_verify, difference, judge_image, matching,
)
from parts import Context, Result, failed, passed, skipped
from recording import INPUT, PUT, READ, SYNC, WRITE, NoRecorder, Recorder, Recording
from rows import CHAIN_OF_40, POINTERS_32, Row, course_of_groups

NAME = "failing_calls"
READ_CAP, WRITE_CAP = b"\xaa" * 16, b"\xbb" * 16
CAPS = ((READ_CAP, WRITE_CAP),)
SEED = bytes(range(32))
IMAGES_OF_A_FAULT = 6
# No line of it is whole before the input ends, and so none is answered before.
CERTIFICATE = b"block 0 depth 0 parent -"
PIECE = 7
# A scene of many calls gets no more time than this.
MOST_SECONDS_OF_A_ROW = 40
# So many bytes of a write are done before it fails: in its first sector, or in its third where it has as many.
HALVES = (200, 1300)
KIND_WORDS = {WRITE: "write", SYNC: "sync", READ: "read", PUT: "put", INPUT: "input"}
FAULT_STATUS = {WRITE: 4, SYNC: 4, READ: 4, PUT: 6, INPUT: 5}
FAULT_TEXT = {4: b"tsd: device fault\n", 5: b"tsd: input fault\n", 6: b"tsd: output fault\n"}


class Scene(NamedTuple):
    """A run that is made again and again from one image: its words, its input, and its course. Each call of it is
    tried, or each so manyth where other scenes have the same calls. Of one whose calls only fail once there are many,
    which get a time; where that is over the rest is skipped."""

    name: str
    every: int
    image: bytes
    words: Tuple[object, ...]
    text: bytes
    course: Callable[[], Course]
    only_once: bool = False


class Trial(NamedTuple):
    """How one call misbehaves: its kind, its number, whether all later ones do so too, and how. With a piece, each take
    of the input is no longer than that."""

    kind: str
    number: int
    goes_on: bool
    action: str
    piece: int = 0

    def word(self) -> str:
        """The word for the recorder."""
        return f"{KIND_WORDS[self.kind]}:{self.number}{'+' if self.goes_on else ''}:{self.action}"

    def words(self) -> List[str]:
        """The words for the recorder; of those that fit a call the first acts."""
        return [self.word()] + ([f"input:1+:short={self.piece}"] if self.piece else [])


# --- scenes ----------------------------------------------------------------------------------------------------------


def busy_requests(read_cap: bytes, write_cap: bytes) -> List[Request]:
    """Requests of all kinds: a chain that goes, a cycle that is swept, enough batches for a checkpoint."""
    at_root = {"session": 1, "block": 0, "shown": write_cap}
    return [
        Request("open", 1),
        Request("alloc", count=2, **at_root),
        Request("write", data=b"root" * 100, **at_root),
        Request("list", 1, 0, read_cap),
        Request("alloc", 1, 3, count=1),
        Request("alloc", 1, 4, count=1),
        Request("write", 1, 4, data=b"leaf"),
        Request("delete", target=3, **at_root),
        Request("contig", count=2, **at_root),
        Request("create", 1, 3, target=4),
        Request("create", 1, 4, target=3),
        Request("delete", target=3, **at_root),
        Request("delete", target=4, **at_root),
        Request("sweep", 1, shown=write_cap),
        Request("setcap", 1, 0, write_cap, read_cap=b"\xcc" * 16, write_cap=b"\xdd" * 16),
        Request("free"),
    ]


def stopped_image(recorder: Recorder, image: Path) -> Tuple[bytes, World]:
    """An image with records in its journal and blocks that wait for their reclamation, as a kill left it."""
    chain = [Request("alloc", 1, block, WRITE_CAP, count=1) for block in range(5)]
    text = text_of([Request("open", 1), *chain, Request("delete", 1, 0, WRITE_CAP, target=1)], frames=False)
    words = ("fresh", 8, 1, READ_CAP.hex(), WRITE_CAP.hex(), "low")
    image.unlink(missing_ok=True)
    events = recorder.run(image, words, text).events
    replied = next(number for number, event in enumerate(events) if event.data == b"gone 5\n")
    calls = sum(event.kind in (READ, WRITE, SYNC) for event in events[:replied])
    image.unlink()
    recorder.run(image, words, text, (f"image:{calls + 3}:KILL",))
    data = image.read_bytes()
    world = read_image(data)
    if not isinstance(world, World) or not data[2 * SECTOR] or is_settled(data):
        raise Different("the image that was stopped has nothing to be done")
    return data, world


def row_scene(recorder: Recorder, path: Path, row: Row) -> Scene:
    """A row as a scene."""
    path.unlink(missing_ok=True)
    recorder.run(path, row.format_words())
    recorder.run(path, ("run", "low"), row.text_before())
    return Scene(row.name, 1, path.read_bytes(), row.words(), row.text(), row.course, only_once=True)


def scenes(recorder: Recorder, image: Path) -> List[Scene]:
    """All scenes."""
    data, world = stopped_image(recorder, image)
    before = [Standing(world, CAPS)]
    nothing = [Standing(NOT_FORMATTED)]
    requests = busy_requests(READ_CAP, WRITE_CAP)

    def disk() -> Disk:
        return Disk(world, "low")

    def fresh() -> Disk:
        return Disk.fresh(8, 2, READ_CAP, WRITE_CAP, "low")

    def formatted() -> Course:
        caps = caps_of_seed(SEED, 2)
        return course_of_format(nothing, Disk.formatted(8, 1, 32, 2, SEED), caps)

    fresh_words = ("fresh", 8, 2, READ_CAP.hex(), WRITE_CAP.hex(), "low")
    return [
        Scene("run", 1, data, ("run", "low"), text_of(requests, False),
              lambda: course_of_requests(before, disk(), CAPS, requests, False)),
        Scene("serve", 4, data, ("serve", "low"), text_of(requests[:8], True),
              lambda: course_of_requests(before, disk(), CAPS, requests[:8], True)),
        Scene("group", 2, data, ("group", "low"), text_of(requests, True),
              lambda: course_of_groups(before, disk(), CAPS, requests)),
        Scene("fresh", 1, b"", fresh_words, text_of(requests[:3], False),
              lambda: course_of_requests(nothing, fresh(), CAPS, requests[:3], False, formats=True)),
        Scene("format", 1, b"", ("format", 8, 1, 32, 2, SEED.hex()), b"", formatted),
        Scene("check", 2, data, ("check",), b"", lambda: course_of_check(before, disk(), CAPS)),
        Scene("upgrade", 4, data, ("upgrade",), b"", lambda: course_of_upgrade(before, disk(), CAPS)),
        Scene("audit", 2, data, ("audit",), b"", lambda: course_of_audit(before, disk(), CAPS)),
        Scene("verify", 2, data, ("verify",), CERTIFICATE, lambda: course_of_verify(before, disk(), CAPS, CERTIFICATE)),
        Scene("load", 4, data, ("load", SEED.hex(), 20, "low"), b"",
              lambda: course_of_load(before, disk(), CAPS, SEED, 20)),
        row_scene(recorder, image, CHAIN_OF_40),
        row_scene(recorder, image, POINTERS_32),
    ]


def trials(recording: Recording, kind: str, scene: Scene) -> Dict[str, List[Trial]]:
    """The trials of one kind of call, in groups by what they do."""
    count = sum(event.kind == kind for event in recording.events)
    numbers = range(1, count + 1, scene.every)
    causes = ("EIO", "ENOSPC") if kind == WRITE else ("EIO",)
    groups = {"fails": [Trial(kind, number, False, causes[number % len(causes)]) for number in numbers]}
    if scene.only_once:
        return groups
    groups["fails from there on"] = [Trial(kind, number, True, causes[number % len(causes)]) for number in numbers]
    some = numbers[::3]
    if kind == WRITE:
        groups["fails half done"] = [Trial(kind, number, False, f"EIO@{done}") for number in some for done in HALVES]
    if kind in (WRITE, READ, PUT, INPUT):
        groups["is short"] = [Trial(kind, number, False, "short=1") for number in some]
    groups["is interrupted"] = [Trial(kind, number, False, "EINTR") for number in some]
    if kind == PUT and count:
        groups["sends a byte each time"] = [Trial(kind, 1, True, "short=1")]
    if kind == INPUT and count:
        groups.update(piece_trials(scene))
    return groups


def piece_trials(scene: Scene) -> Dict[str, List[Trial]]:
    """The trials of an input that comes in pieces: each take short, and each one failing behind short ones, the take at
    the end of the input too."""
    takes = -(-len(scene.text) // PIECE) + 1
    return {
        "brings a few bytes each time": [Trial(INPUT, 1, True, f"short={size}") for size in range(1, PIECE + 3)],
        "fails in mid-line": [Trial(INPUT, take, False, "EIO", PIECE) for take in range(1, takes + 1, scene.every)],
    }


# --- one trial -------------------------------------------------------------------------------------------------------


class Trying:
    """The file of one trial, and how it is judged."""

    def __init__(self, recorder: Recorder, path: Path, scene: Scene, trial: Trial, plain: Recording) -> None:
        self.recorder = recorder
        self.path = path
        self.scene = scene
        self.trial = trial
        self.plain = plain
        self.course = scene.course()
        self.numbers = random.Random(f"{scene.name}/{trial.word()}")

    def go(self) -> None:
        """One run in which the call misbehaves, and all that is asked of it; raises Different."""
        self.path.unlink(missing_ok=True)
        if self.scene.image:
            self.path.write_bytes(self.scene.image)
            self.path.chmod(0o600)
        recording = self.recorder.run(self.path, self.scene.words, self.scene.text, self.trial.words())
        self.judge_status(recording)
        self.judge_sent(recording)
        self.judge_turns(recording)
        self.judge_calls(recording)
        self.go_on(self.judge_images(recording))

    def statuses(self, recording: Recording) -> Sequence[int]:
        """With which statuses the run may end."""
        trial = self.trial
        fault = FAULT_STATUS[trial.kind]
        if trial.action.startswith("short") or trial.action == "EINTR":
            return (0,)
        if trial.kind == READ:
            number = [at for at, event in enumerate(recording.events) if event.kind == READ][trial.number - 1]
            several = recording.events[number].length > SECTOR
            return (0,) if several and not trial.goes_on else (fault,)
        return (fault,)

    def judge_status(self, recording: Recording) -> None:
        """The status, its text on standard error, and the lines behind it."""
        statuses = self.statuses(recording)
        lines = recording.error.splitlines(keepends=True)
        is_right = recording.status in statuses and b"".join(lines[:1]) == FAULT_TEXT.get(recording.status, b"")
        if not is_right or not self.are_causes(recording.status, lines[1:]):
            raise Different(f"status {recording.status} with {recording.error!r}, where {statuses} is right")

    def are_causes(self, status: int, lines: Sequence[bytes]) -> bool:
        """Whether these lines say why: one in the system's words, which begins with the image or the stream, and after
        a write or a sync one that says how to have the system forget what it shows."""
        if status == 0:
            return not lines
        cause = os.strerror(getattr(errno, self.trial.action.split("@")[0])).encode()
        name = {4: os.fsencode(self.path), 5: b"standard input", 6: b"standard output"}[status]
        is_told = bool(lines) and lines[0].startswith(b"tsd: %s: %s" % (name, cause))
        if self.trial.kind not in (WRITE, SYNC):
            return is_told and len(lines) == 1
        command = b"dd if=%s iflag=nocache count=0" % name
        return is_told and len(lines) == 2 and lines[1].startswith(b"tsd: %s: " % name) and command in lines[1]

    def judge_sent(self, recording: Recording) -> None:
        """What was sent: all, whole answers, the answers to what was taken, or a front."""
        wanted, sent = self.course.out(), recording.out
        whole = self.course.answers[:self.course.whole_answers(len(sent))]
        if recording.status == 0:
            right = sent == wanted
        elif recording.status == 4:
            right = sent == b"".join(whole)
        elif recording.status == 5:
            taken = sum(event.answer for event in recording.events if event.kind == INPUT and not event.error)
            right = sent == b"".join(self.course.answers[:self.requests_in(taken)])
        else:
            right = wanted.startswith(sent) and len(sent) < len(wanted)
        if not right:
            raise Different(f"{recording.status}: {sent!r} was sent, of {wanted!r}")

    def judge_turns(self, recording: Recording) -> None:
        """Before each take, whole requests that came are answered."""
        taken = sent = 0
        for number, event in enumerate(recording.events):
            if event.kind == PUT:
                sent += max(event.answer, 0)
            if event.kind == INPUT:
                wanted = len(b"".join(self.course.answers[:self.requests_in(taken)]))
                if sent < wanted:
                    raise Different(f"at call {number + 1}, a take, {sent} bytes were sent, and not yet all {wanted}")
                taken += max(event.answer, 0)

    def requests_in(self, taken: int) -> int:
        """How many whole requests stand in so many bytes of the input."""
        text = self.scene.text[:taken]
        if self.scene.words[0] not in ("serve", "group"):
            return text.count(b"\n")
        count = at = 0
        while at + 2 <= len(text) and at + 2 + int.from_bytes(text[at:at + 2], "little") <= len(text):
            at += 2 + int.from_bytes(text[at:at + 2], "little")
            count += 1
        return count

    def judge_calls(self, recording: Recording) -> None:
        """After a call of the image that failed comes no write, sync or put; one that is interrupted is made again."""
        if self.trial.action == "EINTR":
            self.judge_interrupted(recording)
            return
        failures = [number for number, event in enumerate(recording.events)
                    if event.kind in (WRITE, SYNC) and event.error]
        if failures:
            later = [event.named() for event in recording.events[failures[0] + 1:] if event.kind in (WRITE, SYNC, PUT)]
            if later:
                raise Different(f"after the call that failed came {later}")

    def judge_interrupted(self, recording: Recording) -> None:
        """The calls are those of a run without a fault, and before one of them the same that was interrupted."""
        trial, plain, events = self.trial, self.plain.events, recording.events
        at = [number for number, event in enumerate(plain) if event.kind == trial.kind][trial.number - 1]
        interrupted = plain[at]._replace(error=errno.EINTR, answer=-1)
        wanted = [*plain[:at], interrupted, *plain[at:]]
        if events != wanted:
            first = next((number for number, pair in enumerate(zip(events, wanted)) if pair[0] != pair[1]), len(wanted))
            told = [event.named() for event in events[first:first + 2]]
            raise Different(f"of the calls the one at {first}, interrupted at {at}, and the next are {told}")

    def judge_images(self, recording: Recording) -> Standing:
        """The file, and images that a crash leaves now; where the file stands."""
        medium, progress = Medium(self.scene.image), Progress()
        for _, progress in moments(medium, recording.events):
            pass
        data = self.path.read_bytes() if self.path.exists() else b""
        medium.compare(data)
        plain: Choices = {}
        for number in range(IMAGES_OF_A_FAULT):
            judge_image(medium, some_choices(self.numbers, medium) if number else plain, progress, self.course)
        allowed = self.course.allowed(progress)
        standing = matching(read_image(data), allowed)
        if standing is None:
            raise Different(f"the file: {difference(read_image(data), allowed)}")
        return standing

    def go_on(self, standing: Standing) -> None:
        """The next run finds the disk there and goes on."""
        if isinstance(standing.outcome, Fault):
            wanted = (3, standing.outcome.line.encode() + b"\n")
            words, text = ("check",), b""
        else:
            disk = Disk(standing.outcome, "low")
            requests = busy_requests(*standing.caps[0])
            wanted = (0, course_of_requests([], disk, standing.caps, requests, False).out())
            words, text = ("run", "low"), text_of(requests, False)
        recording = self.recorder.run(self.path, words, text)
        if (recording.status, recording.out) != wanted:
            raise Different(f"the next run: {recording.status} {recording.out!r} {recording.error!r}, not {wanted}")
        if not isinstance(standing.outcome, Fault) and read_image(self.path.read_bytes()) != disk.world():
            raise Different("the next run left another world than that of its requests")


def in_turns(group: Sequence[Trial]) -> List[Trial]:
    """The trials in an order whose front is spread over all of them."""
    return [trial for first in range(8) for trial in group[first::8]]


def one_group(
    recorder: Recorder, path: Path, scene: Scene, plain: Recording, name: str, group: Sequence[Trial], end: float
) -> Result:
    """All trials of a group, or those for which there is time."""
    differences, tried = [], 0
    for trial in in_turns(group):
        if scene.only_once and time.monotonic() > end:
            break
        tried += 1
        try:
            Trying(recorder, path, scene, trial, plain).go()
        except (Different, Unrecorded) as different:
            differences.append(f"with {', '.join(trial.words())}: {different}")
    kind = KIND_WORDS[group[0].kind]
    if differences:
        return failed(f"{scene.name}: a {kind} {name}: {len(differences)} of {tried}", "\n".join(differences[:5]))
    if tried < len(group):
        return skipped(f"{scene.name}: a {kind} {name}", f"{tried} of {len(group)} were tried, then the time was over")
    return passed(f"{scene.name}: a {kind} {name}: each of {len(group)}")


def scene_results(recorder: Recorder, path: Path, scene: Scene) -> Iterator[Result]:
    """All groups of a scene."""
    path.unlink(missing_ok=True)
    if scene.image:
        path.write_bytes(scene.image)
        path.chmod(0o600)
    end = time.monotonic() + MOST_SECONDS_OF_A_ROW
    plain = recorder.run(path, scene.words, scene.text)
    if (plain.status, plain.out, plain.error) != (0, scene.course().out(), b""):
        yield failed(scene.name, f"without a fault it gave {plain.status} {plain.out!r} {plain.error!r}")
        return
    groups = [one for kind in KIND_WORDS for one in trials(plain, kind, scene).items() if one[1]]
    if scene.only_once:
        groups.sort(key=lambda one: len(one[1]))
    for name, group in groups:
        yield one_group(recorder, path, scene, plain, name, group, end)


def run(context: Context) -> Iterator[Result]:
    """All groups of all scenes."""
    if context.compiler is None:
        yield skipped("failing calls", "no C compiler was found")
        return
    path = context.folder / "failing.img"
    try:
        recorder = Recorder(context.program, context.compiler, context.folder)
        recorder.refuse_blindness(path)
    except NoRecorder as no_recorder:
        yield skipped("failing calls", str(no_recorder))
        return
    for scene in scenes(recorder, path):
        yield from scene_results(recorder, path, scene)

"""Two images as one disk (`mirror`): the script of a run over two real files, one of which fails at a size that its
system allows no file to pass, at each of its calls in turn, or can't be opened; runs that are killed before each call,
and what a stop leaves of either image; which image holds what was answered then; and words that are refused. Expected
values come from `tsd help mirror` and README."""

from __future__ import annotations

import os
import random
import resource
import signal
import subprocess
from pathlib import Path
from typing import Callable, Iterator, List, Sequence, Tuple

from crash_images import Medium, moments
from crash_images import told as told_choices
from file_faults import outcomes
from parts import Context, Result, compared, failed, passed, skipped
from program import Program, Run, write_image
from recording import MOST_SECONDS, READ, SYNC, WRITE, NoRecorder, Recorder, Recording

NAME = "mirror"
R, W = "aa" * 16, "bb" * 16
FRESH = ["fresh", "8", "1", R, W, "near"]
WRITE_ONE = f"open 1\nwrite 1 0 {W} 01\n".encode()
READ_ONE = f"open 1\nread 1 0 {R}\n".encode()
SECTOR = 512
# What stands behind the name of an image in that of its mark.
MARK = ".went-on-alone"
CHECKED = b"clean 1 7 0\n"
SCRIPTS: Sequence[tuple] = (
    (["run", "near"], READ_ONE, b"ok\ndata 01\n"),
    (["check"], b"", CHECKED),
    (["serve", "near"], b"\x01\x00\x07", None),
    (["upgrade"], b"", b"version 2\n"),
    (["run", "near"], READ_ONE, b"ok\ndata 01\n"),
)


def without_end(image: Path) -> bytes:
    """The bytes of an image up to the last that isn't zero: behind its end a file reads as zeros."""
    return image.read_bytes().rstrip(b"\0")


def differing(one: bytes, two: bytes) -> int:
    """In how many sectors these differ: behind its end a file reads as zeros."""
    length = -(-max(len(one), len(two)) // SECTOR) * SECTOR
    one, two = one.ljust(length, b"\0"), two.ljust(length, b"\0")
    return sum(one[at:at + SECTOR] != two[at:at + SECTOR] for at in range(0, length, SECTOR))


def at_most(count: int) -> Callable[[], None]:
    """No file of the child may be longer than this; a write past it fails, and no signal ends the child."""
    def limit() -> None:
        signal.signal(signal.SIGXFSZ, signal.SIG_IGN)
        resource.setrlimit(resource.RLIMIT_FSIZE, (count, count))
    return limit


def told(run: Run) -> List[bytes]:
    """The lines on standard error without the system's words, which stand behind the last colon."""
    lines = run.error.splitlines()
    return [line if line.startswith(b"tsd: side lost") else line.rpartition(b": ")[0] for line in lines]


def both_results(folder: Path, program: Program) -> Iterator[Result]:
    """Nothing fails: both images are alike after each command, and each of them is the disk."""
    one, two = folder / "one.img", folder / "two.img"
    run = program.run(["mirror", one, two, *FRESH], WRITE_ONE)
    yield compared("fresh over a mirror", (0, b"ok\nok\n", b""), tuple(run))
    yield compared("fresh leaves two alike", without_end(one), without_end(two))
    modes = (one.stat().st_mode % 0o1000, two.stat().st_mode % 0o1000)
    yield compared("both are for their owner alone", (0o600, 0o600), modes)
    for words, text, wanted in SCRIPTS:
        run = program.run(["mirror", one, two, *words], text)
        name = f"{' '.join(words)} over a mirror"
        yield compared(name, (0, b""), (run.status, run.error))
        if wanted is not None:
            yield compared(f"what {name} sends", wanted, run.out)
        yield compared(f"{name} leaves two alike", without_end(one), without_end(two))
    for image in (one, two):
        run = program.run([image, "run", "near"], READ_ONE)
        yield compared(f"{image.name} alone", (0, b"ok\ndata 01\n", b""), tuple(run))


def copied_results(folder: Path, program: Program) -> Iterator[Result]:
    """A missing second image is made, one that differs becomes a copy, and a missing first one isn't made by `run`."""
    one, two = folder / "from.img", folder / "to.img"
    program.run([one, *FRESH], WRITE_ONE)
    before = one.read_bytes()
    for name, content in (("missing", None), ("longer", b"\x07" * (2 * len(before))), ("shorter", before[:700])):
        two.unlink(missing_ok=True)
        if content is not None:
            two.touch(mode=0o600)
            two.write_bytes(content)
        wanted = f"tsd: {two}: {differing(before, content or b'')} sectors were copied to it from {one}\n".encode()
        run = program.run(["--overwrite", "mirror", one, two, "run", "near"], READ_ONE)
        yield compared(f"over a second image that is {name}", (0, b"ok\ndata 01\n", wanted), tuple(run))
        yield compared(f"it becomes a copy, {name}", without_end(one), without_end(two))
    one.unlink()
    two.unlink()
    run = program.run(["mirror", one, two, "run", "near"], READ_ONE)
    yield compared("over a missing first image", (4, b""), (run.status, run.out))
    yield compared("it makes neither", (False, False), (one.exists(), two.exists()))


def lost_results(folder: Path, program: Program) -> Iterator[Result]:
    """One image can't be written, or not opened: it is told at once, the run goes on, and the other one has all."""
    one, two = folder / "first.img", folder / "second.img"
    program.run([one, *FRESH], b"")
    two.mkdir()
    run = program.run(["mirror", one, two, "run", "near"], WRITE_ONE)
    yield compared("a second image that is no file", (11, b"ok\nok\n"), (run.status, run.out))
    yield compared("what is told of it", [b"tsd: " + os.fsencode(two), b"tsd: side lost, second"], told(run))
    yield compared("the first one has it", b"ok\ndata 01\n", program.run([one, "run", "near"], READ_ONE).out)
    two.rmdir()
    run = program.run(["mirror", one, two, "run", "near"], READ_ONE, at_most(100 * SECTOR))
    yield compared("a second image that is full while it is copied", (11, b"ok\ndata 01\n"), (run.status, run.out))
    yield compared("the side that is lost is told", b"tsd: side lost, second", run.error.splitlines()[-1])
    wanted = f"tsd: {two}: {differing(one.read_bytes(), two.read_bytes())} sectors were copied to it from {one}\n"
    run = program.run(["mirror", one, two, "run", "near"], READ_ONE)
    yield compared("brought back in the next run", (0, b"ok\ndata 01\n", wanted.encode()), tuple(run))
    yield compared("both are alike again", without_end(one), without_end(two))
    run = program.run(["mirror", one, two, *FRESH], b"", at_most(3 * SECTOR))
    yield compared("both are full", (4, b""), (run.status, run.out))
    yield compared("a device fault is told", b"tsd: device fault", run.error.splitlines()[-1])


# What is changed in an image that a write was answered on: the byte's offset, what it becomes, and what `check` says.
BITMAP = 135
CHANGES: Sequence[Tuple[str, int, int, bytes]] = (
    ("its format gate closed", 1 * SECTOR, 0, b"not-formatted\n"),
    ("another magic", 0, 0, b"header magic\n"),
    ("block 1 live with a count of 1", 134 * SECTOR + 4, 1, b"damaged count 1 1 0\n"),
    ("a primary block that isn't live", BITMAP * SECTOR, 0, b"damaged primary 0\n"),
)
OPENING: Sequence[Sequence[str]] = (
    ["run", "near"], ["serve", "near"], ["check"], ["info"], ["upgrade"], ["audit"], ["verify"],
    ["load", "00" * 32, "5", "near"],
    ["shell", "inode", "0", W, "near"], ["files", "chain", "0", W, "near"],
    ["copyfs", "inode", "0", W, "chain", "0", W, "near"],
)


def with_record(disk: bytes, home: int, body: bytes) -> bytes:
    """A disk with an open record of the journal, which holds what one sector is to be."""
    changed = bytearray(disk.ljust((home + 1) * SECTOR, b"\0"))
    changed[2 * SECTOR:4 * SECTOR] = bytes(2 * SECTOR)
    changed[2 * SECTOR] = 1
    changed[3 * SECTOR:3 * SECTOR + 8] = (1).to_bytes(4, "little") + home.to_bytes(4, "little")
    changed[4 * SECTOR:5 * SECTOR] = body
    return bytes(changed)


def tested_results(folder: Path, program: Program) -> Iterator[Result]:
    """A first image that stands for no world is refused before the copying: the second one, a good disk, is as it was
    to the byte, and so is the first. `check` and `info` say what is wrong with the first one, the others nothing. An
    open record of the journal is no fault of its own: what it holds is tested in its place."""
    one, two = folder / "bad.img", folder / "good.img"
    program.run([two, *FRESH], WRITE_ONE)
    good = two.read_bytes()
    bad: List[Tuple[str, bytes, bytes]] = [
        ("an empty file", b"", b"not-formatted\n"),
        ("random bytes", random.Random(58).randbytes(len(good)), b"not-formatted\n"),
    ]
    for name, at, value, line in CHANGES:
        changed = bytearray(good.ljust(max(len(good), at + 1), b"\0"))
        changed[at] = value
        bad.append((name, bytes(changed), line))
    bitmap = good[BITMAP * SECTOR:(BITMAP + 1) * SECTOR].ljust(SECTOR, b"\0")
    bad += [
        ("an open record that frees the primary block", with_record(good, BITMAP, bytes(SECTOR)),
         b"damaged primary 0\n"),
        ("an open record over the header", with_record(good, 0, bytes(SECTOR)), b"header magic\n"),
        ("an open record whose home is the journal's own", with_record(good, 3, bytes(SECTOR)),
         b"damaged descriptor\n"),
    ]
    for name, content, line in bad:
        for words in OPENING:
            write_image(one, content)
            write_image(two, good)
            run = program.run(["mirror", one, two, *words], b"")
            said = line if words in (["check"], ["info"]) else b""
            told_last = b"tsd: not an image: " + line.rstrip()
            yield compared(f"{words[0]}, the first image {name}", (3, said, [told_last]),
                           (run.status, run.out, run.error.splitlines()[-1:]))
            kept = two.read_bytes() == good, one.read_bytes() == content
            yield compared(f"{words[0]}, the first image {name}: the second and the first as they were", (True, True),
                           kept)
    write_image(one, good)
    write_image(two, b"")
    run = program.run(["mirror", one, two, "check"], b"")
    yield compared("a good first image is copied as ever", (0, CHECKED, True),
                   (run.status, run.out, without_end(two) == without_end(one)))
    changed = bytearray(good.ljust((BITMAP + 1) * SECTOR, b"\0"))
    changed[BITMAP * SECTOR:(BITMAP + 1) * SECTOR] = bytes(SECTOR)
    write_image(one, with_record(bytes(changed), BITMAP, bitmap))
    write_image(two, b"")
    run = program.run(["mirror", one, two, "check"], b"")
    yield compared("a first image that an open record makes good is copied", (0, CHECKED, True),
                   (run.status, run.out, without_end(two) == without_end(one)))


def refused_results(folder: Path, program: Program) -> Iterator[Result]:
    """Words that are no command, and one file given twice: nothing is made or written."""
    one, link, hard = folder / "same.img", folder / "link.img", folder / "hard.img"
    program.run([one, *FRESH], WRITE_ONE)
    link.symlink_to(one)
    hard.hardlink_to(one) if hasattr(hard, "hardlink_to") else os.link(one, hard)
    before = one.read_bytes()
    for other in (one, link, hard, folder / "." / "same.img"):
        run = program.run(["mirror", one, other, *FRESH], b"")
        found = (run.status, run.out, run.error.splitlines()[0])
        yield compared(f"one file as {other.name} too", (2, b"", b"tsd: usage"), found)
    yield compared("nothing was written", before, one.read_bytes())
    new = folder / "new.img"
    run = program.run(["mirror", new, folder / "." / "new.img", *FRESH], b"")
    yield compared("one missing file twice", (2, False), (run.status, new.exists()))
    fresh_of_seven = [new, one, "fresh", "7", "1", R, W, "near"]
    for words in ([], [new], [new, one], [new, one, "ran"], [new, one, "run"], fresh_of_seven):
        run = program.run(["mirror", *words], b"")
        yield compared(f"{len(words)} words behind mirror", (2, b"", False), (run.status, run.out, new.exists()))


# --- each call of one image in turn ---

CHAIN = f"open 1\nalloc 1 0 {W} - 1\nalloc 1 1 - - 1\nalloc 1 2 - - 1\n".encode()
DELETE = f"open 1\ndelete 1 0 {W} 1\n".encode()
KIND_WORDS = {READ: "read", WRITE: "write", SYNC: "sync"}
# Of the many calls of the opening and the copying so manyth are tried; each of the last ones is. So often an image is
# lost at least: the second one has few calls, since rows of sectors are copied to it by one call each.
EVERY, LAST, LEAST_LOST = 23, 40, 36


class Sides:
    """Two images as one disk, of which the first one has these bytes and the second one is missing; the calls of one of
    them are recorded."""

    def __init__(self, recorder: Recorder, folder: Path, content: bytes) -> None:
        self.recorder = recorder
        self.paths = folder / "recorded_one.img", folder / "recorded_two.img"
        self.content = content

    def run(self, side: int, text: bytes, *faults: str) -> Recording:
        """A run over both; of the calls of this side these fail. A side that isn't there can't be recorded, so the
        second one is made first, empty."""
        for path, content in zip(self.paths, (self.content, b"")):
            path.unlink(missing_ok=True)
            path.with_name(path.name + MARK).unlink(missing_ok=True)
            write_image(path, content)
        command = [str(word) for word in (self.recorder.program, "mirror", *self.paths, "run", "near")]
        done = subprocess.run(command, input=text, env=self.recorder.environment(self.paths[side], faults),
                              timeout=MOST_SECONDS, capture_output=True)
        return Recording(done.returncode, done.stdout, done.stderr, self.recorder.events())

    def calls(self, side: int, text: bytes) -> List[Tuple[str, bool]]:
        """The words of its calls that are tried, each with whether it is made again where it fails: so goes a read of
        several sectors, for the one that was asked for, and a read of the tests of the first image, which come before
        its first sync, by the copying. A read of one sector alone is not."""
        events = [event for event in self.run(side, text).events if event.kind in KIND_WORDS]
        begun = next((at for at, event in enumerate(events) if event.kind == SYNC), 0) if side == 0 else 0
        copying = next((at for at, event in enumerate(events) if event.kind == READ and at >= begun), 0)
        words = []
        for at, event in enumerate(events):
            number = sum(other.kind == event.kind for other in events[:at + 1])
            if len(events) - at <= LAST or at % EVERY < 2:
                is_again = event.kind == READ and (event.length > SECTOR or at < copying)
                words.append((f"{KIND_WORDS[event.kind]}:{number}", is_again))
        return words

    def stops(self, side: int, text: bytes) -> List[int]:
        """The numbers of the calls before which it is killed."""
        count = sum(event.kind in KIND_WORDS for event in self.run(side, text).events)
        return [number for number in range(1, count + 1) if count - number < LAST or number % EVERY < 2]


def each_fault_result(sides: Sides, program: Program, side: int, name: str) -> Result:
    """Each call of one image fails in turn, once or from there on: that image is lost, and the other one has the write
    that was answered. Until the second image is a copy the first one can't be lost: the run ends, with nothing sent."""
    wrong, tries, losses = [], 0, 0
    one, two = sides.paths
    copied = f"tsd: {two}: {differing(sides.content, b'')} sectors were copied to it from {one}".encode()
    for word, is_again in sides.calls(side, WRITE_ONE):
        for fault in (f"{word}:EIO", f"{word}+:EIO"):
            tries += 1
            recording = sides.run(side, WRITE_ONE, fault)
            found = (recording.status, recording.out, recording.error.splitlines()[-1:])
            ends = [(11, b"ok\nok\n", [b"tsd: side lost, " + (b"first", b"second")[side]])]
            if is_again and "+" not in fault:
                ends = [(0, b"ok\nok\n", [copied])]
            if side == 0 and found == (4, b"", [b"tsd: device fault"]):
                read = program.run([sides.paths[0], "check"]).out
                is_right = read == CHECKED and losses == 0
            else:
                read = program.run([sides.paths[1 - side], "run", "near"], READ_ONE).out
                is_right = read == b"ok\ndata 01\n" and found in ends
                losses += found[0] == 11
            if not is_right:
                wrong.append(f"with {fault}: {found}, and then {read!r}")
    if losses < LEAST_LOST:
        wrong.append(f"the image was lost {losses} times")
    return of_tries(f"each call of the {name} image fails", tries, wrong)


def each_stop_result(sides: Sides, program: Program, side: int, name: str) -> Result:
    """The run is killed before each call of one image: the first image opens with the chain of three blocks, or without
    it, and without it where that was answered. So does the second one once it is a copy: where a reply was sent."""
    wrong, tries = [], 0
    for number in sides.stops(side, DELETE):
        tries += 1
        recording = sides.run(side, DELETE, f"image:{number}:KILL")
        if recording.status != -signal.SIGKILL:
            wrong.append(f"before call {number}: it ended with {recording.status}")
        allowed = [b"free 7\n"] if recording.out.endswith(b"gone 3\n") else [b"free 4\n", b"free 7\n"]
        for path in sides.paths[:2 if recording.out else 1]:
            found = program.run([path, "run", "near"], b"free\n")
            if found.status != 0 or found.out not in allowed:
                wrong.append(f"before call {number}, {recording.out!r} sent: {path.name} has {tuple(found)}")
    return of_tries(f"a deletion is killed before each call of the {name} image", tries, wrong)


def torn_result(sides: Sides, program: Program, side: int, name: str) -> Result:
    """What a stop leaves of one image, with all that is loose old, new or torn: the same, from the first reply on."""
    wrong, tries, alone = [], 0, sides.paths[side]
    recording = sides.run(side, DELETE)
    medium = Medium((sides.content, b"")[side])
    for number, progress in moments(medium, recording.events):
        allowed = [b"free 7\n"] if progress.sent > len(b"ok\n") else [b"free 4\n", b"free 7\n"]
        for choices in outcomes(medium) if progress.sent else ():
            tries += 1
            write_image(alone, medium.image(choices))
            found = program.run([alone, "run", "near"], b"free\n")
            if found.status != 0 or found.out not in allowed:
                wrong.append(f"stopped at call {number + 1}, {told_choices(choices)}: {tuple(found)}")
    return of_tries(f"what a stop in a deletion leaves of the {name} image", tries, wrong)


def of_tries(name: str, tries: int, wrong: Sequence[str]) -> Result:
    """Passed where nothing is wrong."""
    if wrong or not tries:
        return failed(f"{name}: {len(wrong)} of {tries}", "\n".join(wrong[:5]))
    return passed(f"{name}: {tries}")


def call_results(context: Context, program: Program) -> Iterator[Result]:
    """All of these, for each of the two images."""
    if context.compiler is None:
        yield skipped("failing calls of a mirror", "no C compiler was found")
        return
    try:
        recorder = Recorder(context.program, context.compiler, context.folder)
        recorder.refuse_blindness(context.folder / "seen.img")
    except NoRecorder as no_recorder:
        yield skipped("failing calls of a mirror", str(no_recorder))
        return
    image = context.folder / "before.img"
    program.run([image, *FRESH])
    empty = image.read_bytes()
    program.run([image, "run", "near"], CHAIN)
    chained = image.read_bytes()
    for side, name in enumerate(("first", "second")):
        yield each_fault_result(Sides(recorder, context.folder, empty), program, side, name)
        yield each_stop_result(Sides(recorder, context.folder, chained), program, side, name)
        yield torn_result(Sides(recorder, context.folder, chained), program, side, name)


def run(context: Context) -> Iterator[Result]:
    """A result for each thing that was tried."""
    program = Program(context.program)
    for results in (both_results, copied_results, lost_results, tested_results, refused_results):
        folder = context.folder / results.__name__
        folder.mkdir()
        yield from results(folder, program)
    yield from call_results(context, program)

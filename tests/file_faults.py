"""Changes of the shell at each call of the image: the call fails, once or from there on, or the machine stops there
with all that is loose old, new, or torn.

After each the next run of the program mounts the image. It shows the tree before the change or the one after it: the
one before until a call of the change was made, and the one after once the change was answered. What the trees show is
written down here from docs/FILES.md; nothing of it was made by the program.
"""

from __future__ import annotations

import errno
import os
from pathlib import Path
from typing import Dict, Iterator, List, NamedTuple, Sequence, Set, Tuple

from crash_images import SECTOR, Choice, Choices, Medium, moments
from file_rows import OK, USAGE, R, W, last_write, letters, text_of
from file_text import CHAIN, INODE
from judging import Different
from parts import Context, Result, failed, passed, skipped
from program import Program, write_image
from recording import PUT, READ, SYNC, WRITE, NoRecorder, Recorder, Recording

NAME = "file_faults"
# The device's status, and what stands before the image and the cause.
FAULT, FAULT_TEXT = 4, b"tsd: device fault\ntsd: "
KIND_WORDS = {WRITE: "write", SYNC: "sync", READ: "read"}
# All bytes of a torn sector are this one.
TORN_BYTES = (0, 1, 255)
MOST_SHOWN = 5

Shown = Tuple[str, str]


class Change(NamedTuple):
    """A line over one layout, the lines before it, each of which is answered by `ok`, two lines that look at the tree,
    and their answers before it and after it."""

    kind: str
    first: Sequence[str]
    line: str
    looks: Shown
    old: Shown
    new: Shown

    def before(self) -> bytes:
        """What is sent before the change's own answer."""
        return text_of(OK * len(self.first))


# Of 32 blocks the two files take two each and the directory one, with the root. The blocks of the file that is removed
# are still to be reclaimed when the change begins.
OVER_INODES = ["mkfs", "put /a 6869", "put /b 7a", "mkdir /d", f"put /c {letters(1000)}", "rm /c"]
# The two files take one block each.
OVER_CHAINS = ["mkfs", "put /a 6869", "put /b 7a", f"put /c {letters(1000)}", "rm /c"]
# The root takes no name more, so that the directory gets a further cluster.
FULL_NAMES = "abcdefghijklmno"
OVER_FULL = ["mkfs"] + [f"put /{name} -" for name in FULL_NAMES]
ALL_FULL = " ".join(("names", *FULL_NAMES))

CHANGES = (
    Change(INODE, OVER_INODES, "put /a 21", ("cat /a", "df"), ("data 6869", "free 26"), ("data 21", "free 26")),
    Change(INODE, OVER_INODES, f"append /a {letters(600)}", ("cat /a", "df"),
           ("data 6869", "free 26"), (f"data 6869{letters(600)}", "free 25")),
    Change(INODE, OVER_INODES, "put /d/c 21", ("ls /d", "df"), ("names -", "free 26"), ("names c", "free 24")),
    Change(INODE, OVER_INODES, "cp /a /d/c", ("ls /d", "df"), ("names -", "free 26"), ("names c", "free 25")),
    Change(INODE, OVER_INODES, "mkdir /d/e", ("ls /d", "df"), ("names -", "free 26"), ("names e", "free 25")),
    Change(INODE, OVER_INODES, "rm /a", ("ls /", "df"), ("names a b d", "free 26"), ("names b d", "free 28")),
    Change(INODE, OVER_INODES, "rm /d", ("ls /", "df"), ("names a b d", "free 26"), ("names a b", "free 27")),
    Change(INODE, OVER_INODES, "mkfs", ("ls /", "df"), ("names a b d", "free 26"), ("names -", "free 31")),
    Change(CHAIN, OVER_CHAINS, "put /a 21", ("cat /a", "df"), ("data 6869", "free 29"), ("data 21", "free 29")),
    Change(CHAIN, OVER_CHAINS, f"append /a {letters(500)}", ("cat /a", "df"),
           ("data 6869", "free 29"), (f"data 6869{letters(500)}", "free 28")),
    Change(CHAIN, OVER_CHAINS, f"put /c {letters(600)}", ("ls /", "df"),
           ("names a b", "free 29"), ("names a b c", "free 27")),
    Change(CHAIN, OVER_CHAINS, "rm /a", ("ls /", "df"), ("names a b", "free 29"), ("names b", "free 30")),
    Change(CHAIN, OVER_CHAINS, "mkfs", ("ls /", "df"), ("names a b", "free 29"), ("names -", "free 31")),
    Change(CHAIN, OVER_FULL, "put /p 21", ("ls /", "df"), (ALL_FULL, "free 16"), (f"{ALL_FULL} p", "free 14")),
)


class Site:
    """A disk of 32 blocks in a file, and a change that is made there again and again."""

    def __init__(self, recorder: Recorder, folder: Path, change: Change) -> None:
        self.recorder = recorder
        self.program = Program(recorder.program)
        self.change = change
        self.path = folder / "file_fault.img"
        self.path.unlink(missing_ok=True)
        self.program.run([self.path, "fresh", "32", "1", R, W, "near"])
        self.fresh = self.path.read_bytes()
        self.plain = self.go()
        if tuple(self.plain[:3]) != (0, change.before() + b"ok\n", b""):
            raise Different(f"without a fault it ends with {self.plain[:3]}")
        puts = [number for number, event in enumerate(self.plain.events) if event.kind == PUT]
        # The last call before the change: it sends the answer to the line before.
        self.start = puts[len(change.first) - 1]

    def words(self) -> List[str]:
        """The words of the shell."""
        return ["shell", self.change.kind, "0", W, "near"]

    def go(self, *faults: str) -> Recording:
        """The lines before the change, and then it, over the disk as it was made."""
        write_image(self.path, self.fresh)
        return self.recorder.run(self.path, self.words(), text_of([*self.change.first, self.change.line]), faults)

    def look(self, allowed: Sequence[Shown]) -> None:
        """The next run over the file shows one of these."""
        run = self.program.run([self.path, *self.words()], text_of(self.change.looks))
        if (run.status, run.error) != (0, b"") or run.out not in map(text_of, allowed):
            raise Different(f"the next run: {tuple(run)}, not {allowed}")

    def answered(self, sent: int) -> bool:
        """Whether the change's answer is among so many bytes sent."""
        return sent > len(self.change.before())

    # --- faults ---

    def faults(self) -> Iterator[Tuple[str, bool]]:
        """Each call of the change and of the run's end that fails once, and then from there on; with whether that
        can't be seen: a read of several sectors that fails once is made again, sector by sector."""
        counts: Dict[str, int] = dict.fromkeys(KIND_WORDS, 0)
        for number, event in enumerate(self.plain.events):
            if event.kind in KIND_WORDS:
                counts[event.kind] += 1
                if number > self.start:
                    word = f"{KIND_WORDS[event.kind]}:{counts[event.kind]}"
                    yield f"{word}:EIO", event.kind == READ and event.length > SECTOR
                    yield f"{word}+:EIO", False

    def fail(self, fault: str, is_unseen: bool) -> None:
        """One fault: the status and its text, whole answers, and what the next run shows."""
        recording = self.go(fault)
        told = FAULT_TEXT + os.fsencode(self.path) + b": " + os.strerror(errno.EIO).encode()
        is_told = recording.error == b"" if is_unseen else recording.error.startswith(told)
        if recording.status != (0 if is_unseen else FAULT) or not is_told:
            raise Different(f"status {recording.status} with {recording.error!r}")
        if recording.out not in (self.change.before(), self.change.before() + b"ok\n"):
            raise Different(f"{recording.out!r} was sent")
        is_done = self.answered(len(recording.out))
        self.look([self.change.new] if is_done else [self.change.old, self.change.new])

    # --- stops ---

    def stops(self) -> Iterator[Tuple[int, bytes, List[Shown]]]:
        """What a stop at each moment of the change leaves, with what it may show. Images that are alike come once."""
        medium, change = Medium(self.fresh), self.change
        seen: Set[Tuple[bytes, Tuple[Shown, ...]]] = set()
        for number, progress in moments(medium, self.plain.events):
            if number < self.start:
                continue
            allowed = [change.old, change.new]
            if number == self.start:
                allowed = [change.old]
            if self.answered(progress.sent):
                allowed = [change.new]
            for choices in outcomes(medium):
                image = medium.image(choices)
                if (image, tuple(allowed)) not in seen:
                    seen.add((image, tuple(allowed)))
                    yield number, image, allowed

    def stop(self, image: bytes, allowed: Sequence[Shown]) -> None:
        """The program opens what a stop leaves."""
        write_image(self.path, image)
        self.look(allowed)


def outcomes(medium: Medium) -> Iterator[Choices]:
    """What is loose old, new, and torn."""
    yield {}
    yield {sector: last_write(medium, sector) for sector in medium.loose}
    for byte in TORN_BYTES:
        yield dict.fromkeys(medium.loose, Choice(f"all bytes {byte}", bytes([byte]) * SECTOR))


def result_of(name: str, tries: int, differences: Sequence[str]) -> Result:
    """Passed where nothing differs."""
    if differences or not tries:
        return failed(f"{name}: {len(differences)} of {tries}", "\n".join(differences[:MOST_SHOWN]))
    return passed(f"{name}: {tries}")


def fault_result(site: Site, name: str) -> Result:
    """All faults of a change."""
    tries, differences = 0, []
    for fault, is_unseen in site.faults():
        tries += 1
        try:
            site.fail(fault, is_unseen)
        except Different as different:
            differences.append(f"with {fault}: {different}")
    return result_of(f"{name} fails", tries, differences)


def stop_result(site: Site, name: str) -> Result:
    """All stops of a change."""
    tries, differences = 0, []
    for number, image, allowed in site.stops():
        tries += 1
        try:
            site.stop(image, allowed)
        except Different as different:
            differences.append(f"stopped at call {number + 1}: {different}")
    return result_of(f"{name} is stopped", tries, differences)


def run(context: Context) -> Iterator[Result]:
    """All changes, where the program has a shell and there is a compiler."""
    if context.compiler is None:
        yield skipped("faults of the shell's changes", "no C compiler was found")
        return
    if Program(context.program).run(["-", "shell", INODE, "0", W, "near"]).status == USAGE:
        yield skipped("faults of the shell's changes", "the program has no shell")
        return
    try:
        recorder = Recorder(context.program, context.compiler, context.folder)
        recorder.refuse_blindness(context.folder / "seen.img")
    except NoRecorder as no_recorder:
        yield skipped("faults of the shell's changes", str(no_recorder))
        return
    for change in CHANGES:
        name = f"{change.line[:20]} ({change.kind})"
        try:
            site = Site(recorder, context.folder, change)
        except Different as different:
            yield failed(name, str(different))
            continue
        yield fault_result(site, name)
        yield stop_result(site, name)

"""Runs the program with tests/recorder.c loaded before it, and reads what that noted of its calls."""

from __future__ import annotations

import errno
import os
import struct
import subprocess
from pathlib import Path
from typing import Dict, List, NamedTuple, Sequence

READ, WRITE, SYNC, TRUNCATE, PUT, INPUT, TELL = "RWSTPIE"
SECTOR = 512
WITH_BYTES = WRITE + PUT + TELL
NOTE = struct.Struct("<c3xiqqQ")
MOST_SECONDS = 120
SOURCE = Path(__file__).resolve().parent / "recorder.c"


class Event(NamedTuple):
    """One call: its kind, its errno (0 where it answered), offset, answer, the length asked for, and what it wrote."""

    kind: str
    error: int
    offset: int
    answer: int
    length: int
    data: bytes

    def named(self) -> str:
        """The call in words."""
        text = {
            READ: f"a read of {self.length} bytes at sector {self.offset / 512:g}",
            WRITE: f"a write of {self.length} bytes at sector {self.offset / 512:g}",
            SYNC: "a sync",
            TRUNCATE: f"a truncation to {self.offset} bytes",
            PUT: f"a put of {self.data[:60]!r}",
            INPUT: "a take of input",
            TELL: f"a put of {self.data[:60]!r} on standard error",
        }[self.kind]
        return text + (f", which failed with {errno.errorcode.get(self.error, self.error)}" if self.error else "")


class Recording(NamedTuple):
    """How a recorded run ended, and its calls in order. A run that was killed has the negative number of the signal."""

    status: int
    out: bytes
    error: bytes
    events: List[Event]


def by_sectors(events: Sequence[Event]) -> List[Event]:
    """The same calls, with each write of several sectors as one of each of them: a stop may leave any of them done."""
    cut: List[Event] = []
    for event in events:
        starts = range(0, event.length, SECTOR) if event.kind == WRITE and not event.error else ()
        if len(starts) < 2 or event.offset % SECTOR:
            cut.append(event)
            continue
        for start in starts:
            piece = event.data[start:start + SECTOR]
            done = min(max(event.answer - start, 0), len(piece))
            cut.append(Event(WRITE, 0, event.offset + start, done, len(piece), piece))
    return cut


class NoRecorder(Exception):
    """The recorder can't be made or loaded; the text says why."""


def read_notes(log: bytes) -> List[Event]:
    """The events of a log. A note that a kill cut off at the end is left away."""
    events = []
    at = 0
    while at + NOTE.size <= len(log):
        kind, error, offset, answer, length = NOTE.unpack_from(log, at)
        at += NOTE.size
        size = length if kind.decode() in WITH_BYTES else 0
        if at + size > len(log):
            break
        events.append(Event(kind.decode(), error, offset, answer, length, log[at:at + size]))
        at += size
    return events


class Recorder:
    """The program at a path, run with the recorder before it. The folder keeps the recorder and its log."""

    def __init__(self, program: Path, compiler: str, folder: Path) -> None:
        self.program = program
        self.library = folder / "recorder.so"
        self.log = folder / "recorder.log"
        self.runs = 0
        command = [compiler, "-shared", "-fPIC", "-O1", "-o", str(self.library), str(SOURCE)]
        made = subprocess.run(command, stdin=subprocess.DEVNULL, capture_output=True)
        if made.returncode:
            raise NoRecorder(made.stderr.decode(errors="replace"))

    def environment(self, image: Path, faults: Sequence[str] = ()) -> Dict[str, str]:
        """What a process needs to be recorded; what stood in the log is gone."""
        self.log.write_bytes(b"")
        settings = {"LD_PRELOAD": self.library, "RECORDER_IMAGE": image, "RECORDER_LOG": self.log,
                    "RECORDER_FAULTS": ",".join(faults)}
        return {**os.environ, **{name: str(value) for name, value in settings.items()}}

    def events(self) -> List[Event]:
        """The calls that the log has now."""
        return read_notes(self.log.read_bytes())

    def run(
        self, image: Path, words: Sequence[object], text: bytes = b"", faults: Sequence[str] = ()
    ) -> Recording:
        """Runs a command on an image with its words and an input. What makes a disk may overwrite whatever is there."""
        option = ("--overwrite",) if words and words[0] in ("fresh", "format") else ()
        command = [str(word) for word in (self.program, *option, image, *words)]
        done = subprocess.run(command, input=text, env=self.environment(image, faults), timeout=MOST_SECONDS,
                              capture_output=True)
        self.runs += 1
        return Recording(done.returncode, done.stdout, done.stderr, self.events())

    def refuse_blindness(self, image: Path) -> None:
        """Raises NoRecorder where a program's calls don't go through the recorder, so that nothing would be tried."""
        recording = self.run(image, ("fresh", 8, 1, "aa" * 16, "bb" * 16, "low"), b"free\n")
        kinds = {event.kind for event in recording.events}
        if not {READ, WRITE, SYNC, PUT, INPUT} <= kinds:
            raise NoRecorder(f"of the program's calls only {sorted(kinds)} were seen; {recording.error!r}")
        image.unlink()

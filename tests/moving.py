"""The commands tsd-copy and tsd-keygen: disks that a load has drawn, copied to larger images and of the same size, in
both versions, and read by the reader of images of this folder: what is reached is equal block by block, with its
number, its bytes and its pointers; copies that are killed and run again; and what they refuse, each in a line, with
nothing changed."""

from __future__ import annotations

import os
import signal
import stat
import subprocess
import sys
import time
from pathlib import Path
from typing import Iterator, List, Optional, Set, Tuple

from image_reader import read_image
from parts import Context, Result, compared, failed, passed

NAME = "moving"
SEED = bytes(range(32)).hex()
MOST_SECONDS = 120


class Place:
    """Where the commands are tried."""

    def __init__(self, context: Context) -> None:
        self.context, self.folder = context, context.folder
        self.environment = {**os.environ, "TSD_PROGRAM": str(context.program)}

    def tsd(self, *words: object, text: str = "") -> str:
        """What the program prints."""
        done = subprocess.run([str(self.context.program), *map(str, words)], input=text, capture_output=True, text=True,
                              timeout=MOST_SECONDS, check=True)
        return done.stdout

    def command(self, name: str, *words: object) -> List[str]:
        """The words of a command of python/bin."""
        return [sys.executable, str(self.context.top / "python/bin" / name), *map(str, words)]

    def call(self, name: str, *words: object) -> Tuple[int, str, str]:
        """Status, output and errors of a command of python/bin."""
        done = subprocess.run(self.command(name, *words), stdin=subprocess.DEVNULL, capture_output=True, text=True,
                              env=self.environment, cwd=self.folder, timeout=MOST_SECONDS)
        return done.returncode, done.stdout, done.stderr

    def disk(self, name: str, blocks: int, primaries: int = 1, requests: int = 0, version: int = 1) -> Path:
        """A disk, with what a load leaves, and its capabilities in caps."""
        image = self.folder / name
        image.unlink(missing_ok=True)
        caps = self.tsd(image, "format", blocks, 1, 4 * blocks, primaries, SEED)
        (self.folder / "caps").write_text(caps)
        if requests:
            self.tsd(image, "load", SEED, requests, "near")
        if version == 2:
            self.tsd(image, "upgrade")
        return image


def reached(image: Path, root: Optional[int] = None) -> Tuple[dict, set, tuple]:
    """What of an image all primary blocks or one of them lead to: blocks with their bytes, pairs, and the records of
    capabilities."""
    world = read_image(image.read_bytes())
    found: Set[int] = set(range(world.geometry[2])) if root is None else {root}
    left = list(found)
    while left:
        source = left.pop()
        for target in {to for start, to in world.pairs if start == source} - found:
            found.add(target)
            left.append(target)
    blocks = {block: world.blocks[block] for block in found}
    return blocks, {pair for pair in world.pairs if pair[0] in found}, world.records


def tried_copies(place: Place) -> Iterator[Result]:
    """Copies to the same and a larger size."""
    rows = ((60, 1, 400, None, 1), (300, 2, 900, 1000, 1), (60, 1, 300, 200, 2))
    for blocks, primaries, requests, larger, version in rows:
        old, new = place.disk("old.img", blocks, primaries, requests, version), place.folder / "new.img"
        new.unlink(missing_ok=True)
        before = old.read_bytes()
        more = ["--blocks", larger] if larger else []
        status, told, error = place.call("tsd-copy", old, new, "--caps", "caps", *more)
        name = f"{blocks} blocks, {primaries} of them primary, to {larger or blocks}, version {version}"
        if status:
            yield failed(name, error)
            continue
        count = len(reached(old)[0])
        yield compared(f"{name}: what is reached", reached(old), reached(new))
        yield compared(f"{name}: what it tells", True, told.startswith(f"{count} blocks and "))
        yield compared(f"{name}: the old image", True, old.read_bytes() == before)
        yield compared(f"{name}: both certificates", place.tsd(old, "audit"), place.tsd(new, "audit"))
        found = place.tsd(new, "check").split()
        yield compared(f"{name}: nothing else is there", [str(count), str((larger or blocks) - count)], found[1:3])
        yield compared(f"{name}: once more", (0, told, ""), place.call("tsd-copy", old, new, "--caps", "caps"))


def tried_parts(place: Place) -> Iterator[Result]:
    """The tree of one of two primary blocks."""
    old, new = place.disk("old.img", 100, 2, 300), place.folder / "part.img"
    caps = (place.folder / "caps").read_text().splitlines()
    read, write = caps[1].split()[2:]
    place.tsd(old, "run", "near", text=f"open 1\nalloc 1 1 {write} 70 3\nwrite 1 1 {write} 6869\n")
    (place.folder / "second").write_text(caps[1] + "\n")
    yield compared("one primary block alone", 0, place.call("tsd-copy", old, new, "--caps", "second")[0])
    yield compared("its blocks and pointers", reached(old, 1)[:2], reached(new, 1)[:2])
    yield compared("the other one is empty", ({0: bytes(512)}, set()), reached(new, 0)[:2])
    told = place.tsd(new, "run", "near", text=f"open 1\nread 1 1 {read}\nread 1 0 {caps[0].split()[2]}\n")
    yield compared("its capabilities are right there, the other's not", "ok\ndata 6869\nno denied none read\n", told)


def tried_stops(place: Place) -> Iterator[Result]:
    """A copy that is killed again and again, and run again."""
    old, new = place.disk("old.img", 600, 1, 1500), place.folder / "stopped.img"
    words = place.command("tsd-copy", old, new, "--caps", "caps", "--blocks", 700)
    began, status, kills = time.monotonic(), None, 0
    while status is None and time.monotonic() - began < MOST_SECONDS:
        child = subprocess.Popen(words, env=place.environment, cwd=place.folder, stdout=subprocess.DEVNULL,
                                 start_new_session=True)
        try:
            status = child.wait(0.2 + 0.15 * kills)
        except subprocess.TimeoutExpired:
            os.killpg(child.pid, signal.SIGKILL)
            child.wait()
            kills += 1
            # Its programs are in sessions of their own, and end as their input does.
            time.sleep(1.0)
    yield compared("a copy that was killed is done", 0, status)
    yield passed("it was killed on the way") if kills else failed("it was killed on the way", "it was done before")
    yield compared("what is reached, after kills", reached(old), reached(new))


def tried_refusals(place: Place) -> Iterator[Result]:
    """Each in a line that says what to do."""
    old = place.disk("old.img", 60, 1, 200)
    folder = place.folder
    caps = (folder / "caps").read_text().split()
    small, other, taken = (folder / name for name in ("small.img", "other.img", "taken.img"))
    place.tsd(small, "format", 50, 1, 400, 1, SEED)
    place.tsd(other, "format", 80, 2, 400, 1, SEED)
    place.tsd(taken, "format", 60, 1, 240, 1, SEED)
    pointed = reached(old)[1]
    free = next(block for block in range(1, 60) if (0, block) not in pointed)
    place.tsd(taken, "run", "near", text=f"open 1\nalloc 1 0 {caps[3]} {free} 1\n")
    for name, text in (("wrong", f"cap 0 {'0' * 32} {'0' * 32}\n"), ("bad", "cap 0 zz\n"), ("none", ""),
                       ("far", f"cap 7 {caps[2]} {caps[3]}\n")):
        (folder / name).write_text(text)
    rows: Tuple[Tuple[str, List[object], str], ...] = (
        ("a wrong capability", [old, "n.img", "--caps", "wrong"], "denied: none attained, read needed"),
        ("a line that is none", [old, "n.img", "--caps", "bad"], "bad, line 1: a line is `cap BLOCK READ WRITE`"),
        ("no capability", [old, "n.img", "--caps", "none"], "no capability stands in none"),
        ("no file of capabilities", [old, "n.img", "--caps", "absent"], "absent: No such file"),
        ("a block that isn't primary", [old, "n.img", "--caps", "far"], "block 7 isn't primary"),
        ("no old image", ["absent", "n.img", "--caps", "caps"], "absent: No such file"),
        ("an old image that is none", ["caps", "n.img", "--caps", "caps"], "caps is no image of tsd"),
        ("fewer blocks", [old, "n.img", "--caps", "caps", "--blocks", 50], "as many or more"),
        ("a smaller image", [old, small, "--caps", "caps"], "as many or more"),
        ("blocks of another size", [old, other, "--caps", "caps"], "these have to be the same"),
        ("one image twice", [old, old, "--caps", "caps"], "both names are of one image"),
        ("a pointer too many", [old, taken, "--caps", "caps"], f"has a pointer from block 0 to block {free}"),
        ("too many blocks", [old, "n.img", "--caps", "caps", "--blocks", 2000000], "BLOCKS is 8 to 1048576"),
    )
    images = {path: path.read_bytes() for path in (old, small, other, taken)}
    for name, words, wanted in rows:
        status, out, error = place.call("tsd-copy", *words)
        lines = error.splitlines()
        is_told = status == 1 and out == "" and len(lines) == 1 and wanted in lines[0]
        yield passed(name) if is_told else failed(name, f"wanted {wanted}\n{status} {out}{error}")
    changed = [path.name for path, content in images.items() if path.read_bytes() != content]
    yield compared("nothing was changed or made", ([], False), (changed, (folder / "n.img").exists()))


def tried_keys(place: Place) -> Iterator[Result]:
    """New capabilities in files."""
    folder = place.folder
    yield compared("two are made", (0, "", ""), place.call("tsd-keygen", "read.cap", "write.cap"))
    texts = [(folder / name).read_text() for name in ("read.cap", "write.cap")]
    modes = [stat.S_IMODE((folder / name).stat().st_mode) for name in ("read.cap", "write.cap")]
    yield compared("each for its owner alone", [0o600, 0o600], modes)
    yield compared("they differ", 2, len(set(texts)))
    words = [folder / "keys.img", "fresh", 8, 1, f"@{folder / 'read.cap'}", f"@{folder / 'write.cap'}", "near"]
    told = place.tsd(*words, text=f"open 1\nwrite 1 0 {texts[1].strip()} 01\nread 1 0 {texts[0].strip()}\n")
    yield compared("the program takes them", "ok\nok\ndata 01\n", told)
    told = place.call("tsd-keygen", "third.cap", "read.cap", "fourth.cap")
    wanted = (1, "", "tsd-keygen: read.cap: it is there already, and stays; made before: third.cap\n")
    yield compared("one that is there stays", wanted, told)
    yield compared("as it was", texts[0], (folder / "read.cap").read_text())
    status, _, error = place.call("tsd-keygen", "nowhere/x.cap")
    wanted_end = (1, "tsd-keygen: nowhere/x.cap: No such file or directory\n")
    yield compared("a folder that isn't there", wanted_end, (status, error))


def run(context: Context) -> Iterator[Result]:
    """A result for each."""
    place = Place(context)
    for part in (tried_copies, tried_parts, tried_stops, tried_refusals, tried_keys):
        yield from part(place)

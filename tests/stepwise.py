"""One run of the program, request by request: after each reply, while the program waits, the image in the file has to
stand for the world that the model then has. A kill at that moment would leave this image."""

from __future__ import annotations

import random
import subprocess
import threading
from pathlib import Path
from typing import IO, List, NamedTuple, Optional, Tuple

from cases import format_words, world_difference
from disk_model import Disk, parse_line, reply_line
from drawing import Ask, Drawer, Shape, caps_of, draw_place, draw_shape
from parts import Result, failed, passed
from program import MOST_SECONDS, Program
from shrinking import shrunk

MOST_BLOCKS = 24
LENGTHS = (20, 60)


class Walk(NamedTuple):
    """A disk, the kind of placement, and the lines."""

    shape: Shape
    place: str
    is_upgraded: bool
    asks: Tuple[Ask, ...]

    def disk(self) -> Disk:
        """The model's disk at the start."""
        shape = self.shape
        disk = Disk.formatted(shape.blocks, shape.sectors, shape.slots, shape.primaries, shape.seed, self.place)
        if self.is_upgraded:
            disk.upgrade()
        return disk


def draw_walk(rng: random.Random) -> Walk:
    """A small disk, and lines drawn beside the model."""
    shape = draw_shape(rng)
    while shape.blocks > MOST_BLOCKS:
        shape = draw_shape(rng)
    walk = Walk(shape, draw_place(rng, shape.blocks), rng.random() < 0.5, ())
    drawer = Drawer(rng, walk.disk(), caps_of(shape))
    return walk._replace(asks=tuple(drawer.ask() for _ in range(rng.choice(LENGTHS))))


def quiet_content(image: Path) -> bytes:
    """The file's bytes once two looks show the same: steps of reclamation may still follow a reply."""
    content = image.read_bytes()
    while True:
        again = image.read_bytes()
        if again == content:
            return content
        content = again


def difference(walk: Walk, program: Program, image: Path) -> Optional[str]:
    """Carries a walk out; the first difference."""
    if image.exists():
        image.unlink()
    program.run([image] + format_words(walk.shape))
    if walk.is_upgraded:
        program.run([image, "upgrade"])
    with subprocess.Popen([str(program.path), str(image), "run", walk.place], stdin=subprocess.PIPE,
                          stdout=subprocess.PIPE, bufsize=0) as child:
        late = threading.Timer(MOST_SECONDS, child.kill)
        late.start()
        assert child.stdin is not None and child.stdout is not None
        try:
            found = _walked(walk, child.stdin, child.stdout, image)
        except BrokenPipeError:
            found = "the program ended before its input did"
        child.stdin.close()
        status = child.wait()
        late.cancel()
    return found or (None if status == 0 else f"status {status}")


def _walked(walk: Walk, sink: IO[bytes], source: IO[bytes], image: Path) -> Optional[str]:
    disk = walk.disk()
    for ask in walk.asks:
        expected = reply_line(disk.apply(parse_line(ask.line)))
        sink.write(ask.line + b"\n")
        reply = source.readline()
        if reply != expected:
            return f"to {ask.line!r}\nexpected {expected!r}\n   found {reply!r}"
        wrong = world_difference(disk.world(), quiet_content(image))
        if wrong is not None:
            return f"after the reply to {ask.line!r}\n{wrong}"
    return None


def walk_result(name: str, rng: random.Random, program: Program, image: Path) -> Result:
    """A drawn walk; a difference is shrunk and told as lines that can be pasted."""
    walk = draw_walk(rng)
    found = difference(walk, program, image)
    if found is None:
        return passed(name)
    asks = shrunk(walk.asks, lambda some: difference(walk._replace(asks=some), program, image) is not None)
    again = difference(walk._replace(asks=asks), program, image)
    return failed(name, "\n".join([again or found, "shown by, line by line"] + _pasteable(walk._replace(asks=asks))))


def _pasteable(walk: Walk) -> List[str]:
    lines = ["./tsd image " + " ".join(format_words(walk.shape))]
    lines += ["./tsd image upgrade"] if walk.is_upgraded else []
    return lines + [f"./tsd image run {walk.place}"] + [ask.line.decode("latin-1") for ask in walk.asks]

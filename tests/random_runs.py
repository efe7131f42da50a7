"""Random sessions, answered by the program over a real file and by the model: reply by reply, and world by world.

Each case makes a disk and opens it several times, by lines or by frames, with any kind of placement, and is upgraded
somewhere or not at all. Some are opened again after each few requests, some run on for long, and some have all 64
sessions open. Of five cases one is a load, and one is looked at after each reply (`stepwise`). A case is drawn from the
seed and its number alone, and there are as many as the time allows, and as it takes until each kind of reply and of
refusal came; where one never comes, that is a failure. A difference is shrunk and told as lines that can be pasted; the
third one is the last.
"""

from __future__ import annotations

import random
import time
from pathlib import Path
from typing import Iterator, List, Optional, Set

from cases import (
    REPLY_KINDS, Case, Difference, Reopen, Step, Upgrade, cap_lines, difference, format_words, pasteable,
)
from disk_model import Disk
from drawing import Drawer, Shape, caps_of, draw_place, draw_shape
from image_reader import read_image
from parts import FAILED, Context, Result, compared, failed, passed
from program import Program
from shrinking import shrunk
from stepwise import walk_result

NAME = "random_runs"
LEAST_CASES = 60
MOST_CASES = 2000
MOST_SECONDS = 100
MOST_FAILURES = 3
# So many cases have to be enough for each kind of reply to come.
MOST_UNTIL_ALL_KINDS = 400
# Of these lengths of runs one is drawn; of some cases all runs are short, or the only one is long.
LENGTHS = (1, 20, 60, 120)
SHORT_LENGTHS = (1, 2, 3, 4)
SHORT_RUNS = (15, 30)
LONG_LENGTHS = (500, 1000, 2000)
SHARE_OF_SHORT, SHARE_OF_LONG, SHARE_OF_ALL_SESSIONS = 0.15, 0.08, 0.15
FRAME_TAILS = (b"", b"", b"", b"\5", b"\5\0", b"\5\0\1\1\0")


def draw_reopen(rng: random.Random, blocks: int) -> Reopen:
    """How the next run is opened and how its input ends."""
    by_frames = rng.random() < 0.5
    tail = rng.choice(FRAME_TAILS) if by_frames else rng.choice([b"\n", b"\n", b""])
    return Reopen(draw_place(rng, blocks), by_frames, tail)


def draw_lengths(rng: random.Random) -> List[int]:
    """How many requests each run has."""
    draw = rng.random()
    if draw < SHARE_OF_SHORT:
        return [rng.choice(SHORT_LENGTHS) for _ in range(rng.randint(*SHORT_RUNS))]
    if draw < SHARE_OF_SHORT + SHARE_OF_LONG:
        return [rng.choice(LONG_LENGTHS)]
    return [rng.choice(LENGTHS) for _ in range(rng.randint(1, 5))]


def draw_case(rng: random.Random) -> Case:
    """A case: what it sends is drawn beside the model, so that most of it is granted."""
    shape = draw_shape(rng)
    disk = Disk.formatted(shape.blocks, shape.sectors, shape.slots, shape.primaries, shape.seed)
    drawer = Drawer(rng, disk, caps_of(shape))
    steps: List[Step] = []
    lengths = draw_lengths(rng)
    upgraded_before = rng.randrange(2 * len(lengths))
    opens_all = rng.random() < SHARE_OF_ALL_SESSIONS
    for number, length in enumerate(lengths):
        if number == upgraded_before:
            steps.append(Upgrade())
            disk.upgrade()
        how = draw_reopen(rng, shape.blocks)
        steps.append(how)
        disk.place = how.place
        disk.end_sessions()
        steps += drawer.open_all() if opens_all else []
        steps += [drawer.ask() for _ in range(length)]
    return Case(shape, tuple(steps))


def told(case: Case, found: Difference, program: Program, image: Path) -> str:
    """A difference, shrunk: what was expected and found, and the lines that show it."""
    steps = shrunk(case.steps, lambda steps: difference(Case(case.shape, steps), program, image, set()) is not None)
    small = Case(case.shape, steps)
    again: Optional[Difference] = difference(small, program, image, set())
    text = found.text if again is None else again.text
    return f"{text}\nshown by\n{pasteable(small)}"


def draw_load(rng: random.Random) -> Shape:
    """A disk for a load."""
    shape = draw_shape(rng)
    return shape._replace(seed=rng.choice([bytes(32), b"\xff" * 32, shape.seed]))


def load_result(name: str, rng: random.Random, context: Context, program: Program) -> Result:
    """A load of a drawn seed over a drawn disk, in either version: its line, and the world that it leaves."""
    shape = draw_load(rng)
    seed = rng.choice([shape.seed, rng.getrandbits(256).to_bytes(32, "little")])
    count, place = rng.choice([1, 2, rng.randint(1, 60), rng.randint(1, 1500)]), draw_place(rng, shape.blocks)
    disk = Disk.formatted(shape.blocks, shape.sectors, shape.slots, shape.primaries, shape.seed, place)
    image = context.folder / "load.img"
    runs = [program.run([image] + format_words(shape))]
    expected = [(0, cap_lines(shape), b"")]
    if rng.random() < 0.5:
        disk.upgrade()
        runs.append(program.run([image, "upgrade"]))
        expected.append((0, b"version 2\n", b""))
    runs.append(program.run([image, "load", seed.hex(), str(count), place]))
    expected.append((0, disk.load(seed, count), b""))
    found = compared(name, expected, [tuple(run) for run in runs])
    if found.text:
        return found
    same = read_image(image.read_bytes()) == disk.world()
    commands = f"format: {' '.join(format_words(shape))}; load {seed.hex()} {count} {place}"
    return passed(name) if same else failed(name, f"the image doesn't stand for the world that is left\n{commands}")


def case_result(name: str, rng: random.Random, program: Program, image: Path, kinds: Set[str]) -> Result:
    """A drawn case, carried out by both; the kinds of its replies are added to those that are given."""
    case = draw_case(rng)
    found = difference(case, program, image, kinds)
    return passed(name) if found is None else failed(name, told(case, found, program, image))


def goes_on(number: int, end: float, kinds: Set[str]) -> bool:
    """Whether another case is tried."""
    if number < LEAST_CASES or kinds < REPLY_KINDS and number < MOST_UNTIL_ALL_KINDS:
        return True
    return time.monotonic() < end


def run(context: Context) -> Iterator[Result]:
    """A result for each case, and for the kinds of replies of all."""
    program = Program(context.program)
    image = context.folder / "image"
    end = time.monotonic() + MOST_SECONDS
    failures = 0
    kinds: Set[str] = set()
    for number in range(MOST_CASES):
        if failures == MOST_FAILURES or not goes_on(number, end, kinds):
            break
        rng = context.random(f"case {number}")
        name = f"case {number} of seed {context.seed}"
        if number % 5 == 4:
            result = load_result(name, rng, context, program)
        elif number % 5 == 3:
            result = walk_result(name, rng, program, image)
        else:
            result = case_result(name, rng, program, image, kinds)
        failures += result.outcome == FAILED
        yield result
    if not failures:
        yield compared("each kind of reply and of refusal came", sorted(REPLY_KINDS), sorted(kinds))

"""Crashes of the commands `shell` and `files`: recorded runs over a file, and from them images as a crash at any
moment may leave them.

A case makes a disk with two primary blocks, keeps something under the one that isn't the root, and then has asks, as
lines or as frames, carried out under the other. Each image must stand for a world in which the tree under the root is
the one after the asks that were answered, or after one more, and in which what the root doesn't reach is as it was.
Some images are opened by the program itself: it must find that tree, and leave nothing that the contents don't name.
"""

from __future__ import annotations

import random
from pathlib import Path
from typing import Iterator, List, NamedTuple, Optional

from crash_images import Choices, Medium, moments, some_choices, told
from disk_model import PLACES, World, seed_caps
from file_drawing import FRAMES, LINES, FileDrawer, Way
from file_model import FileModel
from file_text import CHAIN, INODE, Ask
from file_trees import Plain, plain, read_tree
from image_reader import Fault, read_image
from judging import Different
from parts import Context, Result, failed, passed, skipped
from program import Program
from recording import NoRecorder, Recorder, Recording

NAME = "file_crashes"
CASES = 24
IMAGES_OF_A_CASE = 60
SHARE_OPENED = 0.1
USAGE = 2
SEED = bytes(range(32))
PRIMARIES = 2
KEPT = b"kept under the other root"
OTHER_POINTERS = 2


class Layout(NamedTuple):
    """How the disk and the tree are made."""

    kind: str
    blocks: int
    sectors: int
    slots: int
    root: int
    place: str


def random_layout(rng: random.Random) -> Layout:
    """A disk on which some asks find room and some don't."""
    blocks = rng.choice((12, rng.randint(16, 40), rng.randint(40, 150)))
    slots = rng.choice((4 * blocks, blocks))
    return Layout(rng.choice((INODE, CHAIN)), blocks, rng.choice((1, 1, 2, 4)), slots, rng.randrange(PRIMARIES),
                  rng.choice(PLACES))


def capability(root: int) -> str:
    """The capability to write a primary block."""
    return seed_caps(SEED)[root][1].hex()


class FileCase:
    """A disk in a file, the asks of one run, and the tree and the answers after each prefix of them."""

    def __init__(self, recorder: Recorder, folder: Path, rng: random.Random, layout: Layout, way: Way) -> None:
        self.recorder = recorder
        self.program = Program(recorder.program)
        self.path = folder / "file_crash.img"
        self.scratch = folder / "file_opened.img"
        self.numbers = rng
        self.layout = layout
        self.way = way
        self.opened = 0

    def words(self) -> List[str]:
        """The words of the command."""
        layout = self.layout
        return [self.way.command, layout.kind, str(layout.root), capability(layout.root), layout.place]

    def make(self) -> World:
        """Makes the disk, with two blocks under the root that isn't the shell's; the world then."""
        self.path.unlink(missing_ok=True)
        layout, other = self.layout, 1 - self.layout.root
        size = (layout.blocks, layout.sectors, layout.slots, PRIMARIES, SEED.hex())
        self.program.run([self.path, "format", *map(str, size)], b"")
        lines = ["open 1", f"alloc 1 {other} {capability(other)} - {OTHER_POINTERS}",
                 f"write 1 {other} {capability(other)} {KEPT.hex()}"]
        self.program.run([self.path, "run", "near"], "\n".join(lines).encode())
        return self.world(self.path.read_bytes())

    @staticmethod
    def world(data: bytes) -> World:
        """The world for which an image stands."""
        found = read_image(data)
        if isinstance(found, Fault):
            raise Different(f"the image stands for no world: {found.line}")
        return found

    def tree(self, world: World) -> Optional[Plain]:
        """The tree under the root; none where none is there."""
        found = read_tree(world, self.layout.kind, self.layout.root)
        return None if found is None else plain(found)

    def play(self) -> int:
        """Carries the asks out, in two runs of which the second one is recorded; how many images were judged."""
        start = self.make()
        model = FileModel(self.layout.kind, 512 * self.layout.sectors, self.layout.blocks - PRIMARIES - OTHER_POINTERS,
                          OTHER_POINTERS, self.layout.slots)
        drawer = FileDrawer(self.numbers, model)
        way, make = self.way, self.way.spelled(Ask("mkfs"))
        way.answer(model, make)
        first = [make]
        for _ in range(self.numbers.randrange(0, 12)):
            first.append(way.drawn(drawer))
            way.answer(model, first[-1])
        self.program.run([self.path, *self.words()], b"".join(map(way.sent, first)))
        before = self.path.read_bytes()
        trees = [model.tree()]
        asks: List[bytes] = []
        answers: List[bytes] = []
        for _ in range(self.numbers.randrange(1, 10)):
            asks.append(way.drawn(drawer))
            answers.append(way.answer(model, asks[-1]))
            trees.append(model.tree())
        recording = self.recorder.run(self.path, self.words(), b"".join(map(way.sent, asks)))
        if (recording.status, recording.out, recording.error) != (0, b"".join(answers), b""):
            raise Different(f"{asks} ended with {recording.status} and {recording.error!r}: {recording.out!r}")
        return self.judge_crashes(Medium(before), recording, answers, trees, start)

    def judge_crashes(
        self, medium: Medium, recording: Recording, answers: List[bytes], trees: List[Optional[Plain]], start: World
    ) -> int:
        """Makes images at moments of the run and judges them."""
        stops = [number for number, _ in moments(medium.copy(), recording.events)]
        chosen = self.numbers.choices(stops, k=IMAGES_OF_A_CASE)
        ends = [sum(map(len, answers[:count + 1])) for count in range(len(answers))]
        for number, progress in moments(medium, recording.events):
            answered = sum(end <= progress.sent for end in ends)
            for _ in range(chosen.count(number)):
                choices = some_choices(self.numbers, medium)
                try:
                    self.judge(medium, choices, trees[answered:answered + 2], start)
                except Different as different:
                    where = f"a crash at call {number + 1}, with {answered} answers sent, {told(choices)}"
                    raise Different(f"{where}: {different}")
        return IMAGES_OF_A_CASE

    def judge(self, medium: Medium, choices: Choices, trees: List[Optional[Plain]], start: World) -> None:
        """One image: its tree is one of these, and the rest is as at the start."""
        data = medium.image(choices)
        world = self.world(data)
        tree = self.tree(world)
        if tree not in trees:
            raise Different(f"the tree is {tree}, which is none of {trees}")
        self.judge_rest(world, start)
        if self.numbers.random() < SHARE_OPENED:
            self.open(data, tree)

    def judge_rest(self, world: World, start: World) -> None:
        """Capabilities, and the blocks under the other root, are those of the start."""
        other = 1 - self.layout.root
        if world.records != start.records:
            raise Different("the capabilities changed")
        for block in reached(start, other):
            if world.blocks.get(block) != start.blocks[block] or out_of(world, block) != out_of(start, block):
                raise Different(f"block {block}, which the root doesn't reach, changed")

    def open(self, data: bytes, tree: Optional[Plain]) -> None:
        """The program mounts the image: the tree stays, and nothing else is left under its root."""
        self.opened += 1
        self.scratch.write_bytes(data)
        run = self.program.run([self.scratch, *self.words()], b"")
        if tuple(run) != (0, b"", b""):
            raise Different(f"mounting it ended with {run.status} and {run.error!r}")
        world = self.world(self.scratch.read_bytes())
        found = read_tree(world, self.layout.kind, self.layout.root)
        if (None if found is None else plain(found)) != tree:
            raise Different(f"mounted, the tree is {found}, not {tree}")
        again = FileModel.mounted(self.layout.kind, world, self.layout.root)
        if tree is not None and again.base_held != OTHER_POINTERS:
            raise Different("mounted, pointers are left that no content names")


def out_of(world: World, block: int) -> List[int]:
    """The targets of the pointers out of a block."""
    return sorted(target for source, target in world.pairs if source == block)


def reached(world: World, root: int) -> List[int]:
    """The blocks to which a primary block leads, itself among them."""
    found, rest = {root}, [root]
    while rest:
        for target in out_of(world, rest.pop()):
            if target not in found:
                found.add(target)
                rest.append(target)
    return sorted(found)


def one_case(recorder: Recorder, context: Context, number: int, way: Way) -> Result:
    """One case from its start to its end."""
    rng = context.random(f"file crashes {number}")
    layout = random_layout(rng)
    name = f"{number} of seed {context.seed}: {way.command}, {layout.kind}, {layout.blocks} blocks of {layout.sectors}"
    case = FileCase(recorder, context.folder, rng, layout, way)
    try:
        images = case.play()
    except Different as different:
        return failed(name, f"{layout}\n{different}")
    return passed(f"{name}: {images} images, {case.opened} opened")


def run(context: Context) -> Iterator[Result]:
    """So many cases, every third one by frames, where the program has the commands and there is a compiler."""
    if context.compiler is None:
        yield skipped("crashes of the shell", "no C compiler was found")
        return
    has = {way: Program(context.program).run(["-", way.command, INODE, "0", "00" * 16, "near"]).status != USAGE
           for way in (LINES, FRAMES)}
    if not has[LINES]:
        yield skipped("crashes of the shell", "the program has no shell")
        return
    try:
        recorder = Recorder(context.program, context.compiler, context.folder)
    except NoRecorder as no_recorder:
        yield skipped("crashes of the shell", str(no_recorder))
        return
    for number in range(CASES):
        way = FRAMES if number % 3 == 2 else LINES
        if has[way]:
            yield one_case(recorder, context, number, way)
        else:
            yield skipped(f"crashes, case {number}", f"the program has no command {way.command}")

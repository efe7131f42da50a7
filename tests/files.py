"""Both file systems: the worked examples of docs/FILES.md and the worlds of trees.txt, by the model and by the command
`shell` of the program; and random asks over a real file, answer by answer and tree by tree. A program that has no such
command yet is tried by none of this: then the model alone is.
"""

from __future__ import annotations

import random
import re
from pathlib import Path
from typing import Iterator, List, Optional, Tuple

import tree_cases
from disk_model import PLACES, seed_caps
from file_drawing import LINES, FileDrawer, Way
from file_model import FileModel
from file_text import CHAIN, INODE, LETTERS
from file_trees import plain, read_tree
from image_reader import Fault, read_image
from parts import Context, Result, compared, failed, passed, skipped
from program import Program
from shrinking import shrunk

NAME = "files"
CASES = 60
USAGE = 2
ROOT_DENIED = 10
R, W = "aa" * 16, "bb" * 16
SEED = bytes(32)
# Bytes that `printf` prints as they stand.
PLAIN = frozenset(LETTERS + b" /")
SESSION = re.compile(r"^```\n(mkfs .*?)^```$", re.MULTILINE | re.DOTALL)


class ShellCase:
    """A disk of a size, and lines in runs of the shell, each with a kind of placement."""

    def __init__(self, rng: random.Random) -> None:
        self.kind = rng.choice((INODE, CHAIN))
        self.sectors = rng.choice((1, 1, 2, 4, 8))
        self.blocks = rng.choice((8, rng.randint(9, 30), rng.randint(30, 200)))
        self.slots = rng.choice((4 * self.blocks, self.blocks, rng.randint(1, 2 * self.blocks)))
        self.primaries = rng.randint(1, 3)
        self.root = rng.randrange(self.primaries)
        self.runs = [(rng.choice(PLACES), rng.choice((5, 20, 60))) for _ in range(rng.randint(1, 4))]

    def model(self) -> FileModel:
        """The model of the file system before anything is mounted."""
        return FileModel(self.kind, 512 * self.sectors, self.blocks - self.primaries, 0, self.slots)

    def words(self) -> List[str]:
        """The words that make the disk."""
        return ["format", str(self.blocks), str(self.sectors), str(self.slots), str(self.primaries), SEED.hex()]

    def shell(self, place: str, way: Way = LINES) -> List[str]:
        """The words that open it."""
        return [way.command, self.kind, str(self.root), seed_caps(SEED)[self.root][1].hex(), place]


Step = Tuple[str, bytes]


def drawn_steps(case: ShellCase, rng: random.Random, way: Way) -> Tuple[Step, ...]:
    """Lines or bodies, each with the kind of placement of its run."""
    model = case.model()
    drawer = FileDrawer(rng, model)
    steps = []
    for number, (place, count) in enumerate(case.runs):
        for _ in range(count):
            text = way.drawn(drawer)
            way.answer(model, text)
            steps.append((f"{number} {place}", text))
    return tuple(steps)


def difference(
    case: ShellCase, steps: Tuple[Step, ...], program: Program, image: Path, way: Way = LINES
) -> Optional[str]:
    """Carries the asks out; the first difference between the program and the model."""
    if image.exists():
        image.unlink()
    program.run([image] + case.words())
    model = case.model()
    for opened in sorted({opened for opened, _ in steps}):
        texts = [text for each, text in steps if each == opened]
        answers = [way.answer(model, text) for text in texts]
        run = program.run([image] + case.shell(opened.split(" ")[1], way), b"".join(map(way.sent, texts)))
        if tuple(run) != (0, b"".join(answers), b""):
            return told(texts, answers, run.out) + f"\nstatus {run.status}, {run.error!r}"
        world = read_image(image.read_bytes())
        if isinstance(world, Fault):
            return f"the image stands for no world: {world.line}"
        tree = read_tree(world, case.kind, case.root)
        if (None if tree is None else plain(tree)) != model.tree():
            return f"the tree of the image is {tree}, not {model.tree()}"
        held = len(world.pairs), case.blocks - len(world.blocks)
        if held != (model.held, model.free):
            return f"pointers held and free blocks are {held}, not {(model.held, model.free)}"
    return None


def told(lines: List[bytes], answers: List[bytes], out: bytes) -> str:
    """The first answer that is another one."""
    for line, answer, found in zip(lines, answers, out.split(b"\n")):
        if answer != found + b"\n":
            return f"to {line!r}\nexpected {answer!r}\n   found {found!r}"
    return "fewer or more answers than lines"


def random_result(number: int, context: Context, program: Program, way: Way = LINES) -> Result:
    """A random case; a difference is shrunk."""
    rng = context.random(f"{way.command} {number}")
    case = ShellCase(rng)
    steps = drawn_steps(case, rng, way)
    image = context.folder / "files.img"
    name = f"{way.command} {number} of seed {context.seed}: {case.kind}, {len(steps)} asks"
    found = difference(case, steps, program, image, way)
    if found is None:
        return passed(name)
    small = shrunk(steps, lambda some: difference(case, some, program, image, way) is not None)
    lines = [f"tsd image {' '.join(case.words())}"]
    for opened in sorted({opened for opened, _ in small}):
        text = b"".join(way.sent(text) for each, text in small if each == opened)
        lines.append(f"{printed(text)} | tsd image {' '.join(case.shell(opened.split(' ')[1], way))}")
    return failed(name, f"{difference(case, small, program, image, way) or found}\nshown by\n" + "\n".join(lines))


def printed(text: bytes) -> str:
    """A command that prints these bytes."""
    return "printf '" + "".join(chr(byte) if byte in PLAIN else f"\\{byte:03o}" for byte in text) + "'"


def worked(page: str) -> Tuple[List[bytes], List[bytes]]:
    """The worked lines of docs/FILES.md and their answers."""
    block = SESSION.search(page)
    pairs = [line.partition(">") for line in block[1].splitlines()] if block else []
    return [line.strip().encode() for line, _, _ in pairs], [answer.strip().encode() + b"\n" for _, _, answer in pairs]


def model_results(context: Context, lines: List[bytes], answers: List[bytes]) -> Iterator[Result]:
    """The model of tests/ against what is written down."""
    model = FileModel(INODE, 512, 7, 0, 32)
    found = [model.answer(line) for line in lines]
    yield compared("docs/FILES.md, by the model", (True, answers), (bool(lines), found))
    for case in tree_cases.cases(context.top / "tests" / "trees.txt"):
        yield tree_cases.model_result(case)


def denied_results(image: Path, program: Program) -> Iterator[Result]:
    """Roots that aren't primary, and capabilities that attain less than write."""
    for root, cap, level in (("0", R, "read"), ("0", "cc" * 16, "none"), ("1", W, "none"), ("4294967295", W, "none")):
        run = program.run([image, "shell", INODE, root, cap, "near"], b"mkfs\n")
        expected = (ROOT_DENIED, b"", f"tsd: root denied, {level} attained\n".encode())
        yield compared(f"root {root} by {cap[:2]}: {level} attained", expected, tuple(run))


def run(context: Context) -> Iterator[Result]:
    """The model's results, and the program's where it has the command."""
    program = Program(context.program)
    lines, answers = worked((context.top / "docs" / "FILES.md").read_text())
    yield from model_results(context, lines, answers)
    image = context.folder / "worked.img"
    program.run([image, "fresh", "8", "1", R, W, "near"])
    shell = [image, "shell", INODE, "0", W, "near"]
    first = program.run(shell, b"\n".join(lines))
    if first.status == USAGE:
        yield skipped("the command shell", "the program has none yet")
        return
    yield compared("docs/FILES.md, by the program", (0, b"".join(answers), b""), tuple(first))
    yield from denied_results(image, program)
    for case in tree_cases.cases(context.top / "tests" / "trees.txt"):
        if case.ask is not None and tree_cases.is_tidy(case):
            yield tree_cases.program_result(case, context, program)
    for number in range(CASES):
        yield random_result(number, context, program)

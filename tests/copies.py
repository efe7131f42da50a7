"""The command `copyfs`: the tree of files under one primary block copied to another one, in either layout.

Worked copies, sizes beside those of pieces and blocks, and drawn trees, each line beside a model; refusals at each
place and on the way; copies that are stopped before calls of the image, torn images of them, and calls that fail. After
each the source is as it was, the target has what was there before or a tree on the way, by the reader of tests/ and by
the program's own shell, and the next copy is whole.
"""

from __future__ import annotations

import random
import signal
from collections import Counter
from pathlib import Path
from typing import Callable, Iterator, List, NamedTuple, Optional, Sequence, Tuple

from copy_model import Ended, Side, copied_line, ended, looks_at, reached_from, steps_of, tree_under
from crash_images import Medium, moments, some_choices, told
from disk_model import PLACES, Geometry, World, seed_caps
from file_drawing import FileDrawer
from file_model import FileModel
from file_text import CHAIN, INODE
from file_trees import Plain
from image_reader import Fault, read_image
from image_writer import Image
from judging import Different
from mirror import without_end
from parts import Context, Result, compared, failed, passed, skipped
from program import Program, Run, without_copying, write_image
from recording import READ, SYNC, WRITE, NoRecorder, Recorder, Recording

NAME = "copies"
USAGE, ROOT_DENIED, DEVICE_FAULT, OUTPUT_FAULT, SIDE_LOST = 2, 10, 4, 6, 11
SEED = bytes(range(32))
KILLED = -signal.SIGKILL
DRAWN = 40
TORN_IMAGES = 150
PIECE = 4096
MOST_CHAIN_NAMES = 4096
# Of a block of 8 sectors; so many entries has a cluster there, too.
MOST_INODE_NAMES = 127
LENGTHS = (0, 1, 495, 496, 497, 511, 512, 513, 991, 992, 993, 1023, 1024, 1025, 4079, 4080, 4081, 4095, 4096, 4097,
           8191, 8192, 8193, 12289, 20480)


def cap(root: int, reads: bool = False) -> str:
    """The capability to write a primary block, or to read it."""
    return seed_caps(SEED)[root][0 if reads else 1].hex()


def copying(source: Side, target: Side, place: str = "near") -> List[str]:
    """The words of a copy."""
    words = [[side.kind, str(side.root), cap(side.root)] for side in (source, target)]
    return ["copyfs", *words[0], *words[1], place]


def shelling(side: Side, place: str = "near") -> List[str]:
    """The words of a run of the shell."""
    return ["shell", side.kind, str(side.root), cap(side.root), place]


def content(length: int, start: int = 0) -> bytes:
    """So many bytes, no two neighbours alike."""
    return bytes((start + 7 * at + at // 251) % 256 for at in range(length))


def lines_of(path: bytes, text: bytes) -> List[bytes]:
    """Lines of the shell that make a file."""
    rest = range(PIECE, len(text), PIECE)
    return [b"put %s %s" % (path, text[:PIECE].hex().encode() or b"-"),
            *(b"append %s %s" % (path, text[at:at + PIECE].hex().encode()) for at in rest)]


class Site:
    """A disk in a file on which trees are made and copied."""

    def __init__(self, context: Context, blocks: int, slots: int, sectors: int = 1, primaries: int = 2) -> None:
        self.program = Program(context.program)
        self.folder = context.folder
        self.path = context.folder / "copies.img"
        self.path.unlink(missing_ok=True)
        self.run("format", blocks, sectors, slots, primaries, SEED.hex())

    def run(self, *words: object, text: bytes = b"", path: Optional[Path] = None) -> Run:
        """A run over the disk, or over another file."""
        return self.program.run([path or self.path, *map(str, words)], text)

    def shell(self, side: Side, lines: Sequence[bytes], path: Optional[Path] = None) -> List[bytes]:
        """The answers of the shell over a side."""
        run = self.run("shell", side.kind, side.root, cap(side.root), "near", text=b"\n".join(lines) + b"\n", path=path)
        if (run.status, run.error) != (0, b""):
            raise Different(f"the shell over {side} ended with {run.status} and {run.error!r}")
        return run.out.splitlines()

    def make(self, side: Side, lines: Sequence[bytes]) -> None:
        """Makes a tree by lines of which none is refused."""
        answers = self.shell(side, [b"mkfs", *lines])
        if answers != [b"ok"] * (1 + len(lines)):
            raise Different(f"{side} isn't made: {answers[:20]}")

    def world(self, data: Optional[bytes] = None) -> World:
        """The world for which the image stands."""
        found = read_image(self.path.read_bytes() if data is None else data)
        if isinstance(found, Fault):
            raise Different(f"the image stands for no world: {found.line}")
        return found

    def look(self, side: Side, tree: Plain, data: bytes) -> None:
        """The program's own shell finds this tree in an image."""
        scratch = self.folder / "looked.img"
        write_image(scratch, data)
        lines, answers = looks_at(tree)
        found = self.shell(side, lines, scratch)
        if found != answers:
            raise Different(f"the shell over {side} answers {found[:9]} to {lines[:9]}")

    def copy(self, source: Side, target: Side, place: str = "near") -> bytes:
        """One copy, judged by the model: its line, the image, and what the shell finds there. Answers the line."""
        start, before = self.world(), self.path.read_bytes()
        wanted = ended(start, source, target, every=False)
        run = self.run(*copying(source, target, place))
        if tuple(run) != (0, wanted.line, b""):
            raise Different(f"expected {wanted.line!r}\n   found {tuple(run)}")
        world = self.world()
        if not wanted.is_begun and (world, self.path.read_bytes()) != (start, before):
            raise Different(f"the image has changed though {wanted.line!r} came")
        judge_trees(start, world, source, target, wanted.trees[-1:])
        held = world.geometry[1] - len(world.blocks), len(world.pairs)
        if held != (wanted.free, wanted.held):
            raise Different(f"free blocks and pointers held are {held}, not {(wanted.free, wanted.held)}")
        for side in (source, target):
            tree = tree_under(world, side)
            if tree is not None:
                self.look(side, tree, self.path.read_bytes())
        return run.out


def judge_trees(start: World, world: World, source: Side, target: Side, trees: Sequence[Optional[Plain]]) -> None:
    """The source is as at the start, the target has one of these trees, and what neither root reaches is as it was."""
    if tree_under(world, source) != tree_under(start, source):
        raise Different("the source has changed")
    tree = tree_under(world, target)
    if tree not in trees:
        raise Different(f"the target has {short(tree)}, which is none of {[short(each) for each in trees]}")
    if world.records != start.records:
        raise Different("the capabilities have changed")
    for root in set(range(start.geometry[2])) - {source.root, target.root}:
        for block in reached_from(start, root):
            if world.blocks.get(block) != start.blocks[block] or out_of(world, block) != out_of(start, block):
                raise Different(f"block {block}, which neither root reaches, has changed")


def out_of(world: World, block: int) -> List[int]:
    """The targets of the pointers out of a block."""
    return sorted(target for source, target in world.pairs if source == block)


def short(tree: Optional[Plain]) -> object:
    """A tree with lengths in place of the bytes."""
    if tree is None or isinstance(tree, bytes):
        return None if tree is None else len(tree)
    return {name.decode(): short(node) for name, node in tree.items()}


def tried(name: str, play: Callable[[], object]) -> Result:
    """Passed where nothing is different."""
    try:
        found = play()
    except Different as different:
        return failed(name, str(different))
    return passed(f"{name}: {found}" if isinstance(found, str) else name)


# --- worked ---

INODES_0, CHAINS_0, INODES_1, CHAINS_1 = Side(INODE, 0), Side(CHAIN, 0), Side(INODE, 1), Side(CHAIN, 1)
SMALL = [b"put /b -", b"put /a 01"]


def worked_results(context: Context) -> Iterator[Result]:
    """The worked copies of docs/FILES.md: from inodes to chains and back, each refusal, and both roots denied."""
    site = Site(context, 64, 256)
    wanted = [b"ok"] * 3
    yield compared("two files of inodes", wanted, site.shell(INODES_0, [b"mkfs", *SMALL]))
    yield compared("copied to chains", (0, b"copied 2 1\n", b""), tuple(site.run(*copying(INODES_0, CHAINS_1))))
    looks = [b"ls /", b"cat /a", b"cat /b"]
    found = [b"names a b", b"data 01", b"data -"]
    yield compared("the shell over the chains", found, site.shell(CHAINS_1, looks))
    yield compared("a tree to its own root", (0, b"no shared 0\n", b""), tuple(site.run(*copying(INODES_0, CHAINS_0))))
    yield from denied_results(site)
    yield compared("a directory", [b"ok"], site.shell(INODES_0, [b"mkdir /d"]))
    run = site.run(*copying(INODES_0, CHAINS_1))
    yield compared("a directory to chains", (0, b"no nested /d\n", b""), tuple(run))
    yield compared("the chains are as before", found, site.shell(CHAINS_1, looks))
    for name, sides in (("chains", (CHAINS_0, CHAINS_1)), ("inodes", (INODES_1, CHAINS_0))):
        run = site.run(*copying(*sides))
        yield compared(f"no tree of {name} at the source", (0, b"no not-this-fs\n", b""), tuple(run))
    before = site.path.read_bytes()
    yield compared("copied back to inodes", (0, b"copied 2 1\n", b""), tuple(site.run(*copying(CHAINS_1, INODES_0))))
    yield compared("the shell over the inodes", [b"names a b"], site.shell(INODES_0, [b"ls /"]))
    yield from stop_results(context, "copied back to inodes", before, CHAINS_1, INODES_0, 1)


def denied_results(site: Site) -> Iterator[Result]:
    """A capability that attains less than write, the source's first; and a root that isn't primary."""
    write, read, none = cap(0), cap(0, True), "cc" * 16
    other, other_read = cap(1), cap(1, True)
    before = site.path.read_bytes()
    for name, first, second, level in (
        ("the source's reads", ("0", read), ("1", other), "read"),
        ("the target's reads", ("0", write), ("1", other_read), "read"),
        ("neither is right", ("0", none), ("1", other_read), "none"),
        ("the other way round", ("0", read), ("1", none), "read"),
        ("the source's root isn't primary", ("2", write), ("1", other_read), "none"),
        ("the target's root isn't primary", ("0", write), ("4294967295", other), "none"),
        ("one for the other", ("0", other), ("1", write), "none"),
    ):
        run = site.run("copyfs", INODE, *first, CHAIN, *second, "near")
        error = f"tsd: root denied, {level} attained\n".encode()
        yield compared(f"denied: {name}", (ROOT_DENIED, b"", error), tuple(run))
    yield compared("a root that is denied changes nothing", True, before == site.path.read_bytes())


def usage_results(context: Context) -> Iterator[Result]:
    """Words that are no copy."""
    site = Site(context, 64, 256)
    good = copying(INODES_0, CHAINS_1)
    before = site.path.read_bytes()
    spoiled = [good[:at] + [word] + good[at + 1:] for at, words in (
        (1, ("Inode", "inodes", "", "0")), (2, ("-", "-1", "4294967296", "00000000000", "0x0", "")),
        (3, ("-", cap(0)[1:], cap(0) + "0", cap(0)[1:] + "g")), (4, ("CHAIN", "near")), (5, ("", "one", "4294967296")),
        (6, ("-", cap(1)[:-1])), (7, ("nearest", "Near", "", "0"))) for word in words]
    for words in [good[:count] for count in range(1, 8)] + [good + ["near"]] + spoiled:
        run = site.run(*words)
        found = run.status, run.out, run.error.partition(b"\n")[0]
        yield compared(f"no copy: {' '.join(words)}", (USAGE, b"", b"tsd: usage"), found)
    yield compared("usage changes nothing", True, before == site.path.read_bytes())


# --- trees of every form ---

def size_results(context: Context) -> Iterator[Result]:
    """Files of lengths about those of pieces and blocks, between all layouts; in blocks of each size."""
    texts = [content(length, number) for number, length in enumerate(LENGTHS)]
    files = [line for number, text in enumerate(texts) for line in lines_of(b"/f%02d" % number, text)]
    for sectors in (1, 2, 4, 8):
        site = Site(context, 2500 // sectors + 100, 4000, sectors, 3)
        names = f"in blocks of {sectors} sectors"
        if sectors == 1:
            # An inode of one sector names 15 entries.
            half = [line for line in files if line.split(b" ")[1] < b"/f13"]
            rest = [line.replace(b" /f", b" /f/", 1) for line in files if line not in half]
            yield tried(f"sizes, inodes {names}", lambda: site.make(INODES_0, [*half, b"mkdir /f", *rest]))
            yield tried(f"sizes, inodes to inodes {names}", lambda: site.copy(INODES_0, INODES_1))
        else:
            yield tried(f"sizes, inodes {names}", lambda: site.make(INODES_0, files))
            for target in (INODES_1, CHAINS_1):
                yield tried(f"sizes, inodes to {target.kind} {names}", lambda: site.copy(INODES_0, target))
        yield tried(f"sizes, chains {names}", lambda: site.make(CHAINS_1, files))
        yield tried(f"sizes, chains to chains {names}", lambda: site.copy(CHAINS_1, Side(CHAIN, 2)))
        if sectors > 1:
            yield tried(f"sizes, chains to inodes {names}", lambda: site.copy(CHAINS_1, INODES_0))


def form_results(context: Context) -> Iterator[Result]:
    """The empty tree, the deepest one, empty directories, shared blocks of bytes, and the most names."""
    site = Site(context, 400, 1600)
    for source, target in ((INODES_0, CHAINS_1), (INODES_0, INODES_1), (CHAINS_0, INODES_1), (CHAINS_0, CHAINS_1)):
        yield tried(f"an empty tree of {source.kind}", lambda: site.make(source, []))
        yield tried(f"an empty tree of {source.kind} to {target.kind}", lambda: site.copy(source, target))
    deep = [b"mkdir " + b"/d" * depth for depth in range(1, 16)] + lines_of(b"/d" * 15 + b"/f", content(5000)) + [
        b"mkdir " + b"/d" * 15 + b"/e", b"put /d/a -", b"mkdir /d/b", b"put /z 00"]
    yield tried("16 names deep, made", lambda: site.make(INODES_0, deep))
    yield tried("16 names deep, from inodes to inodes", lambda: site.copy(INODES_0, INODES_1))
    yield tried("16 names deep, and back", lambda: site.copy(INODES_1, INODES_0))
    shared = [*lines_of(b"/a", content(9000)), b"cp /a /b", b"append /b 01", b"cp /b /c"]
    yield tried("blocks that files share, made", lambda: site.make(INODES_0, shared))
    yield tried("blocks that files share, to inodes", lambda: site.copy(INODES_0, INODES_1))
    yield tried("blocks that files share, to chains", lambda: site.copy(INODES_0, CHAINS_1))
    names = [b"put /%s -" % name for name in (b"a", b"B", b"a.b", b"_", b"-a", b"0", b"x" * 28, b"x" * 27, b"Z", b"z-")]
    yield tried("names of every form, made", lambda: site.make(CHAINS_0, names))
    yield tried("names of every form, to inodes", lambda: site.copy(CHAINS_0, INODES_1))
    yield from many_results(context)


def many_results(context: Context) -> Iterator[Result]:
    """A directory of chains with as many names as it may have: all of it goes to chains, and to inodes what a directory
    of inodes can have of it. What is held then is counted here, since the model takes long for so many."""
    site = Site(context, 2 * (MOST_CHAIN_NAMES + 100), 4 * MOST_CHAIN_NAMES, 8)
    names = [b"%x" % (number * 40503 % 65536) for number in range(MOST_CHAIN_NAMES)]
    tree: Plain = {name: name for name in names}
    first: Plain = {name: name for name in sorted(names)[:MOST_INODE_NAMES]}
    lines = [b"put /%s %s" % (name, name.hex().encode()) for name in names]
    clusters = MOST_CHAIN_NAMES + MOST_CHAIN_NAMES // MOST_INODE_NAMES
    yield tried("4,096 names of chains, made", lambda: site.make(CHAINS_0, lines))
    line = copied_line(tree)
    yield tried("4,096 names, from chains to chains", lambda: many(site, CHAINS_1, tree, line, 2 * clusters))
    yield from asked_results(context, site, tree)
    held = clusters + 2 * MOST_INODE_NAMES
    yield tried("4,096 names, to inodes", lambda: many(site, INODES_1, first, b"no dir-full\n", held))


def asked_results(context: Context, site: Site, tree: Plain) -> Iterator[Result]:
    """How often the image is called: by a copy of a tree of chains no more often than by the shell that lists its
    names, reads each file and puts it under the other root. So nothing is read in vain, and nothing is made twice."""
    name = "4,096 names, calls of the image"
    if context.compiler is None:
        yield skipped(name, "no C compiler was found")
        return
    try:
        recorder = Recorder(context.program, context.compiler, context.folder)
    except NoRecorder as no_recorder:
        yield skipped(name, str(no_recorder))
        return
    yield tried(name, lambda: no_more_calls(site, recorder, tree))


def no_more_calls(site: Site, recorder: Recorder, tree: Plain) -> str:
    """Counts the calls of both ways from the first root to the second one, which has the tree before each."""
    assert isinstance(tree, dict)
    looks = [b"ls /", *(b"cat /" + name for name in sorted(tree))]
    counts = []
    for words, lines in ((copying(CHAINS_0, CHAINS_1), []), (shelling(CHAINS_0), looks),
                         (shelling(CHAINS_1), list(steps_of(tree)))):
        recording = recorder.run(site.path, words, b"".join(line + b"\n" for line in lines))
        if recording.status or recording.error or b"no " in recording.out:
            raise Different(f"{words[0]} ended with {recording.status} and {recording.error!r}: {recording.out[:80]!r}")
        counts.append(Counter(event.kind for event in recording.events))
    copied, looked, put = counts
    said = [f"{copied[kind]} {what} by a copy, {looked[kind]} and {put[kind]} by the shell"
            for kind, what in ((READ, "reads"), (WRITE, "writes"), (SYNC, "syncs"))]
    if any(copied[kind] > looked[kind] + put[kind] for kind in (READ, WRITE, SYNC)):
        raise Different("; ".join(said))
    return "; ".join(said)


def many(site: Site, target: Side, tree: Plain, line: bytes, held: int) -> None:
    """A copy of many names: its line, the tree that is left, and how many pointers are held and blocks live then."""
    start = site.world()
    run = site.run(*copying(CHAINS_0, target))
    if tuple(run) != (0, line, b""):
        raise Different(f"expected {line!r}\n   found {tuple(run)}")
    data = site.path.read_bytes()
    world = site.world(data)
    if tree_under(world, target) != tree:
        raise Different("the target's tree is another one")
    judge_trees(start, world, CHAINS_0, target, [tree])
    found = len(world.pairs), len(world.blocks)
    if found != (held, held + 2):
        raise Different(f"pointers held and live blocks are {found}, not {(held, held + 2)}")
    site.look(target, tree, data)


def refused_results(context: Context) -> Iterator[Result]:
    """Each refusal of the target on the way: the tree up to there is left, and the source is whole."""
    big = lines_of(b"/b", content(30000)) + [b"put /a 01", b"put /c -"]
    too_big = lines_of(b"/b", content(124 * 512 + 1)) + [b"put /a 01", b"put /c 02"]
    many = [b"put /n%02d 01" % number for number in range(20)]
    for name, source, target, size, lines, line in (
        ("full", INODES_0, CHAINS_1, (100, 400), big, b"no full "),
        ("full", CHAINS_0, INODES_1, (100, 400), big, b"no full "),
        ("pointers full", INODES_0, CHAINS_1, (200, 122), big, b"no pointers-full "),
        ("pointers full", CHAINS_0, CHAINS_1, (200, 100), big, b"no pointers-full "),
        ("too big", CHAINS_0, INODES_1, (500, 2000), too_big, b"no too-big\n"),
        ("the directory full", CHAINS_0, INODES_1, (200, 800), many, b"no dir-full\n"),
    ):
        site = Site(context, *size)
        name = f"{name} on the way, from {source.kind} to {target.kind}"

        def play() -> None:
            site.make(source, lines)
            found = site.copy(source, target)
            if not found.startswith(line):
                raise Different(f"{found!r} isn't {line!r}")
            site.copy(source, target)
        yield tried(name, play)


def shared_results(context: Context) -> Iterator[Result]:
    """Blocks to which both roots lead: the least is told, and nothing changes."""
    program = Program(context.program)
    path = context.folder / "shared.img"
    inode = b"TSDINOD1\1\0\0\0\0\0\0\0".ljust(512, b"\0")
    for name, pairs, line in (
        ("a block of both", {(0, 5), (1, 5), (0, 3)}, b"no shared 5\n"),
        ("far from both", {(0, 9), (9, 8), (8, 7), (1, 3), (3, 7), (2, 7)}, b"no shared 7\n"),
        ("the least of several", {(0, 4), (1, 6), (4, 5), (6, 5), (5, 3)}, b"no shared 3\n"),
        ("in a cycle", {(0, 4), (4, 5), (5, 4), (1, 6), (6, 5)}, b"no shared 4\n"),
    ):
        live = {0, 1, 2} | {block for pair in pairs for block in pair}
        blocks = {block: inode if block == 0 else bytes(512) for block in live}
        records = tuple(read + write for read, write in seed_caps(SEED)[:3])
        world = World(Geometry(1, 16, 3, 64), 1, blocks, pairs, records)
        write_image(path, bytes(Image(world).bytes))
        before = path.read_bytes()
        run = program.run([path, *copying(INODES_0, CHAINS_1)])
        yield compared(f"shared: {name}", (0, line, b""), tuple(run))
        yield compared(f"shared: {name}, and nothing changes", True, before == path.read_bytes())


# --- stopped, torn, failing ---

class Scene(NamedTuple):
    """An image before a copy, its sides, and how the copy ends."""

    site: Site
    recorder: Recorder
    before: bytes
    start: World
    sides: Tuple[Side, Side]
    wanted: Ended

    def again(self, faults: Sequence[str] = ()) -> Recording:
        """The copy, over the image as it was."""
        write_image(self.site.path, self.before)
        return self.recorder.run(self.site.path, copying(*self.sides), b"", faults)

    def judge(self, data: bytes, trees: Sequence[Optional[Plain]], opens: bool) -> None:
        """An image that is left; where it is to be opened, the shell finds both trees, and another copy is whole."""
        world = self.site.world(data)
        judge_trees(self.start, world, *self.sides, trees)
        if not opens:
            return
        for side in self.sides:
            tree = tree_under(world, side)
            if tree is not None:
                self.site.look(side, tree, data)
        scratch = self.site.folder / "again.img"
        write_image(scratch, data)
        run = self.site.run(*copying(*self.sides), path=scratch)
        if tuple(run) != (0, self.wanted.line, b""):
            raise Different(f"another copy ended with {tuple(run)}")
        judge_trees(self.start, self.site.world(scratch.read_bytes()), *self.sides, self.wanted.trees[-1:])


def scene_of(context: Context, before: bytes, source: Side, target: Side) -> Scene:
    """The scene of a copy over an image."""
    assert context.compiler is not None
    site = Site(context, 8, 8)
    start = site.world(before)
    recorder = Recorder(context.program, context.compiler, context.folder)
    return Scene(site, recorder, before, start, (source, target), ended(start, source, target))


def stop_results(context: Context, name: str, before: bytes, source: Side, target: Side, each: int) -> Iterator[Result]:
    """The copy is killed before calls of the image, one after the other or each of so many; and torn images of it."""
    if context.compiler is None:
        yield skipped(f"{name}, stopped", "no C compiler was found")
        return
    try:
        scene = scene_of(context, before, source, target)
    except NoRecorder as no_recorder:
        yield skipped(f"{name}, stopped", str(no_recorder))
        return
    yield tried(f"{name}, stopped", lambda: stopped(scene, each))
    yield tried(f"{name}, torn", lambda: torn(scene, context.random(f"copies {name}")))
    yield tried(f"{name}, a call fails", lambda: failing(scene, context.random(f"copies {name} fails")))


def stopped(scene: Scene, each: int) -> str:
    """Killed before a call, by its number; how many stops there were. A later one has no earlier tree."""
    number, least, seen = 1, 0, set()
    while True:
        recording = scene.again((f"image:{number}:KILL",))
        data = scene.site.path.read_bytes()
        if recording.status != KILLED:
            if (recording.status, recording.out, recording.error) != (0, scene.wanted.line, b""):
                raise Different(f"unstopped it ended with {recording.status}, {recording.out!r}, {recording.error!r}")
            scene.judge(data, scene.wanted.trees[-1:], True)
            return f"{number // each} stops, {len(seen)} trees"
        try:
            scene.judge(data, scene.wanted.trees[least:], True)
        except Different as different:
            raise Different(f"stopped before call {number} of the image: {different}")
        tree = tree_under(scene.site.world(data), scene.sides[1])
        least += scene.wanted.trees[least:].index(tree)
        seen.add(least)
        number += each


def torn(scene: Scene, numbers: random.Random) -> str:
    """Images as a crash may leave them at moments of the copy: what wasn't synced is old, new, or anything."""
    recording = scene.again()
    stops = [number for number, _ in moments(Medium(scene.before), recording.events)]
    chosen = numbers.choices(stops, k=TORN_IMAGES)
    medium = Medium(scene.before)
    for number, progress in moments(medium, recording.events):
        trees = scene.wanted.trees[-1:] if progress.sent else scene.wanted.trees
        for _ in range(chosen.count(number)):
            choices = some_choices(numbers, medium)
            try:
                scene.judge(medium.image(choices), trees, numbers.random() < 0.1)
            except Different as different:
                raise Different(f"a crash at call {number + 1}, {told(choices)}: {different}")
    return f"{TORN_IMAGES} images"


def failing(scene: Scene, numbers: random.Random) -> str:
    """A write or a sync fails, once or from a number on: a device fault, and nothing is sent. Where the output fails
    all is done."""
    events = scene.again().events
    tries = []
    for kind, letter, error in (("write", "W", "EIO"), ("write", "W", "ENOSPC"), ("sync", "S", "EIO")):
        count = sum(event.kind == letter for event in events)
        picked = {1, count, *(numbers.randrange(1, count + 1) for _ in range(6))}
        tries += [f"{kind}:{number}{on}:{error}" for number in sorted(picked) for on in ("", "+")]
    for fault in tries:
        recording = scene.again((fault,))
        first = recording.error.partition(b"\n")[0]
        if (recording.status, recording.out, first) != (DEVICE_FAULT, b"", b"tsd: device fault"):
            raise Different(f"{fault}: ended with {recording.status}, {recording.out!r}, {recording.error!r}")
        try:
            scene.judge(scene.site.path.read_bytes(), scene.wanted.trees, True)
        except Different as different:
            raise Different(f"{fault}: {different}")
    recording = scene.again(("put:1+:EPIPE",))
    if recording.status != OUTPUT_FAULT:
        raise Different(f"an output that fails ended with {recording.status}, {recording.error!r}")
    scene.judge(scene.site.path.read_bytes(), scene.wanted.trees[-1:], True)
    return f"{len(tries)} faults"


def long_results(context: Context) -> Iterator[Result]:
    """Stopped at each tenth call: a file of 20,480 bytes from inodes to chains, over nothing and over another tree;
    directories over others; and a copy that is refused on the way."""
    for name, lines in (("over nothing", None), ("over another tree", [b"put /old 6f6c64", b"put /a 00"])):
        site = Site(context, 128, 512)
        site.make(INODES_0, lines_of(b"/a", content(20480)))
        if lines is not None:
            site.make(CHAINS_1, lines)
        before = site.path.read_bytes()
        yield from stop_results(context, f"a long file {name}", before, INODES_0, CHAINS_1, 10)
    site = Site(context, 200, 800)
    site.make(INODES_0, [b"mkdir /d", b"put /d/a -", b"mkdir /d/e", *lines_of(b"/d/f", content(4097)), b"put /z 7a"])
    site.make(INODES_1, [b"mkdir /z", b"put /z/old 00", b"put /a 01"])
    yield from stop_results(context, "directories over others", site.path.read_bytes(), INODES_0, INODES_1, 10)
    site = Site(context, 60, 240)
    site.make(CHAINS_0, [*lines_of(b"/a", content(5000)), *lines_of(b"/b", content(12000))])
    yield from stop_results(context, "refused on the way", site.path.read_bytes(), CHAINS_0, INODES_1, 10)


def mirror_results(context: Context) -> Iterator[Result]:
    """A copy on two images as one disk: both are alike; and where one fails, the other one has it."""
    site = Site(context, 64, 256)
    site.make(INODES_0, SMALL)
    one, two = site.path, context.folder / "second.img"
    program = Program(context.program)
    run = program.run(["mirror", one, two, *copying(INODES_0, CHAINS_1)])
    found = run.status, run.out, without_copying(run.error)
    yield compared("copied on a mirror", (0, b"copied 2 1\n", b""), found)
    yield compared("both images are alike", True, without_end(one) == without_end(two))
    found = [site.shell(CHAINS_1, [b"ls /", b"cat /a"], path) for path in (one, two)]
    yield compared("each has the tree", [[b"names a b", b"data 01"]] * 2, found)
    run = program.run(["mirror", one, two, *copying(INODES_0, CHAINS_0)])
    yield compared("refused on a mirror", (0, b"no shared 0\n", b""), tuple(run))
    run = program.run(["mirror", one, context.folder, *copying(INODES_0, INODES_1)])
    yield compared("one image of the mirror is lost", (SIDE_LOST, b"copied 2 1\n"), (run.status, run.out))
    yield compared("the other one has it", [b"names a b"], site.shell(INODES_1, [b"ls /"]))


# --- drawn ---

def drawn_tree(rng: random.Random, site: Site, side: Side, blocks: int, sectors: int, slots: int) -> None:
    """Lines of the shell at random, in one run over a side."""
    world = site.world()
    model = FileModel(side.kind, 512 * sectors, blocks - len(world.blocks), len(world.pairs), slots)
    drawer = FileDrawer(rng, model)
    lines = [b"mkfs"]
    model.answer(lines[0])
    for _ in range(rng.choice((3, 15, 40))):
        lines.append(drawer.line())
        model.answer(lines[-1])
    site.shell(side, lines)


def drawn_result(context: Context, number: int) -> Result:
    """Two trees drawn under two of three roots, a copy one way, and one more the other way."""
    rng = context.random(f"copies {number}")
    sectors = rng.choice((1, 1, 2, 4))
    blocks = rng.choice((20, rng.randint(20, 60), rng.randint(60, 250)))
    slots = rng.choice((4 * blocks, blocks, rng.randint(1, 2 * blocks)))
    roots = rng.sample(range(3), 2)
    sides = [Side(rng.choice((INODE, CHAIN)), root) for root in roots]
    site = Site(context, blocks, slots, sectors, 3)

    def play() -> str:
        for side in sides:
            if rng.random() < 0.8:
                drawn_tree(rng, site, side, blocks, sectors, slots)
        first = site.copy(*sides, rng.choice(PLACES))
        second = site.copy(*reversed(sides), rng.choice(PLACES))
        return (first + second).replace(b"\n", b", ").decode()[:-2]
    return tried(f"{number} of seed {context.seed}: {sides}, {blocks} blocks of {sectors}, {slots} slots", play)


def run(context: Context) -> Iterator[Result]:
    """All of it, where the program has the command."""
    asked = Program(context.program).run(["-", *copying(INODES_0, CHAINS_1)])
    if asked.status == USAGE:
        yield skipped("the command copyfs", "the program has none yet")
        return
    for results in (worked_results, usage_results, shared_results, size_results, form_results, refused_results,
                    long_results, mirror_results):
        yield from results(context)
    for number in range(DRAWN):
        yield drawn_result(context, number)

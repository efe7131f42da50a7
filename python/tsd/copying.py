"""The command `tsd-copy`: copies what primary blocks lead to from one image to another of the same or a larger size.

Each block keeps its number, its bytes and its pointers. The copy goes down from the primary blocks, a block after the
one that points to it: it is taken with its number as the hint, written, and then gets the pointers that it has. Each
step looks what is there already, so a copy that was stopped is run again by the same words.
"""

from __future__ import annotations

import argparse
import os
import subprocess
import sys
import time
from collections import deque
from concurrent.futures import Future
from contextlib import contextmanager
from typing import Any, Callable, Deque, Dict, Iterator, List, NamedTuple, Optional, Set, Tuple

import tsd
from tsd import requests
from tsd.capability import Capability, Pair
from tsd.programs import image_word, program_words
from tsd.replies import MOST_TARGETS

MAGIC = b"TSDISK01"
HEADER_BYTES = 28
UNDER_WAY = 32
FAILED = 1
REDRAW_SECONDS = 0.2
MOST_SECONDS = 600


class Stopped(Exception):
    """Why the copy can't go on, in a line that says what to do."""


class Size(NamedTuple):
    """The header of an image: the version, and the geometry."""

    version: int
    sectors: int
    blocks: int
    primaries: int
    slots: int


def size_of(image: str) -> Size:
    """The size of the disk in an image."""
    try:
        with open(image, "rb") as file:
            head = file.read(HEADER_BYTES)
    except OSError as error:
        raise Stopped(f"{image}: {error.strerror}") from None
    if len(head) < HEADER_BYTES or not head.startswith(MAGIC):
        raise Stopped(f"{image} is no image of tsd")
    return Size(*(int.from_bytes(head[at:at + 4], "little") for at in range(8, HEADER_BYTES, 4)))


def read_caps(paths: List[str]) -> Dict[int, Pair]:
    """The capabilities of primary blocks: lines `cap BLOCK READ WRITE`, as `tsd IMAGE format` prints them."""
    caps: Dict[int, Pair] = {}
    for path in paths:
        try:
            with open(path) as file:
                lines = file.read().splitlines()
        except OSError as error:
            raise Stopped(f"{path}: {error.strerror}") from None
        for number, line in enumerate(lines, 1):
            words = line.split()
            if len(words) != 4 or words[0] != "cap" or not words[1].isdigit():
                raise Stopped(f"{path}, line {number}: a line is `cap BLOCK READ WRITE`, as `tsd IMAGE format` "
                              "prints it")
            try:
                caps[int(words[1])] = Pair(Capability.from_hex(words[2]), Capability.from_hex(words[3]))
            except ValueError as error:
                raise Stopped(f"{path}, line {number}: {error}") from None
    if not caps:
        raise Stopped(f"no capability stands in {', '.join(paths)}")
    return caps


class Bar:
    """A line at a terminal that tells how far the copy is."""

    def __init__(self) -> None:
        self._is_shown = sys.stderr.isatty()
        self._began = time.monotonic()
        self._drawn = 0.0

    def draw(self, what: str, done: int, most: int) -> None:
        """So many blocks of at most so many are done."""
        now = time.monotonic()
        if self._is_shown and now - self._drawn > REDRAW_SECONDS:
            rate = done / max(now - self._began, 0.001)
            text = f"tsd-copy: {what}, {100 * done // max(most, 1)} % of {most} blocks, {rate:.0f} a second"
            print(f"\r\033[K{text}", end="", file=sys.stderr, flush=True)
            self._drawn = now

    def wipe(self) -> None:
        """Takes the line away."""
        if self._is_shown and self._drawn:
            print("\r\033[K", end="", file=sys.stderr, flush=True)


class Queue:
    """Requests under way, each with what is to be done with its answer."""

    def __init__(self, session: Any) -> None:
        self._session = session
        self._waiting: Deque[Tuple[Future, Callable[[Any], None]]] = deque()

    def ask(self, request: Any, then: Callable[[Any], None] = lambda answer: None) -> None:
        """Sends a request; where many are under way the oldest is waited for."""
        while len(self._waiting) >= UNDER_WAY:
            self._take()
        self._waiting.append((self._session.ask(request), then))

    def finish(self) -> None:
        """Waits for all."""
        while self._waiting:
            self._take()

    def _take(self) -> None:
        future, then = self._waiting.popleft()
        then(future.result())


CapOf = Callable[[int], Optional[Capability]]


def targets_of(session: Any, blocks: List[int], cap_of: CapOf) -> List[Tuple[int, List[int]]]:
    """All targets of these blocks, which are asked for at once."""
    asked = [session.ask(requests.List64(block, 0, cap_of(block))) for block in blocks]
    found = []
    for block, answer in zip(blocks, asked):
        targets = answer.result()
        if len(targets) == MOST_TARGETS:
            targets += session.list(block, cap_of(block), targets[-1] + 1)
        found.append((block, targets))
    return found


def parts_of(blocks: List[int]) -> Iterator[List[int]]:
    """As many at a time as are under way at once."""
    for at in range(0, len(blocks), UNDER_WAY):
        yield blocks[at:at + UNDER_WAY]


class Graph:
    """What primary blocks lead to, as one disk has it: each block with its depth, its parent and its targets."""

    def __init__(self, session: Any, caps: Dict[int, Pair], bar: Bar, what: str, most: int) -> None:
        self.targets: Dict[int, List[int]] = {}
        self.depth: Dict[int, int] = {block: 0 for block in caps}
        self.parent: Dict[int, int] = {}
        left: Deque[int] = deque(sorted(caps))
        while left:
            part = [left.popleft() for _ in range(min(len(left), UNDER_WAY))]
            for block, targets in targets_of(session, part, lambda block: caps[block].read if block in caps else None):
                self.targets[block] = targets
                for target in targets:
                    if target not in self.depth:
                        self.depth[target], self.parent[target] = self.depth[block] + 1, block
                        left.append(target)
            bar.draw(what, len(self.targets), most)

    def certificate(self, primaries: int) -> List[str]:
        """The lines of docs/FORMAT.md, Certificates, where the other primary blocks point to nothing."""
        least: Dict[int, int] = {}
        for block in sorted(self.targets):
            for target in self.targets[block]:
                if self.depth[target] == self.depth[block] + 1:
                    least.setdefault(target, block)
        blocks = sorted(set(self.depth) | set(range(primaries)))
        return [f"block {block} depth {self.depth.get(block, 0)} parent {least.get(block, '-')}" for block in blocks]


def run_program(program: Optional[str], image: str, *words: str) -> str:
    """Runs a command of tsd; what it prints."""
    command = program_words(program) + [image_word(image), *words]
    done = subprocess.run(command, stdin=subprocess.DEVNULL, capture_output=True, text=True)
    if done.returncode != 0:
        raise Stopped(f"tsd {image} {words[0]}: {'; '.join((done.stdout + done.stderr).split(chr(10))).strip('; ')}")
    return done.stdout


def make(program: Optional[str], image: str, size: Size, caps: Dict[int, Pair]) -> None:
    """Makes the new image, with the capabilities that are given; those of other primary blocks nobody knows. It has its
    name once it is whole."""
    part = f"{image}.part"
    fresh = tsd.format_disk(part, blocks=size.blocks, sectors=size.sectors, slots=size.slots, primaries=size.primaries,
                            program=program)
    with tsd.open(part, program=program) as disk, disk.session() as session:
        for block, pair in caps.items():
            session.set_capabilities(block, pair.read, pair.write, fresh[block].write)
    if size.version == 2:
        run_program(program, part, "upgrade")
    os.rename(part, image)


@contextmanager
def opened(program: Optional[str], image: str) -> Iterator[Any]:
    """A session of an image."""
    with tsd.open(image, program=program, limit=MOST_SECONDS) as disk, disk.session() as session:
        yield session


def copy(old: Any, new: Any, graph: Graph, caps: Dict[int, Pair], bar: Bar) -> None:
    """Takes the blocks, depth by depth; writes them; and points from each to those that it didn't take."""
    def cap_of(block: int) -> Optional[Capability]:
        return caps[block].write if block in caps else None

    held: Dict[int, Set[int]] = {}
    by_depth: Dict[int, List[int]] = {}
    for block, depth in graph.depth.items():
        by_depth.setdefault(depth, []).append(block)
    for depth in sorted(by_depth):
        for part in parts_of(by_depth[depth]):
            take_targets(new, graph, part, cap_of, held)
            bar.draw("taking blocks", len(held), len(graph.depth))
    done = 0
    for part in parts_of(list(graph.depth)):
        write_blocks(old, new, part, caps)
        done += len(part)
        bar.draw("writing", done, len(graph.depth))
    queue = Queue(new)
    for block, targets in graph.targets.items():
        for target in targets:
            if graph.parent.get(target) != block and target not in held[block]:
                queue.ask(requests.Create(block, target, cap_of(block)))
    queue.finish()


def take_targets(new: Any, graph: Graph, part: List[int], cap_of: CapOf, held: Dict[int, Set[int]]) -> None:
    """The blocks that these are the parents of, where they aren't there already."""
    def taken(block: int) -> Callable[[List[int]], None]:
        def then(blocks: List[int]) -> None:
            if blocks != [block]:
                raise Stopped(f"block {block} can't be had in the new image, which gave {blocks[0]}: take another name "
                              "for the new image, so that it is made anew")
        return then

    queue = Queue(new)
    for block, targets in targets_of(new, part, cap_of):
        held[block] = set(targets)
        surplus = held[block] - set(graph.targets[block])
        if surplus:
            raise Stopped(f"the new image has a pointer from block {block} to block {min(surplus)}, which the old one "
                          "hasn't: take another name for the new image, so that it is made anew")
    for block in part:
        for target in graph.targets[block]:
            if graph.parent.get(target) == block and target not in held[block]:
                queue.ask(requests.Alloc(block, 1, cap_of(block), target), taken(target))
    queue.finish()


def bytes_of(session: Any, part: List[int], caps: Dict[int, Pair]) -> List[bytes]:
    """The bytes of these blocks, which are asked for at once."""
    asked = [session.ask(requests.Read(block, caps[block].read if block in caps else None)) for block in part]
    return [answer.result() for answer in asked]


def write_blocks(old: Any, new: Any, part: List[int], caps: Dict[int, Pair]) -> None:
    """Those whose bytes differ."""
    queue = Queue(new)
    for block, data, there in zip(part, bytes_of(old, part, caps), bytes_of(new, part, caps)):
        if data != there:
            queue.ask(requests.Write(block, data, caps[block].write if block in caps else None))
    queue.finish()


def compare(old: Any, new: Any, graph: Graph, caps: Dict[int, Pair], bar: Bar) -> None:
    """Each block's bytes and pointers, of both."""
    other = Graph(new, caps, bar, "comparing", len(graph.depth))
    if other.targets != graph.targets:
        raise Stopped("the pointers of both images differ: was one of them changed meanwhile?")
    for part in parts_of(list(graph.depth)):
        if bytes_of(old, part, caps) != bytes_of(new, part, caps):
            raise Stopped("the bytes of both images differ: was one of them changed meanwhile?")


def check_sizes(old: Size, new: Size, caps: Dict[int, Pair], new_name: str) -> None:
    """Whether the old disk fits into the new one."""
    unknown = [block for block in caps if block >= old.primaries]
    if unknown:
        raise Stopped(f"block {unknown[0]} isn't primary: the old image has {old.primaries} primary blocks")
    if (new.sectors, new.primaries) != (old.sectors, old.primaries):
        raise Stopped(f"{new_name} has blocks of {new.sectors} sectors and {new.primaries} primary blocks, and the old "
                      f"image {old.sectors} and {old.primaries}: these have to be the same")
    if new.blocks < old.blocks or new.slots < old.slots:
        raise Stopped(f"{new_name} has {new.blocks} blocks and {new.slots} slots, and the old image {old.blocks} and "
                      f"{old.slots}: it has to have as many or more")


def run(given: argparse.Namespace, bar: Bar) -> str:
    """Copies and compares; what there is to say of it."""
    caps, old_size = read_caps(given.caps), size_of(given.old)
    blocks = given.blocks or old_size.blocks
    slots = given.slots or (old_size.slots if blocks == old_size.blocks else max(old_size.slots, 4 * blocks))
    wanted = old_size._replace(blocks=blocks, slots=slots)
    is_new = not os.path.exists(given.new)
    check_sizes(old_size, wanted if is_new else size_of(given.new), caps, given.new)
    if not is_new and os.path.samefile(given.old, given.new):
        raise Stopped("both names are of one image")
    with opened(given.program, given.old) as old:
        graph = Graph(old, caps, bar, "reading pointers", old_size.blocks)
        if is_new:
            make(given.program, given.new, wanted, caps)
        with opened(given.program, given.new) as new:
            copy(old, new, graph, caps, bar)
            compare(old, new, graph, caps, bar)
    expected = graph.certificate(old_size.primaries)
    for image in [given.new] + ([given.old] if len(caps) == old_size.primaries else []):
        if run_program(given.program, image, "audit").splitlines() != expected:
            raise Stopped(f"the certificate of {image} isn't that of what was copied: was it changed meanwhile?")
    pointers = sum(map(len, graph.targets.values()))
    return f"{len(graph.depth)} blocks and {pointers} pointers are in {given.new} as in {given.old}"


def options(words: Optional[List[str]]) -> argparse.Namespace:
    """The options of the command line."""
    parser = argparse.ArgumentParser(
        prog="tsd-copy", description="Copies what primary blocks lead to into another image, with block numbers, "
        "pointers and bytes as they are, and compares both. So a disk grows, or is backed up.",
        epilog="Nobody else may have either image open. A copy that was stopped goes on when it is run again.")
    parser.add_argument("old", metavar="OLD", help="the image that is copied; it stays as it is")
    parser.add_argument("new", metavar="NEW", help="the image that is made, or that a stopped copy has begun")
    parser.add_argument("--caps", metavar="FILE", action="append", required=True,
                        help="lines `cap BLOCK READ WRITE`, as `tsd IMAGE format` prints them; NEW gets the same ones")
    parser.add_argument("--blocks", type=int, help="how many blocks NEW has (as many as OLD)")
    parser.add_argument("--slots", type=int, help="how many pointers NEW has room for (four for each block, or as OLD)")
    parser.add_argument("--program", help="the program tsd")
    return parser.parse_args(words)


def main(words: Optional[List[str]] = None) -> int:
    """The command; its exit status."""
    given, bar = options(words), Bar()
    try:
        told = run(given, bar)
    except (Stopped, tsd.TsdError, OSError) as error:
        bar.wipe()
        text = "; ".join(str(error).splitlines())
        denied = ": a capability isn't right there any more" if isinstance(error, tsd.Denied) else ""
        print(f"tsd-copy: {text}{denied}", file=sys.stderr)
        return FAILED
    except KeyboardInterrupt:
        bar.wipe()
        print("tsd-copy: stopped; run it again to go on", file=sys.stderr)
        return FAILED
    bar.wipe()
    print(told)
    return 0

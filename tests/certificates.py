"""What `audit` tells of a world and what `verify` answers to a certificate, written from docs/FORMAT.md alone."""

from __future__ import annotations

import re
from typing import Dict, Iterable, List, NamedTuple, Optional, Set, Tuple

from disk_model import Pair, World

MOST_NUMBER = 4294967295
NUMBER = rb"([0-9]{1,10})"
LINE = re.compile(rb"block " + NUMBER + rb" depth " + NUMBER + rb" parent (-|[0-9]{1,10})")


class Entry(NamedTuple):
    """What a certificate says of a block."""

    depth: int
    parent: Optional[int]


def line_of(block: int, entry: Entry) -> bytes:
    """The line of a block."""
    parent = b"-" if entry.parent is None else b"%d" % entry.parent
    return b"block %d depth %d parent %s\n" % (block, entry.depth, parent)


def entries_of(pairs: Iterable[Pair], primaries: int) -> Dict[int, Entry]:
    """Of each block that the primary blocks lead to: how many pointers the shortest way to it has, and the least block
    one nearer that points to it."""
    targets: Dict[int, List[int]] = {}
    sources: Dict[int, List[int]] = {}
    for source, target in pairs:
        targets.setdefault(source, []).append(target)
        sources.setdefault(target, []).append(source)
    depths = {block: 0 for block in range(primaries)}
    now = list(depths)
    while now:
        later = []
        for source in now:
            for target in targets.get(source, ()):
                if target not in depths:
                    depths[target] = depths[source] + 1
                    later.append(target)
        now = later
    return {block: Entry(depth, min((source for source in sources.get(block, ()) if depths.get(source) == depth - 1),
                                    default=None)) for block, depth in depths.items()}


def certificate_of(world: World) -> bytes:
    """What `audit` puts."""
    _, _, primaries, _ = world.geometry
    entries = entries_of(world.pairs, primaries)
    return b"".join(line_of(block, entries[block]) for block in sorted(entries))


def parsed(line: bytes) -> Optional[Tuple[int, Entry]]:
    """What a line says, if it is of the form."""
    found = LINE.fullmatch(line)
    if not found:
        return None
    block, depth = int(found[1]), int(found[2])
    parent = None if found[3] == b"-" else int(found[3])
    if max(block, depth, parent or 0) > MOST_NUMBER:
        return None
    return block, Entry(depth, parent)


def answer_to(text: bytes, world: World) -> bytes:
    """What `verify` puts."""
    lines = text.split(b"\n")
    if not lines[-1]:
        lines.pop()
    _, blocks, _, _ = world.geometry
    entries: Dict[int, Entry] = {}
    last = -1
    for number, line in enumerate(lines, 1):
        said = parsed(line)
        if said is None or not last < said[0] < blocks:
            return b"no form %d\n" % number
        last = said[0]
        entries[last] = said[1]
    return verdict_of(entries, world)


def verdict_of(entries: Dict[int, Entry], world: World) -> bytes:
    """The answer to a certificate of which no line is refused."""
    _, _, primaries, _ = world.geometry
    for block in range(primaries):
        if block not in entries:
            return b"no primary %d\n" % block
    for block in sorted(entries):
        if not is_good(entries, block, world.pairs, primaries):
            return b"no entry %d\n" % block
    for source, target in sorted(world.pairs):
        if source in entries and target not in entries:
            return b"no open %d %d\n" % (source, target)
    return b"yes %d\n" % len(entries)


def is_good(entries: Dict[int, Entry], block: int, pairs: Set[Pair], primaries: int) -> bool:
    """Whether the entry of a listed block stands."""
    depth, parent = entries[block]
    if block < primaries:
        return depth == 0 and parent is None
    return parent in entries and (parent, block) in pairs and depth == entries[parent].depth + 1

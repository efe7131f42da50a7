"""Reads a tree of files from a world under a root, by the two layouts of docs/FILES.md alone."""

from __future__ import annotations

from dataclasses import dataclass, field
from typing import Dict, List, Optional, Set, Tuple, Union

from disk_model import SECTOR, World
from file_text import INODE, MOST_NAMES, is_name

HEAD = 16
ENTRY = 32
MOST_CHAIN_NAMES = 4096
DIRECTORY, FILE = 1, 2


@dataclass
class File:
    """A file: its bytes, and the blocks that they stand in (of inodes without the inode itself)."""

    text: bytes
    blocks: Tuple[int, ...] = ()


@dataclass
class Directory:
    """A directory: what stands at each name; over chains also the names in each cluster."""

    entries: Dict[bytes, Union[File, "Directory"]] = field(default_factory=dict)
    clusters: List[List[bytes]] = field(default_factory=list)


Plain = Union[bytes, Dict[bytes, "Plain"]]  # type: ignore[misc]


def plain(node: Union[File, Directory]) -> Plain:
    """A tree without its blocks: bytes, or a dictionary by names."""
    return node.text if isinstance(node, File) else {name: plain(below) for name, below in node.entries.items()}


class NoTree(Exception):
    """The world under the root is no tree of this layout."""


def number(text: bytes, at: int) -> int:
    """The number at a byte of a block."""
    return int.from_bytes(text[at:at + 4], "little")


def check(good: bool) -> None:
    """A rule of the layout."""
    if not good:
        raise NoTree


class Reader:
    """What both layouts need: blocks of a world that are named once, each by one that points to it."""

    def __init__(self, world: World, root: int) -> None:
        self.world = world
        self.length = SECTOR * world.geometry[0]
        self.named: Set[int] = {root}

    def follow(self, source: int, target: int) -> None:
        """The source names the target, so it has to point to it."""
        check((source, target) in self.world.pairs)

    def name(self, source: int, target: int) -> None:
        """The same, for a block that only one may name."""
        self.follow(source, target)
        check(target not in self.named)
        self.named.add(target)

    def block(self, number_of: int, magic: bytes) -> bytes:
        """The bytes of a block that begins so."""
        text = self.world.blocks.get(number_of, b"")
        check(text[:8] == magic)
        return text

    def entries(self, text: bytes, amount: int) -> List[Tuple[bytes, int]]:
        """The names in a block, each with the block that it names, as they stand."""
        check(amount <= (self.length - HEAD) // ENTRY)
        found = []
        for at in range(HEAD, HEAD + ENTRY * amount, ENTRY):
            name = text[at + 4:at + ENTRY].rstrip(b"\0")
            check(is_name(name))
            found.append((name, number(text, at)))
        return found


class Inodes(Reader):
    """A tree of inodes."""

    def __init__(self, world: World, root: int) -> None:
        super().__init__(world, root)
        self.of_bytes: Set[int] = set()

    def node(self, block: int, depth: int) -> Union[File, Directory]:
        """What the inode in a block is, so many names below the root."""
        check(depth <= MOST_NAMES)
        text = self.block(block, b"TSDINOD1")
        kind, amount = number(text, 8), number(text, 12)
        check(kind in (DIRECTORY, FILE))
        return self.file(block, text, amount) if kind == FILE else self.directory(block, text, amount, depth)

    def directory(self, block: int, text: bytes, amount: int, depth: int) -> Directory:
        """A directory and what is below it."""
        entries = self.entries(text, amount)
        check(all(one[0] < next_one[0] for one, next_one in zip(entries, entries[1:])))
        found = Directory()
        for name, target in entries:
            self.name(block, target)
            found.entries[name] = self.node(target, depth + 1)
        return found

    def file(self, block: int, text: bytes, size: int) -> File:
        """A file and its bytes."""
        count = (size + self.length - 1) // self.length
        check(count <= (self.length - HEAD) // 4)
        blocks = tuple(number(text, HEAD + 4 * at) for at in range(count))
        check(len(set(blocks)) == count)
        for target in blocks:
            self.follow(block, target)
        self.of_bytes.update(blocks)
        return File(b"".join(self.world.blocks[target] for target in blocks)[:size], blocks)


class Chains(Reader):
    """A tree of chains."""

    def cluster(self, block: int) -> Tuple[bytes, Optional[int], int]:
        """A cluster's bytes, the next cluster, and how much of it is used."""
        text = self.block(block, b"TSDCHAN1")
        after = number(text, 8)
        return text, after - 1 if after else None, number(text, 12)

    def directory(self, root: int) -> Directory:
        """The directory and its files."""
        found = Directory()
        firsts: List[Tuple[int, bytes, int]] = []
        block: Optional[int] = root
        while block is not None:
            text, after, used = self.cluster(block)
            entries = self.entries(text, used)
            found.clusters.append([name for name, _ in entries])
            firsts += [(block, name, target) for name, target in entries]
            if after is not None:
                self.name(block, after)
            block = after
        check(len({name for _, name, _ in firsts}) == len(firsts) <= MOST_CHAIN_NAMES)
        for source, name, target in firsts:
            self.name(source, target)
            found.entries[name] = self.file(target)
        return found

    def file(self, first: int) -> File:
        """A file from its first cluster on."""
        room = self.length - HEAD
        pieces, blocks = [], []
        block: Optional[int] = first
        while block is not None:
            text, after, used = self.cluster(block)
            check(used <= room if after is None else used == room)
            check(used > 0 or block == first)
            pieces.append(text[HEAD:HEAD + used])
            blocks.append(block)
            if after is not None:
                self.name(block, after)
            block = after
        return File(b"".join(pieces), tuple(blocks))


def read_tree(world: World, kind: str, root: int) -> Optional[Directory]:
    """The tree under a root, or None where there is none."""
    try:
        if kind == INODE:
            reader = Inodes(world, root)
            found = reader.node(root, 0)
            check(isinstance(found, Directory) and not reader.named & reader.of_bytes)
            return found if isinstance(found, Directory) else None
        return Chains(world, root).directory(root)
    except NoTree:
        return None

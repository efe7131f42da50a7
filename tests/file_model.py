"""A plain model of both file systems, from docs/FILES.md alone: what each ask does to a tree, the refusals in their
order, and what is needed and held of blocks and pointers. It holds no blocks: those of a file are tokens that may be
shared.

    model = FileModel(INODE, block_length=512, free=7, held=0, slots=32)
    model.answer(b"mkfs")            # b"ok\n"
    model.answer_body(b"\x09")       # b"free 7\n"
"""

from __future__ import annotations

from typing import Optional, Set, Tuple, Union

from disk_model import SECTOR, World
from file_text import BAD_REQUEST, CHAIN, INODE, MOST_DATA, Ask, Path, parse_ask, parse_body
from file_trees import ENTRY, HEAD, MOST_CHAIN_NAMES, Directory, File, Plain, plain, read_tree


class Refusal(Exception):
    """An ask is refused; its words."""


def parts(amount: int, each: int) -> int:
    """How many pieces an amount takes: rounded up."""
    return (amount + each - 1) // each


def told(found: Union[File, Directory]) -> str:
    """What stands somewhere, in words."""
    return "dir" if isinstance(found, Directory) else f"file {len(found.text)}"


class FileModel:
    """A file system over a disk: its tree, and how many blocks would be free and pointers held without it."""

    def __init__(self, kind: str, block_length: int, free: int, held: int, slots: int) -> None:
        """Nothing is mounted; so many blocks are free and so many pointers held."""
        self.kind = kind
        self.length = block_length
        self.root: Optional[Directory] = None
        self.slots = slots
        self.base_free = free
        self.base_held = held
        self._last_token = 0

    @classmethod
    def mounted(cls, kind: str, world: World, root: int) -> FileModel:
        """The file system in a world, with the numbers as they stand there."""
        k, n, _, m = world.geometry
        model = cls(kind, SECTOR * k, n - len(world.blocks), len(world.pairs), m)
        model.root = read_tree(world, kind, root)
        blocks, pointers = model._used()
        model.base_free += blocks
        model.base_held -= pointers
        return model

    # --- what is held ---

    @property
    def free(self) -> int:
        """How many blocks are free."""
        return self.base_free - self._used()[0]

    @property
    def held(self) -> int:
        """How many pointers are held."""
        return self.base_held + self._used()[1]

    def tree(self) -> Optional[Plain]:
        """The tree, without its blocks."""
        return None if self.root is None else plain(self.root)

    def _used(self) -> Tuple[int, int]:
        """How many blocks, but for the root, and how many pointers the tree takes."""
        if self.root is None:
            return 0, 0
        tokens: Set[int] = set()
        return self._used_below(self.root, tokens, self.kind == CHAIN)

    def _used_below(self, node: Directory, tokens: Set[int], is_chain: bool) -> Tuple[int, int]:
        more_clusters = max(0, len(node.clusters) - 1)
        blocks, pointers = more_clusters, more_clusters
        for below in node.entries.values():
            if isinstance(below, Directory):
                inner_blocks, inner_pointers = self._used_below(below, tokens, is_chain)
                blocks, pointers = blocks + 1 + inner_blocks, pointers + 1 + inner_pointers
                continue
            new = set(below.blocks) - tokens
            tokens |= new
            inode = 0 if is_chain else 1
            blocks, pointers = blocks + inode + len(new), pointers + inode + len(below.blocks)
        return blocks, pointers

    def _tokens(self, count: int) -> Tuple[int, ...]:
        """New blocks. They are negative, so none is a block of a world that was mounted."""
        first = self._last_token - count
        self._last_token = first
        return tuple(range(first, first + count))

    # --- asks ---

    def answer(self, line: bytes) -> bytes:
        """The line, with its line feed, that answers a line."""
        return self.carry_out(parse_ask(line, self.kind))

    def answer_body(self, body: bytes) -> bytes:
        """The line that answers the body of a frame."""
        return self.carry_out(parse_body(body, self.kind))

    def carry_out(self, ask: Optional[Ask]) -> bytes:
        """The line that answers an ask; none is a bad request."""
        if ask is None:
            return BAD_REQUEST
        try:
            return self._answer(ask).encode() + b"\n"
        except Refusal as refusal:
            return f"no {refusal}\n".encode()

    def _answer(self, ask: Ask) -> str:
        if ask.name == "df":
            return f"free {self.free}"
        if ask.name == "mkfs":
            self.root = Directory(clusters=[[]] if self.kind == CHAIN else [])
            return "ok"
        if self.root is None:
            raise Refusal("not-this-fs")
        done = {"put": self._put, "append": self._append, "cat": self._cat, "ls": self._ls, "mkdir": self._mkdir,
                "rm": self._rm, "cp": self._cp, "size": self._size, "read": self._read, "next": self._next}
        return done[ask.name](ask)

    def _way(self, path: Path) -> Directory:
        """The directory in which the path's last name stands or would stand."""
        assert self.root is not None
        now = self.root
        for name in path[:-1]:
            below = now.entries.get(name)
            if below is None:
                raise Refusal("no-entry")
            if isinstance(below, File):
                raise Refusal("not-dir")
            now = below
        return now

    def _at(self, path: Path) -> Union[File, Directory]:
        """What stands at a path."""
        above = self._way(path)
        if not path:
            return above
        if path[-1] not in above.entries:
            raise Refusal("no-entry")
        return above.entries[path[-1]]

    def _file(self, path: Path) -> File:
        found = self._at(path)
        if isinstance(found, Directory):
            raise Refusal("is-dir")
        return found

    def _cat(self, ask: Ask) -> str:
        return "data " + (self._file(ask.path).text.hex() or "-")

    def _ls(self, ask: Ask) -> str:
        found = self._at(ask.path)
        if isinstance(found, File):
            raise Refusal("not-dir")
        return " ".join(["names"] + ([name.decode() for name in sorted(found.entries)] or ["-"]))

    def _size(self, ask: Ask) -> str:
        return told(self._at(ask.path))

    def _read(self, ask: Ask) -> str:
        text = self._file(ask.path).text[ask.start:][:min(ask.count, MOST_DATA)]
        return "data " + (text.hex() or "-")

    def _next(self, ask: Ask) -> str:
        found = self._at(ask.path)
        if isinstance(found, File):
            raise Refusal("not-dir")
        above = [name for name in sorted(found.entries) if name > ask.after]
        return f"next {above[0].decode()} {told(found.entries[above[0]])}" if above else "names -"

    def _rm(self, ask: Ask) -> str:
        found = self._at(ask.path)
        if not ask.path:
            raise Refusal("is-dir")
        if isinstance(found, Directory) and found.entries:
            raise Refusal("not-empty")
        above = self._way(ask.path)
        del above.entries[ask.path[-1]]
        for names in above.clusters:
            if ask.path[-1] in names:
                names.remove(ask.path[-1])
        return "ok"

    def _put(self, ask: Ask) -> str:
        above = self._way(ask.path)
        old = above.entries.get(ask.path[-1]) if ask.path else above
        if isinstance(old, Directory):
            raise Refusal("is-dir")
        is_new = old is None
        if is_new:
            self._refuse_full_directory(above)
        if self.kind == INODE:
            count = parts(len(ask.data), self.length)
            self._refuse_size(count)
            self._refuse_room(1 + count, 1 + count)
        else:
            count = max(1, parts(len(ask.data), self.length - HEAD))
            need = count + (1 if is_new and not self._has_room(above) else 0)
            self._refuse_room(need, need)
        self._enter(above, ask.path[-1], File(ask.data, self._tokens(count)))
        return "ok"

    def _append(self, ask: Ask) -> str:
        old = self._file(ask.path)
        text = old.text + ask.data
        if not ask.data:
            return "ok"
        if self.kind == INODE:
            full = len(old.text) // self.length
            count = parts(len(text), self.length)
            self._refuse_size(count)
            self._refuse_room(1 + count - full, 1 + count)
            new = File(text, old.blocks[:full] + self._tokens(count - full))
        else:
            more = max(0, parts(len(text), self.length - HEAD) - len(old.blocks))
            self._refuse_room(more, more)
            new = File(text, old.blocks + self._tokens(more))
        self._way(ask.path).entries[ask.path[-1]] = new
        return "ok"

    def _mkdir(self, ask: Ask) -> str:
        above = self._way(ask.path)
        if not ask.path or ask.path[-1] in above.entries:
            raise Refusal("exists")
        self._refuse_full_directory(above)
        self._refuse_room(1, 1)
        above.entries[ask.path[-1]] = Directory()
        return "ok"

    def _cp(self, ask: Ask) -> str:
        old = self._file(ask.path)
        above = self._way(ask.new_path)
        if not ask.new_path or ask.new_path[-1] in above.entries:
            raise Refusal("exists")
        self._refuse_full_directory(above)
        self._refuse_room(1, 1 + len(old.blocks))
        above.entries[ask.new_path[-1]] = File(old.text, old.blocks)
        return "ok"

    # --- room ---

    def _entries_room(self) -> int:
        """The most entries of one block."""
        return (self.length - HEAD) // ENTRY

    def _has_room(self, above: Directory) -> bool:
        return any(len(names) < self._entries_room() for names in above.clusters)

    def _refuse_full_directory(self, above: Directory) -> None:
        most = self._entries_room() if self.kind == INODE else MOST_CHAIN_NAMES
        if len(above.entries) >= most:
            raise Refusal("dir-full")

    def _refuse_size(self, blocks: int) -> None:
        if blocks > (self.length - HEAD) // 4:
            raise Refusal("too-big")

    def _refuse_room(self, blocks: int, pointers: int) -> None:
        if self.free < blocks:
            raise Refusal(f"full {self.free} {blocks}")
        if self.held + pointers > self.slots:
            raise Refusal(f"pointers-full {self.held} {self.slots}")

    def _enter(self, above: Directory, name: bytes, new: File) -> None:
        """Puts a file at a name; over chains a new name goes to the first cluster with room, or to a new one."""
        if self.kind == CHAIN and name not in above.entries:
            with_room = [names for names in above.clusters if len(names) < self._entries_room()]
            if not with_room:
                above.clusters.append([])
            (with_room or above.clusters[-1:])[0].append(name)
        above.entries[name] = new

#!/usr/bin/env python3
"""A store of files with their history under one block; the disk collects what nothing reaches: object_store.md."""

from __future__ import annotations

import json
import sys
import tempfile
from pathlib import Path
from typing import Dict, Iterator, NamedTuple, Optional

sys.path.insert(0, str(Path(__file__).resolve().parent.parent / "python"))

import tsd  # noqa: E402

ROOT = 0
NO_BLOCK = 0


class Commit(NamedTuple):
    """A state of all files: its block, the block of the one before, and the block of each file's bytes."""

    block: int
    parent: Optional[int]
    files: Dict[str, int]


class Store:
    """Block 0 names the newest commit and points to it; a commit points to the one before and to each of its files."""

    def __init__(self, session: tsd.Session, write: tsd.Capability) -> None:
        self._session = session
        self._write = write

    def newest(self) -> Optional[Commit]:
        """The newest commit."""
        block = int.from_bytes(self._session.read(ROOT, self._write)[:4], "little")
        return None if block == NO_BLOCK else self._commit(block)

    def history(self) -> Iterator[Commit]:
        """All commits, the newest first."""
        commit = self.newest()
        while commit is not None:
            yield commit
            commit = None if commit.parent is None else self._commit(commit.parent)

    def commit(self, changed: Dict[str, bytes]) -> Commit:
        """A new commit; files that didn't change are shared with the one before. The write to block 0 decides."""
        before = self.newest()
        [block] = self._session.alloc(ROOT, 1, self._write)
        files: Dict[str, int] = {}
        for name, old in (before.files if before else {}).items():
            if name not in changed:
                self._session.read(old)
                self._session.create(block, old)
                files[name] = old
        for name, text in changed.items():
            [files[name]] = self._session.alloc(block, 1)
            self._session.write(files[name], text)
        new = Commit(block, before.block if before else None, files)
        if before:
            self._session.create(block, before.block)
        self._put(new)
        self._session.write(ROOT, block.to_bytes(4, "little"), self._write)
        if before:
            self._session.delete(ROOT, before.block, self._write)
        return new

    def read(self, commit: Commit, name: str) -> bytes:
        """A file as it was at a commit."""
        return self._session.read(commit.files[name]).rstrip(b"\0")

    def forget(self, last: Commit) -> int:
        """Lets go of all commits before this one: one pointer goes, and the disk reclaims what hung on it alone."""
        assert last.parent is not None
        self._put(last._replace(parent=None))
        return self._session.delete(last.block, last.parent)

    def _commit(self, block: int) -> Commit:
        told = json.loads(self._session.read(block).rstrip(b"\0"))
        return Commit(block, told["parent"], told["files"])

    def _put(self, commit: Commit) -> None:
        self._session.write(commit.block, json.dumps({"parent": commit.parent, "files": commit.files}).encode())


def main(image: Path) -> None:
    """Some commits, a look back, and a shorter history."""
    [pair] = tsd.format_disk(image, blocks=64)
    with tsd.open(image) as disk, disk.session() as session:
        store = Store(session, pair.write)
        store.commit({"readme": b"a store", "notes": b"first"})
        for number in range(2, 11):
            store.commit({"notes": b"note %d" % number})
        commits = list(store.history())
        print(f"{len(commits)} commits, {disk.free()} blocks are free")
        print(f"notes ten commits ago: {store.read(commits[-1], 'notes').decode()}")
        print(f"forgetting all but three: {store.forget(commits[2])} blocks were reclaimed")
        commits = list(store.history())
        texts = [store.read(commit, "notes").decode() for commit in commits]
        print(f"{len(commits)} commits, {disk.free()} blocks are free: {', '.join(texts)}")
        print(f"readme, shared by all since the first: {store.read(commits[-1], 'readme').decode()}")


if __name__ == "__main__":
    with tempfile.TemporaryDirectory() as name:
        main(Path(name) / "disk.img")

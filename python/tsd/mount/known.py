"""What is at each path of a tree, asked once: nobody else changes a tree while its program has the image."""

from __future__ import annotations

import bisect
from collections import OrderedDict
from typing import Dict, Iterator, List, Optional

from tsd.shell.files import DIRECTORY, FILE, Files
from tsd.shell.paths import split_path
from tsd.shell.refusals import ShellRefused

MOST_PATHS = 100_000
MOST_BYTES = 16 << 20
MOST_OF_ONE = 1 << 20


class Known:
    """Kinds, names and sizes that were asked for, and the bytes of small files that were read of late."""

    def __init__(self, files: Files) -> None:
        self._files = files
        self._kinds: Dict[str, Optional[str]] = {}
        self._names: Dict[str, List[str]] = {}
        self._sizes: Dict[str, int] = {}
        self._kept: "OrderedDict[str, bytes]" = OrderedDict()
        self._bytes = 0

    def kind(self, path: str) -> Optional[str]:
        """A file, a directory, or nothing. ShellRefused (`not-dir`) where a file is on the way."""
        if path == "/":
            return DIRECTORY
        above = self.kind(split_path(path)[0])
        if above == FILE:
            raise ShellRefused("not-dir")
        if above is None:
            return None
        if path not in self._kinds:
            if len(self._kinds) >= MOST_PATHS:
                self._kinds.clear()
                self._sizes.clear()
            found = self._files.found(path)
            self._kinds[path] = found and found.kind
            if found and found.kind == FILE:
                self._sizes[path] = found.size
        return self._kinds[path]

    def names(self, path: str) -> List[str]:
        """The names in a directory, in order."""
        if path not in self._names:
            if sum(map(len, self._names.values())) >= MOST_PATHS:
                self._names.clear()
            self._names[path] = self._files.names(path)
        return self._names[path]

    def size(self, path: str) -> int:
        """How many bytes a file has."""
        if path not in self._sizes:
            self._sizes[path] = self._files.stat(path).size
        return self._sizes[path]

    def pieces(self, path: str) -> Iterator[bytes]:
        """A file's bytes, as they come."""
        kept = self._kept.get(path)
        if kept is not None:
            self._kept.move_to_end(path)
            yield kept
            return
        taken, count = bytearray(), 0
        for piece in self._files.get(path):
            count += len(piece)
            if count <= MOST_OF_ONE:
                taken += piece
            yield piece
        self._sizes[path] = count
        if count <= MOST_OF_ONE:
            self._keep(path, bytes(taken))

    def made(self, path: str, kind: str) -> None:
        """A file without bytes or a directory without names is there now."""
        above, name = split_path(path)
        names = self._names.get(above)
        if names is not None and name not in names:
            bisect.insort(names, name)
        self._kinds[path] = kind
        if kind == FILE:
            self.changed(path, 0)

    def gone(self, path: str) -> None:
        """Nothing is there any more."""
        above, name = split_path(path)
        if name in self._names.get(above, ()):
            self._names[above].remove(name)
        self._names.pop(path, None)
        self._kinds[path] = None
        self._drop(path)

    def changed(self, path: str, size: int) -> None:
        """A file has other bytes, so many of them."""
        self._drop(path)
        self._sizes[path] = size

    def forget(self) -> None:
        """Whatever was known may be otherwise."""
        for known in (self._kinds, self._names, self._sizes, self._kept):
            known.clear()
        self._bytes = 0

    def _keep(self, path: str, data: bytes) -> None:
        self._kept[path] = data
        self._bytes += len(data)
        while self._bytes > MOST_BYTES:
            self._bytes -= len(self._kept.popitem(last=False)[1])

    def _drop(self, path: str) -> None:
        self._bytes -= len(self._kept.pop(path, b""))
        self._sizes.pop(path, None)

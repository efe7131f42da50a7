"""What takes many asks: a tree that goes, and a file or a tree that gets another name."""

from __future__ import annotations

import tempfile
from typing import Callable

from tsd.errors import TsdError
from tsd.shell.files import DIRECTORY, FILE, Files, Stopped
from tsd.shell.paths import INODE, below, split_path
from tsd.shell.puts import Puts
from tsd.shell.refusals import ShellRefused

# Is called between asks with how many names were gone through; what it raises stops the work.
Looks = Callable[[int], None]


class InItself(TsdError):
    """A directory would come into itself."""

    def __str__(self) -> str:
        return "a directory can't go into itself"


class Trees:
    """Over the files of a disk."""

    def __init__(self, files: Files, puts: Puts) -> None:
        self._files = files
        self._puts = puts
        self._count = 0

    def remove(self, path: str, looks: Looks) -> None:
        """Takes away a file, or a directory with all that is in it, from the leaves to the top."""
        try:
            self._files.do("rm", path)
        except ShellRefused as refused:
            if refused.rule != "not-empty":
                raise
            for name in self._files.names(path):
                self.remove(below(path, name), looks)
            self._files.do("rm", path)
        self._puts.settle(path)
        self._looked(looks)

    def move(self, source: str, target: str, looks: Looks) -> None:
        """Another name for a file or a directory; into a directory where the target is one. No line of the disk does it
        as one change: the new name is there first, and then the old one goes. A refusal leaves the old one."""
        found = self._files.look(source)
        if found is None:
            raise self._refused("no-entry", source)
        if self._files.look(target) == DIRECTORY:
            target = below(target, split_path(source)[1])
        if target == source:
            return
        if found == DIRECTORY and f"{target}/".startswith(f"{source}/"):
            raise InItself
        if self._files.look(target) is not None:
            raise self._refused("exists", target)
        try:
            self._copy(source, target, found, looks)
        except (ShellRefused, Stopped, OSError):
            if self._files.look(target) is not None:
                self.remove(target, lambda count: None)
            raise
        self.remove(source, lambda count: None)

    def _copy(self, source: str, target: str, kind: str, looks: Looks) -> None:
        if kind == FILE:
            self._copy_file(source, target)
        else:
            self._files.do("mkdir", target)
            for name in self._files.names(source):
                inner = below(source, name)
                self._copy(inner, below(target, name), self._files.look(inner) or FILE, looks)
        self._looked(looks)

    def _copy_file(self, source: str, target: str) -> None:
        if self._files.kind == INODE:
            self._files.do("cp", source, target)
            return
        with tempfile.TemporaryFile() as file:
            for piece in self._files.get(source):
                file.write(piece)
            size = file.tell()
            file.seek(0)
            self._puts.put(file, target, size=size)

    def _looked(self, looks: Looks) -> None:
        self._count += 1
        looks(self._count)

    def _refused(self, rule: str, path: str) -> ShellRefused:
        refused = ShellRefused(rule)
        refused.paths = (path,)
        return refused

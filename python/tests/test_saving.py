"""`get`: a local file is written whole or not at all, keeps its mode, and nothing else is touched."""

from __future__ import annotations

import os
import socket
import stat
from typing import Generator, List
from unittest import mock

from support import InFolder

from tsd.shell.files import Stopped
from tsd.shell.saving import NotRegular, save


def pieces_of(*pieces: bytes, end: BaseException = StopIteration()) -> Generator[bytes, None, None]:
    """Pieces, and what comes behind them."""
    yield from pieces
    if not isinstance(end, StopIteration):
        raise end


class Saving(InFolder):
    """Over files of every sort."""

    def path(self, name: str) -> str:
        """A path in the folder."""
        return str(self.folder / name)

    def names(self) -> List[str]:
        """What is in the folder."""
        return sorted(os.listdir(self.folder))

    def test_what_is_no_regular_file_stays(self) -> None:
        self.image.write_bytes(b"mine")
        os.symlink(self.image, self.path("link"))
        os.symlink(self.path("none"), self.path("dangling"))
        os.mkfifo(self.path("pipe"))
        os.mkdir(self.path("folder"))
        kinds = {"link": "a symbolic link", "dangling": "a symbolic link", "pipe": "a pipe", "folder": "a directory",
                 "socket": "a socket"}
        with socket.socket(socket.AF_UNIX) as listener:
            listener.bind(self.path("socket"))
            try:
                os.mknod(self.path("device"), stat.S_IFCHR | 0o600, os.makedev(1, 3))
                kinds["device"] = "a device"
            except PermissionError:
                pass
            before = {name: os.lstat(self.path(name)) for name in self.names()}
            for name, kind in kinds.items():
                told = f"{name} is {kind}; get replaces regular files alone"
                with self.subTest(name), self.assertRaisesRegex(NotRegular, told):
                    save(pieces_of(b"x"), self.path(name))
            after = {name: os.lstat(self.path(name)) for name in self.names()}
        self.assertEqual([(name, one.st_mode, one.st_ino) for name, one in before.items()],
                         [(name, one.st_mode, one.st_ino) for name, one in after.items()])
        self.assertEqual(b"mine", self.image.read_bytes())

    def test_modes(self) -> None:
        for mode in (0o600, 0o640, 0o755, 0o444):
            self.image.write_bytes(b"old")
            self.image.chmod(mode)
            save(pieces_of(b"new", b"er"), str(self.image))
            self.assertEqual((b"newer", mode), (self.image.read_bytes(), stat.S_IMODE(self.image.stat().st_mode)))
            self.image.unlink()
        for mask, mode in ((0o022, 0o644), (0o077, 0o600)):
            before = os.umask(mask)
            try:
                save(pieces_of(), self.path("new"))
            finally:
                os.umask(before)
            self.assertEqual(mode, stat.S_IMODE(os.stat(self.path("new")).st_mode))
            os.unlink(self.path("new"))

    def test_what_is_written_is_its_owners_alone_until_it_is_whole(self) -> None:
        def look() -> Generator[bytes, None, None]:
            yield b"secret"
            self.modes = [stat.S_IMODE(os.stat(self.path(name)).st_mode) for name in self.names()]
            yield b"more"

        save(look(), self.path("new"))
        self.assertEqual([0o600], self.modes)

    def test_owners(self) -> None:
        if os.geteuid() != 0:
            self.skipTest("only root gives files away")
        self.image.write_bytes(b"old")
        os.chown(self.image, 1234, 4321)
        save(pieces_of(b"new"), str(self.image))
        self.assertEqual((1234, 4321), (self.image.stat().st_uid, self.image.stat().st_gid))

    def test_only_what_it_made_is_deleted(self) -> None:
        other = f"{self.path('x')}.{os.getpid()}.part"
        with open(other, "w") as file:
            file.write("mine")
        before = self.names()
        for error in (Stopped(), OSError("disk full"), KeyboardInterrupt()):
            for pieces in ((), (b"a",), (b"a", b"b")):
                with self.assertRaises(type(error)):
                    save(pieces_of(*pieces, end=error), self.path("x"))
                self.assertEqual(before, self.names())
        save(pieces_of(b"new"), self.path("x"))
        self.assertEqual(sorted([*before, "x"]), self.names())
        with open(other) as file:
            self.assertEqual("mine", file.read())

    def test_an_old_file_stays_where_the_new_one_does_not_come(self) -> None:
        self.image.write_bytes(b"old")
        with self.assertRaises(Stopped):
            save(pieces_of(b"new", end=Stopped()), str(self.image))
        self.assertEqual((b"old", ["disk.img"]), (self.image.read_bytes(), self.names()))

    def test_it_is_on_the_medium_before_it_takes_its_place(self) -> None:
        order: List[str] = []

        def note(name: str) -> mock.Mock:
            real = getattr(os, name)
            return mock.patch.object(os, name, side_effect=lambda *given: (order.append(name), real(*given))[1])

        with note("fsync"), note("replace"):
            save(pieces_of(b"new"), self.path("x"))
        self.assertEqual(["fsync", "replace", "fsync"], order)

    def test_long_names(self) -> None:
        save(pieces_of(b"x"), self.path("n" * 255))
        self.assertEqual(["n" * 255], self.names())

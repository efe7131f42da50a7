"""The disk in this process (`tsd.open(..., embedded=True)`): the cases of clients/cases.txt; that an image has one
opener; how it fails; threads, and a child of fork. The shared library is compiled for these tests, with syncs that fail
once the variable SYNCS says so."""

from __future__ import annotations

import asyncio
import os
import re
import shutil
import subprocess
import sys
import tempfile
import threading
import unittest
from pathlib import Path
from typing import List
from unittest import mock

from support import MOST_SECONDS, PROGRAM, TOP, InFolder, tsd

from case_table import make_disk
import test_cases
from tsd import embedded, requests

IN_USE, NO_IMAGE, FAILED_SYNC = 27, 3, 4


def compiled(folder: Path) -> Path:
    """The shared library; SkipTest where it can't be made."""
    compiler = shutil.which("cc") or shutil.which("gcc") or shutil.which("clang")
    words = [str(TOP / "tools/embed"), "--no-build"]
    archive = subprocess.run(words, capture_output=True, text=True, timeout=MOST_SECONDS).stdout.strip()
    if compiler is None or not archive:
        raise unittest.SkipTest("there is no C compiler" if archive else "tools/embed has no library of these sources")
    host, library = TOP / "clients/embed", folder / "libtsd_embed.so"
    sources = [host / "tsd_embed.c", host / "tests/failing_syncs.c", archive]
    command = [compiler, "-std=c11", "-O2", "-shared", "-fPIC", "-pthread", "-Wl,--wrap=msync", "-o", library, *sources]
    subprocess.run(list(map(str, command)), check=True, timeout=MOST_SECONDS)
    return library


class Embedded(InFolder):
    """All of it."""

    @classmethod
    def setUpClass(cls) -> None:
        holder = tempfile.TemporaryDirectory(prefix="tsd-library-")
        cls.addClassCleanup(holder.cleanup)
        os.environ[embedded.LIBRARY_VARIABLE] = str(compiled(Path(holder.name)))
        cls.addClassCleanup(os.environ.pop, embedded.LIBRARY_VARIABLE)

    def test_each_case(self) -> None:
        for case in test_cases.TABLE.cases:
            for together in (False, True):
                with self.subTest(case.name, together=together):
                    caps = make_disk(Path(PROGRAM), self.image, case.size)
                    with tsd.open(self.image, embedded=True) as disk:
                        test_cases.Cases.try_case(self, case, caps, disk, together)  # type: ignore[arg-type]
                    done = subprocess.run([PROGRAM, str(self.image), "check"], capture_output=True, text=True)
                    self.assertEqual((0, "clean"), (done.returncode, done.stdout[:5]))

    def test_the_program_goes_on_where_it_ended(self) -> None:
        [pair] = self.make()
        with tsd.open(self.image, embedded=True) as disk, disk.session() as session:
            self.assertEqual((512, 64, 1), disk.geometry[:3])
            session.write(0, b"hello", pair.write)
            self.assertEqual([1], session.alloc(0, 1, pair.write))
        with tsd.open(self.image) as disk, disk.session() as session:
            self.assertEqual(b"hello", session.read(0, pair.read).rstrip(b"\0"))
            self.assertEqual([1], list(session.list(0, pair.read)))

    def test_an_image_has_one_opener(self) -> None:
        self.make()
        with tsd.open(self.image, embedded=True):
            with self.assertRaises(tsd.LibraryFailed) as second:
                tsd.open(self.image, embedded=True)
            self.assertEqual((IN_USE, "the image is in use"), second.exception.args)
            with self.assertRaises(tsd.ProgramEnded):
                tsd.open(self.image)
        with tsd.open(self.image), self.assertRaises(tsd.LibraryFailed):
            tsd.open(self.image, embedded=True)
        tsd.open(self.image, embedded=True).close()

    def test_what_is_no_image(self) -> None:
        with self.assertRaises(FileNotFoundError) as missing:
            tsd.open(self.image, embedded=True)
        self.assertEqual(str(self.image), missing.exception.filename)
        self.image.write_bytes(b"x" * 8192)
        with self.assertRaises(tsd.LibraryFailed) as none:
            tsd.open(self.image, embedded=True)
        self.assertEqual((NO_IMAGE, "not an image of a disk"), none.exception.args)
        self.assertEqual(b"x" * 8192, self.image.read_bytes())

    def test_there_is_no_library(self) -> None:
        self.make()
        with mock.patch.dict(os.environ, {embedded.LIBRARY_VARIABLE: ""}), \
                mock.patch.object(embedded, "LIBRARY_NAME", "libnone.so"), self.assertRaises(FileNotFoundError) as none:
            tsd.open(self.image, embedded=True)
        self.assertIn("tools/embed shared", str(none.exception))
        for path in (str(self.image), str(self.folder / "missing.so")):
            with mock.patch.dict(os.environ, {embedded.LIBRARY_VARIABLE: path}), self.assertRaises(OSError) as other:
                tsd.open(self.image, embedded=True)
            self.assertIn(path, str(other.exception))

    def test_an_installation(self) -> None:
        self.make()
        root = self.folder / "root"
        subprocess.run([str(TOP / "tools/install"), "install", str(root)], env={**os.environ, "PROGRAM": PROGRAM},
                       check=True, timeout=MOST_SECONDS)
        [line] = re.findall(r"^cc .*-shared.*$", (root / "share/doc/tsd/EMBEDDING.md").read_text(), re.MULTILINE)
        subprocess.run(line.replace("PREFIX", str(root)).split(), check=True, timeout=MOST_SECONDS)
        script = "import sys, tsd\nprint(tsd.open(sys.argv[1], embedded=True).free(), tsd.__file__)"
        environment = {**os.environ, "PYTHONPATH": str(root / "lib/tsd/python"), embedded.LIBRARY_VARIABLE: ""}
        done = subprocess.run([sys.executable, "-c", script, str(self.image)], env=environment, capture_output=True,
                              text=True, timeout=MOST_SECONDS)
        self.assertEqual(f"63 {root}/lib/tsd/python/tsd/__init__.py\n", done.stdout, done.stderr)

    def test_what_it_has_not(self) -> None:
        self.make()
        for more in ({"place": "low"}, {"program": PROGRAM}):
            with self.assertRaisesRegex(ValueError, "^embedded "):
                tsd.open(self.image, embedded=True, **more)

    def test_it_was_closed(self) -> None:
        self.make()
        disk = tsd.open(self.image, embedded=True)
        session = disk.session()
        disk.close()
        disk.close()
        for use in (disk.free, disk.session, lambda: session.read(0)):
            with self.assertRaises(tsd.Closed):
                use()
        self.assertIn("closed", repr(disk))

    def test_a_sync_that_fails(self) -> None:
        [pair] = self.make()
        script = ("import sys, tsd\n"
                  "disk = tsd.open(sys.argv[1], embedded=True)\n"
                  "session, cap, done = disk.session(), tsd.Capability.from_hex(input()), 0\n"
                  "try:\n"
                  "    while True: session.write(0, bytes([done + 1]), cap); done += 1\n"
                  "except tsd.LibraryFailed as error: print(done, error.status)\n"
                  "try: disk.free()\n"
                  "except tsd.LibraryFailed as error: print(error.status)\n"
                  "print(len(disk.take_unknown()), disk.failure)\n"
                  "try: disk.close()\n"
                  "except tsd.LibraryFailed as error: print(error.status)\n")
        environment = {**os.environ, "SYNCS": "20", "PYTHONPATH": os.pathsep.join([str(TOP / "python")])}
        done = subprocess.run([sys.executable, "-c", script, str(self.image)], env=environment, capture_output=True,
                              input=pair.write.reveal().hex(), text=True, timeout=MOST_SECONDS)
        first, *rest = done.stdout.splitlines()
        told = "1 the disk's library: a sync of the image failed (status 4)"
        self.assertEqual([str(FAILED_SYNC), told, str(FAILED_SYNC)], rest, done.stderr)
        answered, status = map(int, first.split())
        self.assertEqual(FAILED_SYNC, status)
        self.assertGreater(answered, 5)
        with tsd.open(self.image) as disk, disk.session() as session:
            self.assertIn(session.read(0, pair.read)[0], (answered, answered + 1))

    def test_several_threads(self) -> None:
        [pair] = self.make(blocks=64)
        wrong: List[object] = []

        def work(number: int) -> None:
            with disk.session() as session:
                [block] = session.alloc(0, 1, pair.write)
                for count in range(100):
                    session.write(block, bytes([number, count]))
                    if session.read(block)[:2] != bytes([number, count]):
                        wrong.append((number, count))

        with tsd.open(self.image, embedded=True) as disk:
            threads = [threading.Thread(target=work, args=(number,)) for number in range(8)]
            for thread in threads:
                thread.start()
            for thread in threads:
                thread.join(MOST_SECONDS)
            self.assertEqual(([], 55), (wrong, disk.free()))

    def test_a_child_of_fork(self) -> None:
        [pair] = self.make()
        disk = tsd.open(self.image, embedded=True)
        session = disk.session()
        (told, tell), (until, end) = os.pipe(), os.pipe()
        child = os.fork()
        if child == 0:
            os.close(end)
            try:
                session.read(0, pair.read)
                os.write(tell, b"read")
            except tsd.WrongProcess:
                os.write(tell, b"refused")
            os.read(until, 1)
            os._exit(0)
        for number in (until, tell):
            os.close(number)
        self.addCleanup(os.close, told)
        self.addCleanup(os.waitpid, child, 0)
        self.addCleanup(os.close, end)
        self.assertEqual(b"refused", os.read(told, 100))
        session.write(0, b"hello", pair.write)
        disk.close()
        # The child has let go of the image's lock, though it lives.
        with tsd.open(self.image) as disk, disk.session() as session:
            self.assertEqual(b"hello", session.read(0, pair.read).rstrip(b"\0"))

    def test_by_asyncio(self) -> None:
        [pair] = self.make()

        async def work() -> bytes:
            async with await tsd.aio.open(self.image, embedded=True) as disk:
                await disk.write(0, b"hello", pair.write)
                found = await asyncio.gather(*(disk.read(0, pair.read) for _ in range(50)))
                return found[-1].rstrip(b"\0")

        self.assertEqual(b"hello", asyncio.run(work()))

    def test_requests_are_carried_out_as_they_are_asked(self) -> None:
        [pair] = self.make()
        with tsd.open(self.image, embedded=True) as disk, disk.session() as session:
            future = session.ask(requests.Write(0, b"now", pair.write))
            self.assertTrue(future.done())
            self.assertIn(b"now", self.image.read_bytes())
            refused = session.ask(requests.Write(1, b"x"))
            self.assertIsInstance(refused.exception(), tsd.FreeBlock)


if __name__ == "__main__":
    unittest.main()

"""No put loses the old file: it is cut off at each ask, stopped at each piece, and refused for want of blocks and of
pointers at each point. By the model of tests/, and some over the program itself."""

from __future__ import annotations

import io
import os
import subprocess
import unittest
from typing import Iterator, List, Optional

from model_program import FileModel, Gone, content_of, files_of, new_model, puts_of
from support import MOST_SECONDS, PROGRAM, SEED, SHELL, InFolder, tsd

from tsd.shell.files import Files, Stopped
from tsd.shell.puts import CutOff, Left, NoRoomForBoth, Puts, State
from tsd.shell.refusals import ShellRefused

OLD, NEW = bytes(range(256)) * 40, b"new!" * 3000
SHORT = b"short"
READ, WRITE = "aa" * 16, "bb" * 16
KINDS = ("inode", "chain")


def with_old(kind: str, old: bytes = OLD) -> FileModel:
    """A tree with one file."""
    model = new_model(kind)
    puts_of(model).put(io.BytesIO(old), "/a", size=len(old))
    return model


def all_of(files: Files) -> List[str]:
    """The names at the top."""
    return files.names("/")


class CutOffs(unittest.TestCase):
    """Puts over the model."""

    def cut_off_at_each_ask(self, kind: str, old: Optional[bytes]) -> Iterator[Puts]:
        """The tree as each cut leaves it, up to the put that isn't cut off."""
        for asks in range(1000):
            model = new_model(kind) if old is None else with_old(kind, old)
            try:
                puts_of(model, asks).put(io.BytesIO(NEW), "/a", size=len(NEW))
                self.assertEqual((NEW, ["a"]), (content_of(files_of(model), "/a"), all_of(files_of(model))))
                return
            except Gone:
                yield puts_of(model)
        raise AssertionError("the put has no end")

    def check_cut(self, puts: Puts, old: Optional[bytes]) -> Left:
        """The old file is there, or all of the new one is, at its place or beside it; what was left is found."""
        files = puts._files
        left = puts.left()
        at_place = content_of(files, "/a") if files.look("/a") else None
        beside = [content_of(files, one.stage.new) for one in left if one.state is State.WHOLE]
        if old is not None:
            self.assertTrue(at_place in (old, NEW) or beside == [NEW], left)
        elif at_place not in (None, NEW):
            self.assertEqual([State.BEGUN], [one.state for one in left])
        self.assertEqual(len(all_of(files)) > (at_place is not None), bool(left))
        return left[0] if left else Left(None, State.DONE, None)  # type: ignore[arg-type]

    def test_cut_off_at_each_ask_and_finished(self) -> None:
        for kind in KINDS:
            for old in (OLD, SHORT, None):
                for count, puts in enumerate(self.cut_off_at_each_ask(kind, old)):
                    with self.subTest(kind=kind, old=old and old[:5], asks=count):
                        left = self.check_cut(puts, old)
                        if left.state is State.WHOLE:
                            self.assertEqual("/a", left.target)
                            puts.finish(left)
                            self.assertEqual((NEW, ["a"]), (content_of(puts._files, "/a"), all_of(puts._files)))

    def test_cut_off_at_each_ask_and_discarded(self) -> None:
        for kind in KINDS:
            for old in (OLD, None):
                for count, puts in enumerate(self.cut_off_at_each_ask(kind, old)):
                    with self.subTest(kind=kind, old=old and old[:5], asks=count):
                        left = self.check_cut(puts, old)
                        before = content_of(puts._files, "/a") if puts._files.look("/a") else None
                        if left.stage is not None:
                            puts.discard(left)
                        self.assertEqual([], puts.left())
                        kept = before is not None and left.state is not State.BEGUN
                        self.assertEqual(["a"] if kept else [], all_of(puts._files))

    def test_an_old_file_without_bytes_stays_until_the_new_one_is_there(self) -> None:
        for kind in KINDS:
            for asks in range(1000):
                with self.subTest(kind=kind, asks=asks):
                    model = with_old(kind, b"")
                    puts, is_over = puts_of(model, asks), True
                    try:
                        puts.put(io.BytesIO(NEW), "/a", size=len(NEW), is_empty=True)
                    except Gone:
                        is_over = False
                    left = puts_of(model).left()
                    if [one.state for one in left] == [State.WHOLE] and kind == "inode":
                        puts_of(model).finish(left[0])
                    found = content_of(files_of(model), "/a")
                    self.assertTrue(NEW.startswith(found))
                    if found not in (b"", NEW):
                        self.assertEqual([(State.BEGUN, "/a")], [(one.state, one.target) for one in left])
                    if is_over:
                        self.assertEqual((NEW, ["a"]), (found, all_of(files_of(model))))
                if is_over:
                    break

    def test_an_old_file_without_bytes_is_there_again_after_a_stop(self) -> None:
        for kind in KINDS:
            for stop in range(1, len(NEW) + 1, 2000):
                def stop_there(count: int) -> None:
                    if count >= stop:
                        raise Stopped

                model = with_old(kind, b"")
                puts = puts_of(model)
                with self.assertRaises(Stopped):
                    puts.put(io.BytesIO(NEW), "/a", stop_there, len(NEW), True)
                self.assertEqual((b"", ["a"]), (content_of(puts._files, "/a"), all_of(puts._files)))

    def test_a_finish_that_is_cut_off_is_finished(self) -> None:
        for kind in KINDS:
            for asks in range(60):
                model = with_old(kind)
                puts = puts_of(model)
                stage = puts._new_stage("/a")
                puts._write(iter([NEW[:4096], NEW[4096:8192], NEW[8192:]]), stage.new, lambda count: None)
                puts._files.bring("put", stage.to, b"/a")
                [left] = puts_of(model).left()
                try:
                    puts_of(model, asks).finish(left)
                except Gone:
                    [left] = puts_of(model).left()
                    if left.state is State.WHOLE:
                        puts_of(model).finish(left)
                    else:
                        puts_of(model).discard(left)
                    self.assertEqual((NEW, ["a"]), (content_of(files_of(model), "/a"), all_of(files_of(model))))
                    continue
                self.assertEqual((NEW, ["a"]), (content_of(files_of(model), "/a"), all_of(files_of(model))))
                break

    def test_stopped_at_each_piece(self) -> None:
        for kind in KINDS:
            for stop in range(1, len(NEW) + 1, 2000):
                def stop_there(count: int) -> None:
                    if count >= stop:
                        raise Stopped

                model = with_old(kind)
                puts = puts_of(model)
                with self.assertRaises(Stopped):
                    puts.put(io.BytesIO(NEW), "/a", stop_there, len(NEW))
                self.assertEqual((OLD, ["a"]), (content_of(puts._files, "/a"), all_of(puts._files)))
                with self.assertRaises(Stopped):
                    puts.put(io.BytesIO(NEW), "/b", stop_there, len(NEW))
                self.assertEqual(["a"], all_of(puts._files))

    def test_a_local_file_that_cannot_be_read(self) -> None:
        class Failing(io.BytesIO):
            def read(self, count: Optional[int] = -1) -> bytes:
                if self.tell() >= 8192:
                    raise OSError("the medium failed")
                return super().read(count)

        for kind in KINDS:
            puts = puts_of(with_old(kind))
            with self.assertRaises(OSError):
                puts.put(Failing(NEW), "/a", size=len(NEW))
            self.assertEqual((OLD, ["a"]), (content_of(puts._files, "/a"), all_of(puts._files)))

    def refused(self, kind: str, old: bytes, free: int, slots: int, size: Optional[int]) -> str:
        """What a put over a disk with so much room leaves: the old file or the new one. Or all of the new one beside,
        which over chains alone may be, for pointers tell no room."""
        model = with_old(kind, old)
        model.base_free, model.slots = (used + more for used, more in zip(model._used(), (free, slots)))
        puts = puts_of(model)
        try:
            puts.put(io.BytesIO(NEW), "/a", size=size)
        except (ShellRefused, NoRoomForBoth) as error:
            self.assertEqual((old, ["a"]), (content_of(puts._files, "/a"), all_of(puts._files)), error)
            self.assertNotIn("put-", str(error))
            return "old"
        except CutOff as error:
            self.assertEqual("chain", kind)
            [left] = puts.left()
            self.assertEqual((State.WHOLE, NEW), (left.state, content_of(puts._files, left.stage.new)))
            self.assertIn(f"finish {left.stage.at}", str(error))
            return "beside"
        self.assertEqual((NEW, ["a"]), (content_of(puts._files, "/a"), all_of(puts._files)))
        return "new"

    def test_disks_with_little_room(self) -> None:
        """12,000 bytes take an inode and 24 blocks, or 25 clusters."""
        for kind in KINDS:
            for old in (OLD, SHORT):
                for size in (len(NEW), None):
                    blocks = [self.refused(kind, old, free, 999, size) for free in range(0, 60, 7)]
                    slots = [self.refused(kind, old, 999, slots, size) for slots in range(0, 100, 9)]
                    for found in (blocks, slots):
                        self.assertEqual(("old", "new"), (found[0], found[-1]))
                    self.assertNotIn("beside", blocks)

    def test_full_directories(self) -> None:
        """Over inodes a directory of such blocks has 15 names: the long file is written where there is room for it."""
        for full in ("/", "/d"):
            model = new_model("inode")
            files, puts = files_of(model), puts_of(model)
            files.do("mkdir", "/d")
            puts.put(io.BytesIO(OLD), "/d/a", size=len(OLD))
            for count in range(20):
                if len(files.names(full)) < 15:
                    files.bring("put", f"{full.rstrip('/')}/x{count}", b"")
            puts.put(io.BytesIO(NEW), "/d/a", size=len(NEW))
            self.assertEqual(NEW, content_of(files, "/d/a"))
            with self.assertRaises(ShellRefused) as caught:
                puts.put(io.BytesIO(NEW), f"{full.rstrip('/')}/new", size=len(NEW))
            self.assertEqual("the directory is full: it has at most 15 names", str(caught.exception))
            self.assertEqual([], puts.left() + puts.left("/d"))

    def test_a_part_that_was_put_again_is_no_part(self) -> None:
        """Over chains a file that grew in its place and was cut off is put again: then nothing of it is left."""
        model = new_model("chain")
        self.assertRaises(Gone, puts_of(model, 4).put, io.BytesIO(NEW), "/a")
        puts = puts_of(model)
        [left] = puts.left()
        self.assertEqual((State.BEGUN, "/a"), (left.state, left.target))
        puts.put(io.BytesIO(NEW), "/a")
        self.assertEqual((NEW, ["a"]), (content_of(puts._files, "/a"), all_of(puts._files)))

    def test_what_a_put_of_before_left(self) -> None:
        """A file of that name, which no path is told of."""
        puts = puts_of(new_model("inode"))
        puts._files.bring("put", "/put-ffff7c3c", b"part")
        [left] = puts.left()
        self.assertEqual((State.PART, None), (left.state, left.target))
        puts.discard(left)
        self.assertEqual([], all_of(puts._files))


class OverProgram(InFolder):
    """tsd-shell over the program."""

    def setUp(self) -> None:
        super().setUp()
        (self.folder / "cap").write_text(WRITE + "\n")

    def script(self, image: str, kind: str, text: str) -> "subprocess.CompletedProcess[str]":
        """tsd-shell with these lines."""
        words = [str(SHELL), image, kind, "0", "--cap-file", "cap", "--program", PROGRAM]
        return subprocess.run(words, input=text, capture_output=True, text=True, cwd=self.folder, timeout=MOST_SECONDS)

    def tight(self, slots: int) -> str:
        """A disk with so many pointer slots."""
        (self.folder / "tight.img").unlink(missing_ok=True)
        [pair] = tsd.format_disk(self.folder / "tight.img", blocks=200, slots=slots, seed=SEED, program=PROGRAM)
        (self.folder / "cap").unlink()
        pair.write.to_file(self.folder / "cap")
        return "tight.img"

    def test_pointers_nearly_full(self) -> None:
        """The old file stays, and nothing is left beside it, wherever the pointers end."""
        (self.folder / "short").write_bytes(SHORT)
        (self.folder / "long").write_bytes(NEW[:9000])
        for slots in (20, 38, 41, 42, 43, 60):
            done = self.script(self.tight(slots), "inode", "mkfs\nput short a\nput long a\ncat a\nls\n")
            if done.returncode == 0:
                self.assertEqual((NEW[:9000].decode() + "a\n", ""), (done.stdout, done.stderr))
            else:
                self.assertEqual("shorta\n", done.stdout)
                self.assertRegex(done.stderr, rf"^put /a: no room for pointers: \d+ of {slots} are held\n$")
        self.assertEqual(0, done.returncode)

    def test_what_was_left_is_told_and_finished(self) -> None:
        for kind, lines in (("inode", "mkdir /put-00000001\nput /put-00000001/new 6e6577\nput /put-00000001/to 2f61\n"),
                            ("chain", "put /put-00000001 6e6577\nput /put-00000001.to 2f61\n")):
            image = f"{kind}.img"
            subprocess.run([PROGRAM, image, "fresh", "64", "1", READ, WRITE, "near"], cwd=self.folder, check=True,
                           stdin=subprocess.DEVNULL)
            subprocess.run([PROGRAM, image, "shell", kind, "0", WRITE, "near"], cwd=self.folder, check=True, text=True,
                           input=f"mkfs\nput /a 6f6c64\n{lines}", stdout=subprocess.DEVNULL)
            done = self.script(image, kind, "cat a\nunfinished\nfinish put-00000001\ncat a\nls\nfinish put-00000001\n")
            what = "/put-00000001: an earlier put of /a was cut off: the new file is whole, and hasn't taken its place"
            self.assertEqual(f"old{what}\nnewa\n", done.stdout)
            remedy = "tsd-shell: finish /put-00000001 or discard /put-00000001 ends that"
            self.assertEqual([f"tsd-shell: {what}", remedy,
                              "finish: /put-00000001: no put left anything there; unfinished tells what puts left"],
                             done.stderr.splitlines())

    def test_no_room_for_both_over_chains(self) -> None:
        """The page says so: in a script the old file stays, and who wants the new one takes it away first."""
        (self.folder / "one").write_bytes(OLD)
        (self.folder / "two").write_bytes(NEW)
        subprocess.run([PROGRAM, "c.img", "fresh", "64", "1", READ, WRITE, "near"], cwd=self.folder, check=True,
                       stdin=subprocess.DEVNULL)
        done = self.script("c.img", "chain", "mkfs\nput one a\nput two a\nget a back\nls\nrm a\nput two a\n"
                                             "get a again\n")
        self.assertEqual((1, "a\n"), (done.returncode, done.stdout))
        # 12,000 bytes are 25 clusters of 496 bytes, twice, and two more; 10,240 bytes are 21 of 63 blocks.
        self.assertEqual("put: no room to keep the old file until the new one is whole: 42 blocks free, 52 needed; "
                         "rm /a first, where it may go\n", done.stderr)
        self.assertEqual((OLD, NEW), ((self.folder / "back").read_bytes(), (self.folder / "again").read_bytes()))

    def test_a_damaged_tree(self) -> None:
        """One byte of a directory is damaged: nobody is told to begin a new tree."""
        for kind, other in (("inode", "chain"), ("chain", "inode")):
            image = f"{kind}.img"
            subprocess.run([PROGRAM, image, "fresh", "64", "1", READ, WRITE, "near"], cwd=self.folder, check=True,
                           stdin=subprocess.DEVNULL)
            told = self.script(image, kind, "ls\n").stderr
            self.assertEqual("ls /: there are no files here; mkfs begins an empty tree\n", told)
            (self.folder / "x").write_bytes(NEW)
            self.script(image, kind, "mkfs\nput x a\n")
            told = self.script(image, other, "ls\n").stderr
            what = f"block 0 has a tree of {kind}s, not of {other}s: start tsd-shell with {kind}"
            self.assertEqual(f"ls /: {what}\n", told)
            whole = self.root_of(image)
            for at, text in ((0, "has bytes that are no tree"), (12, f"the tree of {kind}s under block 0 is damaged"),
                             (20, f"the tree of {kind}s under block 0 is damaged"), (None, "is blank, but pointers")):
                self.root_of(image, bytes(len(whole)) if at is None else whole[:at] + b"\xff" + whole[at + 1:])
                told = self.script(image, kind, "ls\nput x b\nrm -r /\n").stderr
                self.assertEqual(3, told.count(text), (at, told))
                self.assertNotIn("mkfs", told)

    def root_of(self, image: str, content: Optional[bytes] = None) -> bytes:
        """The bytes of block 0, once it has these."""
        cap = tsd.Capability.from_hex(WRITE)
        with tsd.open(self.folder / image, program=PROGRAM) as disk, disk.session() as session:
            if content is not None:
                session.write(0, content, cap)
            return session.read(0, cap)

    def test_names_that_cannot_be(self) -> None:
        (self.folder / "x").write_bytes(SHORT)
        subprocess.run([PROGRAM, "i.img", "fresh", "64", "1", READ, WRITE, "near"], cwd=self.folder, check=True,
                       stdin=subprocess.DEVNULL)
        done = self.script("i.img", "inode", 'mkfs\nput "a\0b" x\nput x y\nget y "a\0b"\ncat y\n')
        self.assertEqual((1, "short"), (done.returncode, done.stdout))
        self.assertEqual([f"{name}: 'a\\x00b': no file has a name with a byte 0" for name in ("put", "get")],
                         done.stderr.splitlines())
        self.assertEqual(["cap", "i.img", "x"], sorted(os.listdir(self.folder)))

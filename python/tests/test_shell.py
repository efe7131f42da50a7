"""tsd-shell in a pipe and at a terminal: over the program where it has the command `files`, and over a stand-in."""

from __future__ import annotations

import contextlib
import os
import random
import subprocess
import sys
import time
import unittest
from pathlib import Path
from typing import Iterator, List

from support import MOST_SECONDS, PROGRAM, SHELL, InFolder
from terminal import Terminal

FAKE = Path(__file__).resolve().parent / "fake_shell.py"
READ, WRITE = "aa" * 16, "bb" * 16
SIZES = (0, 1, 4096, 4097, 300000)
USAGE = 2
PAUSE = 0.2


def has_files() -> bool:
    """Whether the program that is tried has the command."""
    done = subprocess.run([PROGRAM, "-", "files", "inode", "0", WRITE, "near"], stdin=subprocess.DEVNULL,
                          capture_output=True, timeout=MOST_SECONDS)
    return done.returncode != USAGE


def bytes_for(size: int) -> bytes:
    """So many bytes, of every value."""
    return random.Random(size).getrandbits(8 * size).to_bytes(size, "little") if size else b""


class OverFake(InFolder):
    """Over the stand-in."""

    program = str(FAKE)
    # Whether there is an image, whose header tells the length of a block.
    has_image = False

    def setUp(self) -> None:
        super().setUp()
        (self.folder / "cap").write_text(WRITE + "\n")

    def image_of(self, kind: str) -> str:
        """A new disk; its image."""
        return f"{kind}.img"

    def words(self, image: str, kind: str = "inode", root: str = "0", *more: str) -> List[str]:
        """The words that start the shell."""
        return [sys.executable, str(SHELL), image, kind, root, "--program", self.program, *more]

    def script(
        self, image: str, text: str, kind: str = "inode", cap: str = "cap"
    ) -> subprocess.CompletedProcess[bytes]:
        """Runs commands in a pipe."""
        return subprocess.run(self.words(image, kind, "0", "--cap-file", cap), input=text.encode(), capture_output=True,
                              cwd=self.folder, timeout=MOST_SECONDS)

    @contextlib.contextmanager
    def terminal(self, image: str, kind: str = "inode") -> Iterator[Terminal]:
        """The shell at a terminal, the capability typed in."""
        terminal = Terminal(self.words(image, kind), self.folder)
        terminal.wait_for("capability: ")
        terminal.type(WRITE + "\n")
        terminal.wait_for("tsd> ")
        yield terminal
        terminal.type("quit\n")
        self.assertEqual(0, terminal.ended())
        self.assertNotIn(WRITE.encode(), terminal.shown)

    # --- in a pipe ---

    def test_files_of_all_sizes_in_a_pipe(self) -> None:
        for kind in ("inode", "chain"):
            for size in SIZES:
                (self.folder / f"f{size}").write_bytes(bytes_for(size))
            text = "".join(f"put f{size}\nget f{size} back{size}\n" for size in SIZES)
            done = self.script(self.image_of(kind), f"mkfs\n{text}ls\ncat f4097\n", kind)
            names = "".join(sorted(f"f{size}\n" for size in SIZES)).encode()
            self.assertEqual((0, names + bytes_for(4097), b""), (done.returncode, done.stdout, done.stderr))
            for size in SIZES:
                self.assertEqual(bytes_for(size), (self.folder / f"back{size}").read_bytes())

    def test_commands_and_refusals_in_a_pipe(self) -> None:
        (self.folder / "a b").write_bytes(b"hello\n")
        done = self.script(self.image_of("inode"), "ls\nmkfs\n\n# a comment\nmkdir docs\nput 'a b' docs/a\n"
                           "cat /docs/a\ncp docs/a b\nls docs/\nls /\nrm docs\nrm b\nmkdir docs\nput cap docs\n"
                           "put none\nput 'a b'\n"
                           "frob\nmkdir\ncat docs/a/b\nget b\nhelp\nquit\nfrob\n")
        self.assertEqual(1, done.returncode)
        shown, told = done.stdout.decode(), done.stderr.decode()
        self.assertTrue(shown.startswith("hello\na\nb\ndocs\nput LOCAL [PATH]"), shown)
        expected = [
            "ls /: there are no files here; mkfs begins an empty tree", "rm /docs: the directory isn't empty",
            "mkdir /docs: that is there already", "put /docs: that is a directory",
            "put: [Errno 2] No such file or directory: 'none'",
            "put: /a b: 'a b' is no name: it has 1 to 28 letters, digits, dots, lines below and dashes",
            "no command is called 'frob'; help tells those that there are", "usage: mkdir PATH",
            "cat /docs/a/b: that is a file, or a name on the way is", "get /b: nothing of that name",
        ]
        self.assertEqual(expected, told.splitlines())
        self.assertFalse((self.folder / "b").exists())

    def test_what_is_printed_comes_in_its_order(self) -> None:
        """Names are text and contents are bytes: neither overtakes the other, however Python keeps its output."""
        (self.folder / "one").write_bytes(b"bytes\n")
        words = self.words(self.image_of("inode"), "inode", "0", "--cap-file", "cap")
        environment = {name: text for name, text in os.environ.items() if name != "PYTHONUNBUFFERED"}
        done = subprocess.run(words, input=b"mkfs\nput one\nls\ncat one\nls\n", capture_output=True, cwd=self.folder,
                              env=environment, timeout=MOST_SECONDS)
        self.assertEqual(b"one\nbytes\none\n", done.stdout)

    def test_chains_have_no_directories(self) -> None:
        done = self.script(self.image_of("chain"), "mkfs\nmkdir a\ncp a b\n", "chain")
        self.assertEqual((1, b""), (done.returncode, done.stdout))
        self.assertEqual(["mkdir /a: this file system has no such command",
                          "cp /a /b: this file system has no such command"],
                         done.stderr.decode().splitlines())

    def test_no_room(self) -> None:
        (self.folder / "big").write_bytes(bytes(4096))
        (self.folder / "bigger").write_bytes(bytes(3000) + bytes(3000))
        (self.folder / "one").write_bytes(b"1")
        done = self.script(self.image_of("small"), "mkfs\nput one a\nput big\nput bigger\ncat a\nls\ndf\n")
        self.assertEqual((1, b"1a\n5 blocks free\n"), (done.returncode, done.stdout))
        big, bigger = done.stderr.decode().splitlines()
        self.assertEqual("put /big: no room: 5 blocks free, 9 needed", big)
        # 4,096 bytes are one change, and the disk refuses it: an inode and 8 blocks. 6,000 bytes take an inode and 12,
        # which is seen before, where the length of a block is known.
        numbers = "5 blocks free, 13 needed" if self.has_image else ""
        self.assertTrue(bigger.startswith(f"put /bigger: no room: {numbers}"), bigger)

    def test_a_file_that_is_cut_off_leaves_the_old_one(self) -> None:
        """A long file that there is no room for, in place of one that is there: over inodes the old one stays."""
        (self.folder / "old").write_bytes(b"old")
        (self.folder / "long").write_bytes(bytes(1000000))
        (self.folder / "fits").write_bytes(bytes_for(9000))
        done = self.script(self.image_of("middle"), "mkfs\nput old a\nput long a\ncat a\nls\ndf\nput fits a\n"
                           "get a back\nput long b\nls\n")
        self.assertEqual((1, b"olda\n97 blocks free\na\n"), (done.returncode, done.stdout))
        told = "too big: a file over inodes has at most 124 blocks" if self.has_image else "no room: "
        for name, line in zip("ab", done.stderr.decode().splitlines()):
            self.assertTrue(line.startswith(f"put /{name}: {told}"), line)
        self.assertEqual(bytes_for(9000), (self.folder / "back").read_bytes())

    def test_a_capability_that_is_none(self) -> None:
        image = self.image_of("inode")
        (self.folder / "wrong").write_text("cc" * 16)
        (self.folder / "short").write_text("cc")
        (self.folder / "empty").write_text("\n")
        for cap, status, words in (("wrong", 10, "root denied"), ("short", 2, "32 hexadecimal digits, not 2"),
                                   ("empty", 2, "has no word"), ("none", 1, "No such file")):
            done = self.script(image, "", cap=cap)
            self.assertEqual((status, b""), (done.returncode, done.stdout))
            self.assertIn(words, done.stderr.decode())
            self.assertNotIn("cc" * 16, done.stderr.decode())

    def test_an_output_that_nobody_reads(self) -> None:
        (self.folder / "long").write_bytes(bytes(300000))
        words = self.words(self.image_of("inode"), "inode", "0", "--cap-file", "cap")
        with subprocess.Popen(words, cwd=self.folder, stdin=subprocess.PIPE, stdout=subprocess.PIPE,
                              stderr=subprocess.PIPE) as shell:
            assert shell.stdin and shell.stdout and shell.stderr
            shell.stdout.close()
            shell.stdin.write(b"mkfs\nput long\ncat long\nls\n")
            shell.stdin.close()
            self.assertEqual((b"", 1), (shell.stderr.read(), shell.wait(MOST_SECONDS)))

    def test_names_of_any_bytes(self) -> None:
        name = os.fsencode(self.folder) + b"/\xff"
        with open(name, "wb") as file:
            file.write(b"x")
        words = self.words(self.image_of("inode"), "inode", "0", "--cap-file", "cap")
        done = subprocess.run(words, input=b"mkfs\nput \xff a\ncat a\nput \xff\n", capture_output=True, cwd=self.folder,
                              timeout=MOST_SECONDS)
        self.assertEqual((1, b"x"), (done.returncode, done.stdout))
        self.assertIn(b"is no name: it has 1 to 28", done.stderr)

    # --- at a terminal ---

    def test_files_of_all_sizes_at_a_terminal(self) -> None:
        with self.terminal(self.image_of("inode")) as terminal:
            self.assertEqual("all files go; begin an empty tree? (yes) ", self.confirmed(terminal))
            for size in SIZES:
                (self.folder / f"f{size}").write_bytes(bytes_for(size))
                self.assertEqual("", terminal.ask(f"put f{size}").replace("\n", "") if size < 5000 else "")
                if size >= 5000:
                    terminal.ask(f"put f{size}")
                terminal.ask(f"get /f{size} back{size}")
                self.assertEqual(bytes_for(size), (self.folder / f"back{size}").read_bytes())
            self.assertEqual([f"f{size}" for size in (0, 1, 300000, 4096, 4097)], terminal.ask("ls").split())

    def confirmed(self, terminal: Terminal) -> str:
        """Begins an empty tree; the question."""
        terminal.type("mkfs\n")
        told = terminal.wait_for("(yes) ")
        terminal.type("yes\n")
        terminal.wait_for("tsd> ")
        return told.replace("\r", "").partition("\n")[2] + "(yes) "

    def test_a_terminal(self) -> None:
        with self.terminal(self.image_of("inode")) as terminal:
            self.assertIn("there are no files here", terminal.ask("ls"))
            terminal.type("mkfs\nno\n")
            terminal.wait_for("nothing was done")
            terminal.wait_for("tsd> ")
            self.confirmed(terminal)
            (self.folder / "evil").write_bytes(b"a\x1b[2Jb\x07")
            terminal.ask("put evil")
            self.assertEqual("a?[2Jb?\n", terminal.ask("cat evil"))
            self.assertIn("get /nothing: nothing of that name", terminal.ask("get nothing"))
            # A Ctrl-C that comes while the prompt is written is only seen at the next key: so it waits for an echo.
            terminal.type("ls ")
            terminal.wait_for("ls ")
            time.sleep(PAUSE)
            terminal.type("\x03")
            terminal.wait_for("tsd> ")
            self.assertEqual("evil\n", terminal.ask("ls /"))
        self.assertEqual(0o700, (self.folder / "state" / "tsd").stat().st_mode & 0o777)
        history = (self.folder / "state" / "tsd" / "history").read_text()
        self.assertIn("put evil", history)
        self.assertNotIn(WRITE, history)

    def test_tab_and_history(self) -> None:
        (self.folder / "local-file").write_bytes(b"x")
        with self.terminal(self.image_of("inode")) as terminal:
            self.confirmed(terminal)
            terminal.ask("mkdir documents")
            terminal.type("pu\tloc\tdoc\tfile\n")
            terminal.wait_for("tsd> ")
            (self.folder / "it's mine").write_bytes(b"y")
            terminal.ask("put it\t q")
            self.assertEqual("y\n", terminal.ask("cat q"))
            (self.folder / "two words").mkdir()
            (self.folder / "two words" / "three more words").write_bytes(b"z")
            terminal.ask("put two\tth\t r")
            self.assertEqual("z\n", terminal.ask("cat r"))
            self.assertEqual("file\n", terminal.ask("ls doc\t"))
            self.assertEqual("x\n", terminal.ask("cat /doc\tf\t"))
            self.assertEqual("x\n", terminal.ask("\x1b[A"))

    def test_what_an_earlier_put_left_is_offered(self) -> None:
        if not self.has_image:
            self.skipTest("the stand-in keeps nothing")
        image = self.image_of("inode")
        lines = "mkfs\nput /a 6f6c64\n" + "".join(
            f"mkdir /put-0000000{at}\nput /put-0000000{at}/new 6e65770{at}\nput /put-0000000{at}/to 2f61\n"
            for at in (1, 2))
        self.lines(image, "inode", lines + "put /put-00000003 00\nmkdir /put-00000004\n")
        terminal = Terminal(self.words(image, "inode", "0", "--cap-file", "cap"), self.folder)
        for what, answer in (
            ("a was cut off: the new file is whole", "leave"), ("a was cut off: the new file", "finish"),
            ("was cut off: a part", "discard"), ("was cut off: a part", "what?"),
        ):
            self.assertIn("tsd-shell: /put-0000000", terminal.wait_for(what))
            self.assertEqual("finish" in terminal.wait_for("leave it? "), "a was" in what)
            terminal.type(answer + "\n")
        terminal.wait_for("tsd> ")
        self.assertEqual("new?\n", terminal.ask("cat a"))
        self.assertEqual(["a", "put-00000001", "put-00000004"], terminal.ask("ls").split())
        terminal.type("quit\n")
        self.assertEqual(0, terminal.ended())

    def test_the_question_over_chains(self) -> None:
        """Where there is no room to keep the old file until the new one is whole, it is asked for."""
        if not self.has_image:
            self.skipTest("the stand-in has no image")
        image = self.image_of("middle")
        (self.folder / "one").write_bytes(bytes(20000))
        (self.folder / "two").write_bytes(bytes_for(21000))
        self.lines(image, "chain", "mkfs\n")
        terminal = Terminal(self.words(image, "chain", "0", "--cap-file", "cap"), self.folder)
        terminal.wait_for("tsd> ")
        terminal.ask("put one a")
        for answer, told in (("no\n", "put: no room to keep the old file"), ("\x03", "put: stopped")):
            terminal.type("put two a\n")
            terminal.wait_for("/a: there is no room to keep the old file until the new one is whole: it goes first")
            terminal.wait_for("go on? (yes) ")
            time.sleep(PAUSE)
            terminal.type(answer)
            terminal.wait_for(told)
            terminal.wait_for("tsd> ")
            self.assertIn("20,000  a", terminal.ask("ls -l"))
        terminal.type("put two a\n")
        terminal.wait_for("go on? (yes) ")
        terminal.type("yes\n")
        terminal.wait_for("tsd> ")
        terminal.ask("get a back")
        self.assertEqual(bytes_for(21000), (self.folder / "back").read_bytes())
        terminal.type("quit\n")
        self.assertEqual(0, terminal.ended())

    def lines(self, image: str, kind: str, text: str) -> None:
        """Lines for the program itself."""
        words = [self.program, image, "shell", kind, "0", WRITE, "near"]
        subprocess.run(words, input=text, text=True, cwd=self.folder, check=True, stdout=subprocess.DEVNULL)

    def test_a_prompt_tells_the_directory(self) -> None:
        with self.terminal(self.image_of("inode")) as terminal:
            self.confirmed(terminal)
            terminal.ask("mkdir docs")
            (self.folder / "note").write_bytes(b"hello")
            terminal.type("cd do\t\n")
            terminal.wait_for("tsd /docs> ")
            terminal.type("put note x\n")
            terminal.wait_for("tsd /docs> ")
            terminal.type("cat x\t\n")
            self.assertIn("hello", terminal.wait_for("tsd /docs> "))
            terminal.type("cd ..\n")
            terminal.wait_for("tsd> ")

    def test_ctrl_c_stops_a_transfer(self) -> None:
        (self.folder / "long").write_bytes(bytes(1020 * 4096))
        with self.terminal(self.image_of("inode")) as terminal:
            self.confirmed(terminal)
            terminal.type("put long\n")
            terminal.wait_for("long: [")
            terminal.type("\x03\x03\x03")
            terminal.wait_for("put: stopped")
            terminal.wait_for("tsd> ")
            self.assertEqual("", terminal.ask("ls"))


class Only(InFolder):
    """What the stand-in alone can do: end in the middle."""

    def test_a_program_that_ends(self) -> None:
        (self.folder / "cap").write_text(WRITE)
        words = [sys.executable, str(SHELL), "x.img", "inode", "0", "--cap-file", "cap", "--program", str(FAKE)]
        done = subprocess.run(words, input=b"mkfs\nget /die x\nls\n", capture_output=True, cwd=self.folder)
        self.assertEqual((4, b""), (done.returncode, done.stdout))
        self.assertIn(b"tsd: device fault", done.stderr)
        self.assertEqual(["cap"], sorted(os.listdir(self.folder)))

    def test_a_program_without_the_command(self) -> None:
        if has_files():
            self.skipTest("the program has the command")
        (self.folder / "cap").write_text(WRITE)
        words = [sys.executable, str(SHELL), "x.img", "inode", "0", "--cap-file", "cap", "--program", PROGRAM]
        done = subprocess.run(words, input=b"", capture_output=True, cwd=self.folder)
        self.assertEqual(USAGE, done.returncode)
        self.assertIn(b"no command is called files", done.stderr)


class OverProgram(OverFake):
    """The same over the program itself."""

    program = PROGRAM
    has_image = True

    @classmethod
    def setUpClass(cls) -> None:
        if not has_files():
            raise unittest.SkipTest("the program has no command files yet")

    def image_of(self, kind: str) -> str:
        blocks, sectors = {"small": ("8", "1"), "middle": ("100", "1")}.get(kind, ("8192", "8"))
        image = f"{kind}.img"
        subprocess.run([PROGRAM, image, "fresh", blocks, sectors, READ, WRITE, "near"], cwd=self.folder,
                       stdin=subprocess.DEVNULL, check=True)
        return image

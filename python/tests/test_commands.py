"""The commands of tsd-shell over the model of tests/: what they do and print, and what never reaches a terminal."""

from __future__ import annotations

import contextlib
import io
import os
import unittest
from typing import List, Optional, Tuple
from unittest import mock

from model_program import FileModel, content_of, files_of, new_model
from support import InFolder

from tsd.plain import plain, plain_content
from tsd.shell import bar
from tsd.shell.asks import CODES
from tsd.shell.commands import COMMANDS, Commands
from tsd.shell.files import Files, Stopped
from tsd.shell.paths import path_from
from tsd.shell.refusals import ShellRefused

LONG = bytes(range(256)) * 40


class OverModel(InFolder):
    """Commands over a tree."""

    def setUp(self) -> None:
        super().setUp()
        self.model = new_model("inode")
        (self.folder / "long").write_bytes(LONG)
        (self.folder / "short").write_bytes(b"short")

    def told(
        self, text: str, at_terminal: bool = False, model: Optional[FileModel] = None
    ) -> Tuple[List[str], List[str]]:
        """What lines print on standard output and on standard error."""
        output, error = io.TextIOWrapper(io.BytesIO(), "utf-8"), io.StringIO()
        commands = Commands(files_of(model or self.model), at_terminal)
        with contextlib.redirect_stdout(output), contextlib.redirect_stderr(error):
            for line in text.splitlines():
                commands.run(line)
            output.flush()
        return output.buffer.getvalue().decode().splitlines(), error.getvalue().splitlines()

    def put(self, path: str, data: bytes) -> None:
        """A file of the disk."""
        files_of(self.model).bring("put", path, data)

    def test_long_lists(self) -> None:
        here = self.folder
        output, error = self.told(f"mkdir d\nput {here}/long d/a\nput {here}/short b\nput /dev/null c\n"
                                  "ls -l\nls -l d\nls b\nls -l b\nls -l nothing\nls -l b/c")
        self.assertEqual(["              5  b", "              0  c", "              -  d/", "         10,240  a", "b",
                          "              5  b"], output)
        self.assertEqual(["ls /nothing: nothing of that name", "ls /b/c: that is a file, or a name on the way is"],
                         error)

    def test_no_file_is_read_for_its_size(self) -> None:
        self.told(f"put {self.folder}/long a")
        files = files_of(self.model)
        with contextlib.redirect_stdout(io.StringIO()) as output:
            Commands(files, False).run("ls -l")
        self.assertEqual("         10,240  a\n", output.getvalue())
        self.assertEqual([CODES["ls"], CODES["size"]], codes_of(files))

    def test_a_transfer_knows_how_much_comes(self) -> None:
        self.told(f"put {self.folder}/long a")
        for line, total in ((f"get a {self.folder}/back", 10240), ("cat a", 10240), ("cat a 10000", 240)):
            with mock.patch("tsd.shell.commands.Transfer", wraps=bar.Transfer) as made:
                self.told(line, True)
            self.assertEqual(total, made.call_args.args[1], line)
        self.assertEqual(LONG, (self.folder / "back").read_bytes())

    def test_parts_of_files(self) -> None:
        """Such a part alone is read, in asks of 4,096 bytes at most; a whole file by one ask."""
        (self.folder / "text").write_text("0123456789" * 1000)
        self.told(f"put {self.folder}/text a")
        output, error = self.told("cat a 9995\ncat a 3 4\ncat a 9998 100\ncat a 10000\ncat a 20000 5\ncat a 5 0\n"
                                  "cat a x\ncat a -1\ncat a 0 1234567890123456789\ncat a 1 2 3\ncat b 1", True)
        self.assertEqual(["56789", "3456", "89"], output)
        self.assertEqual(["cat: 'x' is no number of bytes", "cat: '-1' is no number of bytes",
                          "cat: '1234567890123456789' is no number of bytes", "usage: cat PATH [START] [COUNT]",
                          "cat /b: nothing of that name"], error)
        for words, codes in (("a", "size cat"), ("a 0 10000", "size cat"), ("a 1 5", "size read"),
                             ("a 1", "size read read read"), ("a 10 8192", "size read read"), ("a 10000", "size")):
            files = files_of(self.model)
            with contextlib.redirect_stdout(io.StringIO()):
                Commands(files, True).run(f"cat {words}")
            self.assertEqual([CODES[name] for name in codes.split()], codes_of(files), words)

    def test_directories(self) -> None:
        output, error = self.told("mkdir d\nmkdir d/e\ncd d\npwd\nput /dev/null x\nls\ncd e\npwd\nls ..\n"
                                  "cd ../..\npwd\ncd d/x\ncd no\npwd\ncd d\ncd\npwd\ncd ..\npwd")
        self.assertEqual(["/d", "e", "x", "/d/e", "e", "x", "/", "/", "/", "/"], output)
        self.assertEqual(["cd /d/x: that is a file, or a name on the way is", "cd /no: nothing of that name"], error)

    def test_trees_go(self) -> None:
        here = self.folder
        output, error = self.told(f"mkdir d\nmkdir d/e\nput {here}/long d/e/a\nput {here}/short d/b\n"
                                  f"put {here}/short c\nrm d\nrm -r d\nls\nrm -r c\nrm -r c\nrm -r /\nls")
        self.assertEqual(["c"], output)
        self.assertEqual(["rm /d: the directory isn't empty", "rm /c: nothing of that name",
                          "rm: /: the top directory stays; mkfs begins an empty tree"], error)

    def test_other_names(self) -> None:
        here = self.folder
        for kind in ("inode", "chain"):
            model = new_model(kind)
            output, error = self.told(f"put {here}/long a\nput {here}/short b\nmv a c\nls\nmv b c\nmv no x\nmv c c\nls",
                                      model=model)
            self.assertEqual(["b", "c", "b", "c"], output)
            self.assertEqual(["mv /c: that is there already", "mv /no: nothing of that name"], error)
            self.assertEqual(LONG, content_of(files_of(model), "/c"))

    def test_directories_get_other_names(self) -> None:
        here = self.folder
        output, error = self.told(f"mkdir d\nmkdir d/e\nput {here}/long d/e/a\nmkdir f\nmv d f\nls\nls f\n"
                                  "ls f/d/e\nmv f f/d/g\nmv f/d h\nls h\nls f")
        self.assertEqual(["f", "d", "a", "e"], output)
        self.assertEqual(["mv: a directory can't go into itself"], error)
        self.assertEqual(LONG, content_of(files_of(self.model), "/h/e/a"))

    def test_a_name_that_does_not_come_leaves_the_old_one(self) -> None:
        files = files_of(self.model)
        self.told(f"mkdir d\nput {self.folder}/long d/a\nput {self.folder}/short d/b\nmkdir d/e")
        self.model.slots = self.model.held + 8
        output, error = self.told("mv d f\nls\nls d")
        self.assertEqual(["d", "a", "b", "e"], output)
        self.assertTrue(error[0].startswith("mv /d/a /f/a: no room for pointers"))
        self.model.slots = 16000
        with mock.patch.object(bar.Transfer, "__call__", side_effect=Stopped):
            self.assertEqual(["mv: stopped"], self.told("mv d f")[1])
        self.assertEqual((["d"], ["a", "b", "e"]), (files.names("/"), files.names("/d")))

    def test_help_says_what_is_no_single_change(self) -> None:
        output, _ = self.told("help")
        self.assertEqual(list(COMMANDS), [line.split()[0] for line in output])
        [moving] = [line for line in output if line.startswith("mv ")]
        self.assertIn("Not one change: the new name is there first, and a crash may leave both", moving)

    def test_limits_are_told(self) -> None:
        names = "".join(f"mkdir d/n{count}\n" for count in range(16))
        _, error = self.told(f"mkdir d\n{names}put {self.folder}/{'x' * 29}\nput {self.folder}/short {'a/' * 17}")
        self.assertEqual("mkdir /d/n15: the directory is full: it has at most 15 names", error[0])
        self.assertIn("a path has at most 16 names, not 18", error[-1])
        refused = ShellRefused("too-big")
        refused.limits = files_of(self.model, knows_length=False).limits
        self.assertEqual("too big: a file over inodes has at most 124, 252, 508 or 1,020 blocks, by their length",
                         str(refused))

    def test_cat_at_a_terminal(self) -> None:
        """Letters of every language; no control character but tabs and line feeds, in whichever half of a piece."""
        text = "Grüße, 世界 🙂\tend\n"
        self.put("/a", text.encode())
        self.assertEqual([text.rstrip("\n")], self.told("cat a", True)[0])
        self.put("/b", b"a\x1b[2J\x9b2J\xc2\x9b2J\x07\x7f\xff\rb")
        [shown] = self.told("cat b", True)[0]
        self.assertEqual("a?[2J\ufffd2J?2J??\ufffd?b", shown)
        data = "é".encode() * 3000
        self.put("/c", data[:4001])
        self.assertEqual("é" * 2000 + "\ufffd", self.told("cat c", True)[0][0])
        files_of(self.model).bring("append", "/c", data[4001:])
        self.assertEqual(data.decode(), self.told("cat c", True)[0][0])
        self.assertEqual(["short"], self.told(f"put {self.folder}/short e\ncat e", True)[0])

    def test_no_control_byte_reaches_the_terminal(self) -> None:
        """From names that a disk tells, from a refusal, from names of this machine, and from what is typed."""
        evil = "a\x1b[2J\x07\x9b\u202eb"
        listed = f"names {evil}\n".encode("latin-1", "replace")
        with mock.patch.object(FileModel, "answer_body", lambda self, body: listed):
            output, _ = self.told("ls")
        self.assertEqual(["a?[2J???b"], output)
        name = os.path.join(os.fsdecode(self.folder), evil)
        with open(name, "wb") as file:
            file.write(b"x")
        _, error = self.told(f"put '{name}'\nput '{name}no' x\nfrob{evil}\ncat '{evil}'\ncat 'x{evil}'\n"
                             f"get x '{name}/y'")
        for text in (*error, bar.bar_text(evil, 5, 10), bar.bar_text(evil, 5, None), plain(evil)):
            self.assertTrue(text.isprintable(), repr(text))
        self.assertEqual(6, len(error))
        self.assertEqual("x\t\n?[?ü", plain_content("x\t\n\x1b[\x85ü"))


def codes_of(files: Files) -> List[int]:
    """The codes of what was asked."""
    return [body[0] for body in files._program.bodies]  # type: ignore[attr-defined]


class Bars(unittest.TestCase):
    """The line of a transfer."""

    def test_it_fits_the_terminal(self) -> None:
        for columns in (60, 80, 100):
            text = bar.bar_text("n" * 200, 500, 1000, columns)
            self.assertEqual(columns - 1, len(text))
            self.assertTrue(text.startswith("n") and text.endswith("500 B of 1.0 KB"))

    def test_it_is_wiped_before_something_else(self) -> None:
        error = io.StringIO()
        with contextlib.redirect_stderr(error), mock.patch.object(error, "isatty", lambda: True):
            with bar.Transfer("x", 10) as transfer:
                transfer._next = 0
                transfer(5)
                transfer.clear()
                transfer.clear()
        self.assertRegex(error.getvalue(), r"^\r\x1b\[Kx: \[#+\.+\]  50%, 5 B of 10 B\r\x1b\[K$")

    def test_a_second_ctrl_c_waits_for_the_disk(self) -> None:
        with mock.patch.object(os, "write") as write, bar.Transfer("x") as transfer:
            transfer._stop(2, None)
            write.assert_not_called()
            transfer._stop(2, None)
            self.assertRaises(Stopped, transfer, 5)
        write.assert_called_once_with(2, b"\nit stops as soon as the disk has answered\n")

    def test_waiting_for_this_machine_is_stopped_at_once(self) -> None:
        with bar.Transfer("x") as transfer:
            with self.assertRaises(Stopped), transfer.waiting():
                transfer._stop(2, None)
            with self.assertRaises(Stopped):
                bar.Reading(io.BytesIO(), transfer).read(5)


class Paths(unittest.TestCase):
    """Paths in a directory."""

    def test_paths(self) -> None:
        for directory, text, path in (
            ("/", "a", "/a"), ("/d", "a", "/d/a"), ("/d", "/a", "/a"), ("/d/e", "../a", "/d/a"), ("/d", "..", "/"),
            ("/d", "../../a", "/a"), ("/d", ".", "/d"), ("/d", "", "/d"), ("/d", "./e/", "/d/e"), ("/d", "/", "/"),
        ):
            self.assertEqual(path, path_from(directory, text))
        for text in ("a//b", "-", "a b", "ä", "x" * 29):
            self.assertRaises(ValueError, path_from, "/d", text)


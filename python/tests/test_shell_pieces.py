"""The pieces of tsd-shell: asks, answers, refusals, bars and what Tab offers."""

from __future__ import annotations

import io
import shlex
import unittest
from pathlib import Path
from typing import List, Optional
from unittest import mock

from file_text import Ask, ask_body
from support import MOST_SECONDS, tsd

from tsd.peers import ProgramPeer
from tsd.shell import asks, bar, paths
from tsd.shell.commands import Commands
from tsd.shell.completion import Completer, last_word, local_files, spelled
from tsd.frames import MOST_BODY
from tsd.shell.files import DIRECTORY, FILE, Files, Stat, Stopped, bytes_of, no_progress, stat_of
from tsd.shell.program import ShellProgram
from tsd.shell.puts import Puts
from tsd.shell.refusals import WORDS, Limits, refusal

FAKE = Path(__file__).resolve().parent / "fake_shell.py"
WRITE = "bb" * 16


def bytes_for(size: int) -> bytes:
    """So many bytes, of every value."""
    return bytes(at * at % 251 for at in range(size))


class Pieces(unittest.TestCase):
    """Asks, answers and paths."""

    def test_paths(self) -> None:
        for text, path in (("a", "/a"), ("/", "/"), ("", "/"), ("a/b/", "/a/b"), ("/" + "x" * 28, "/" + "x" * 28)):
            self.assertEqual(path, paths.disk_path(text))
        for text in ("a//b", "..", "a/.", "-", "x" * 29, "a b", "ä", "a\n", "/".join("a" * 17)):
            self.assertRaises(paths.BadPath, paths.disk_path, text)
        self.assertEqual([("/", "a"), ("/a", "b"), ("/", "")], [paths.split_path(path) for path in ("/a", "/a/b", "/")])

    def test_asks_are_those_of_another_encoder(self) -> None:
        longest = "/" + "/".join(["x" * 28] * 16)
        for path in ("/", "/a", "/a/b.c", longest):
            names = tuple(name.encode() for name in path.split("/") if name)
            for name in ("cat", "ls", "mkdir", "rm", "size"):
                self.assertEqual(ask_body(Ask(name, names)), asks.ask_of(name, path))
            self.assertEqual(ask_body(Ask("cp", names, new_path=(b"d",))), asks.ask_of("cp", path, "/d"))
            for data in (b"", b"hi", bytes(asks.MOST_DATA)):
                for name in ("put", "append"):
                    self.assertEqual(ask_body(Ask(name, names, data)), asks.bringing(name, path, data))
            for start, count in ((0, 0), (5, 4096), (2 ** 64 - 1, 2 ** 32 - 1)):
                right = ask_body(Ask("read", names, start=start, count=count))
                self.assertEqual(right, asks.reading(path, start, count))
        self.assertEqual([ask_body(Ask("mkfs")), ask_body(Ask("df"))], [asks.ask_of("mkfs"), asks.ask_of("df")])
        self.assertLessEqual(len(asks.bringing("put", longest, bytes(asks.MOST_DATA))), MOST_BODY)

    def test_what_is_told_of_a_path(self) -> None:
        self.assertEqual([Stat(DIRECTORY), Stat(FILE, 0), Stat(FILE, 2 ** 40)],
                         [stat_of(text.split(" ")) for text in ("dir", "file 0", f"file {2 ** 40}")])
        for text in ("", "file", "file -", "file -1", "file x", "file 1 2", "dir 1", "data -", "ok"):
            self.assertRaises(tsd.NoReply, stat_of, text.split(" "))

    def test_refusals_in_words(self) -> None:
        self.assertEqual("no room: 5 blocks free, 9 needed", str(refusal("full 5 9")))
        self.assertEqual("no room for pointers: 5 of 9 are held", str(refusal("pointers-full 5 9")))
        for rule in WORDS:
            self.assertEqual(WORDS[rule], str(refusal(rule)))
        for words in ("full", "full 5", "full x y", "exists 1", "none", ""):
            self.assertRaises(ValueError, refusal, words)

    def test_answers_in_pieces(self) -> None:
        data = bytes_for(1000)
        text = b"data " + data.hex().encode()
        for size in (1, 2, 3, 4, 5, 6, 7, 100, len(text)):
            pieces = iter([text[at:at + size] for at in range(0, len(text), size)])
            self.assertEqual(data, b"".join(bytes_of(pieces, no_progress)))
        self.assertEqual(b"", b"".join(bytes_of(iter([b"da", b"ta -"]), no_progress)))
        for pieces in ([b"ok"], [b"data 6"], [b"data 6x"], [b"names -"], [b"data 6869-"]):
            with self.assertRaises(tsd.NoReply):
                list(bytes_of(iter(pieces), no_progress))

    def test_bars(self) -> None:
        self.assertEqual("a: [###############...............]  50%, 500 B of 1.0 KB", bar.bar_text("a", 500, 1000))
        self.assertEqual("a: 1.5 MB", bar.bar_text("a", 1500000, None))

    def test_a_stopped_transfer_keeps_in_step(self) -> None:
        program = ShellProgram(ProgramPeer([str(FAKE), "x.img", "files", "inode", "0", WRITE, "near"]), MOST_SECONDS)
        files = Files(program, Limits("inode"))
        puts = Puts(files)
        files.do("mkfs")
        puts.put(io.BytesIO(bytes(500000)), "/a")

        def stop_later(count: int) -> None:
            if count > 50000:
                raise Stopped

        with self.assertRaises(Stopped):
            list(files.get("/a", stop_later))
        self.assertEqual(["a"], files.names("/"))
        with self.assertRaises(Stopped):
            puts.put(io.BytesIO(bytes(500000)), "/a", stop_later)
        self.assertEqual(["a"], files.names("/"))
        self.assertEqual(500000, sum(map(len, files.get("/a"))))
        with self.assertRaises(Stopped):
            list(files.part("/a", 100, 400000, stop_later))
        self.assertEqual(["a"], files.names("/"))
        self.assertEqual(bytes(400000), b"".join(files.part("/a", 100, 400000)))
        program.close()

    def test_candidates(self) -> None:
        files = mock.Mock()
        tree = {"/": ["ab", "abc", "docs"], "/docs": ["x"]}

        def names(path: str) -> Optional[List[str]]:
            if path not in tree:
                raise refusal("not-dir")
            return tree[path]

        files.names = names
        completer = Completer(Commands(files, False))
        self.assertEqual(["mkdir ", "mkfs "], completer.candidates("mk"))
        self.assertEqual(["/ab", "/abc"], completer.candidates("cat /a"))
        self.assertEqual(["abc "], completer.candidates("cat abc"))
        self.assertEqual(["docs/"], completer.candidates("ls d"))
        self.assertEqual(["docs/"], completer.candidates("ls -l d"))
        self.assertEqual(["docs/x "], completer.candidates("cp ab docs/"))
        self.assertEqual([], completer.candidates("ls / d"))
        self.assertEqual([], completer.candidates("frob d"))
        self.assertEqual([], completer.candidates("cat ab "))
        self.assertEqual([], completer.candidates("cat nothing/"))
        self.assertEqual([str(FAKE)], local_files(str(FAKE)[:-1]))

    def test_quotes_in_candidates(self) -> None:
        """A name is typed with the quotes that it needs, and reads as that name again."""
        for typed, name in (
            ("my", "my file"), ("my", "my"), ("'my f", "my file"), ("it", "it's"), ("it\\'", "it's a b"), ('"a', 'a"b'),
            ("x", "x$y;z"), ("'i", "i'x"), ("a\\ ", "a b c"), ("''b", "b c"), ("d", "d#e"),
        ):
            with self.subTest(typed=typed, name=name):
                word = spelled(last_word("put " + typed), name, True)
                self.assertEqual(["put", name], shlex.split("put " + word, comments=True))
                self.assertTrue(word.startswith(typed) or word[1:].startswith(typed))
        for line in ("", "put ", "put 'a b' ", "put a"):
            self.assertEqual(shlex.split(line), [*last_word(line).before, *filter(None, [last_word(line).text])])

"""The commands of tsd-shell: what each takes, what it does, and what it prints."""

from __future__ import annotations

import contextlib
import os
import shlex
import stat
import sys
from codecs import getincrementaldecoder
from dataclasses import dataclass
from typing import Callable, Dict, Iterator, List, Optional, Tuple

from tsd.errors import LinkError, TsdError
from tsd.plain import plain, plain_content, plain_lines
from tsd.shell.bar import Reading, Transfer
from tsd.shell.files import DIRECTORY, FILE, Files, Stat
from tsd.shell.paths import BadPath, below, path_from, split_path
from tsd.shell.puts import Left, Puts, State
from tsd.shell.refusals import ShellRefused
from tsd.shell.saving import save
from tsd.shell.trees import Trees

LOCAL, PATH, PUT, START, COUNT = "LOCAL", "PATH", "PUT", "START", "COUNT"
# Enough for any file's bytes, and few enough for eight bytes.
MOST_DIGITS = 18
NOTHING_HERE = "there are no files here; mkfs begins an empty tree"
OVER_CHAINS = ("{}: there is no room to keep the old file until the new one is whole: it goes first, and if this is "
               "cut off both are lost. go on? (yes) ")


class Quit(Exception):
    """tsd-shell is to end."""


class Trouble(TsdError):
    """A command failed, and this says why."""


@dataclass(frozen=True)
class Command:
    """What a command does; its words, of which the last ones may be left out; a line of help; a flag that it takes."""

    do: Callable[[Commands, List[str], bool], None]
    words: Tuple[str, ...]
    optional: int
    help: str
    flag: Optional[str] = None

    def takes(self, count: int) -> bool:
        """Whether it may have so many words."""
        return len(self.words) - self.optional <= count <= len(self.words)

    def usage(self, name: str) -> str:
        """How it is written."""
        needed = len(self.words) - self.optional
        shown = [word if at < needed else f"[{word}]" for at, word in enumerate(self.words)]
        return " ".join([name] + ([f"[{self.flag}]"] if self.flag else []) + shown)


class Commands:
    """Carries out lines of commands over the files of a disk, from a directory that `cd` changes."""

    def __init__(self, files: Files, at_terminal: bool, nothing_here: str = NOTHING_HERE) -> None:
        """What is told where no tree of files is there is given."""
        self.files = files
        self.directory = "/"
        self.puts = Puts(files, self._may_go)
        self._trees = Trees(files, self.puts)
        self._at_terminal = at_terminal
        self._nothing_here = nothing_here
        self._transfer: Optional[Transfer] = None

    def run(self, line: str) -> bool:
        """Carries out a line; False where it failed, which is told on standard error. LinkError where the disk can't be
        asked any more, Quit where tsd-shell is to end."""
        try:
            words = shlex.split(line, comments=True)
        except ValueError as error:
            return complain(str(error))
        if not words:
            return True
        name, given = words[0], words[1:]
        command = COMMANDS.get(name)
        if command is None:
            return complain(f"no command is called {name!r}; help tells those that there are")
        is_flagged = command.flag is not None and command.flag in given[:1]
        given = given[1:] if is_flagged else given
        if not command.takes(len(given)):
            return complain(f"usage: {command.usage(name)}")
        try:
            command.do(self, given, is_flagged)
        except (LinkError, BrokenPipeError):
            raise
        except ShellRefused as refused:
            why = self._nothing_here if refused.rule == "not-this-fs" else str(refused)
            return complain(f"{' '.join((name,) + refused.paths)}: {why}")
        except (TsdError, BadPath, OSError, ValueError) as error:
            return complain(f"{name}: {error}")
        return True

    def put(self, given: List[str], is_flagged: bool) -> None:
        """`put LOCAL [PATH]`"""
        local = local_path(given[0])
        name = os.path.basename(local)
        path = given[1] if len(given) > 1 else name
        target = self._path(below(path, name) if path.endswith("/") else path)
        with Transfer(name) as transfer:
            self._transfer = transfer
            with transfer.waiting():
                source = open(local, "rb")
            with source:
                found = os.fstat(source.fileno())
                size = found.st_size if stat.S_ISREG(found.st_mode) else None
                transfer.total = size
                self.puts.put(Reading(source, transfer), target, transfer, size)

    def get(self, given: List[str], is_flagged: bool) -> None:
        """`get PATH [LOCAL]`"""
        path = self._path(given[0])
        name = split_path(path)[1]
        local = local_path(given[1]) if len(given) > 1 else name
        if os.path.isdir(local):
            local = os.path.join(local, name)
        with Transfer(name, self.files.stat(path).size) as transfer:
            save(self.files.get(path, transfer), local or ".")

    def cat(self, given: List[str], is_flagged: bool) -> None:
        """`cat PATH [START [COUNT]]`"""
        path, numbers = self._path(given[0]), [byte_number(text) for text in given[1:]]
        start, size = numbers[0] if numbers else 0, self.files.stat(path).size
        count = min([max(0, size - start), *numbers[1:]])
        with Transfer(path, count, not self._at_terminal) as transfer:
            whole = count == size
            pieces = self.files.get(path, transfer) if whole else self.files.part(path, start, count, transfer)
            with contextlib.closing(pieces):
                self._print(pieces, transfer)

    def _print(self, pieces: Iterator[bytes], transfer: Transfer) -> None:
        """Bytes as they come; at a terminal as text without its control characters, and a line feed behind it."""
        decoder = getincrementaldecoder("utf-8")("replace")
        ends = "\n"
        sys.stdout.flush()
        for piece in pieces:
            with transfer.waiting():
                if self._at_terminal:
                    text = plain_content(decoder.decode(piece))
                    ends = text[-1:] or ends
                    sys.stdout.write(text)
                else:
                    sys.stdout.buffer.write(piece)
        if self._at_terminal:
            rest = decoder.decode(b"", True)
            sys.stdout.write(rest if (rest or ends) == "\n" else rest + "\n")
        sys.stdout.flush()

    def ls(self, given: List[str], is_long: bool) -> None:
        """`ls [-l] [PATH]`"""
        path = self._path(given[0]) if given else self.directory
        with Transfer(path, is_shown=False) as transfer:
            for line in self._listed(path, is_long):
                print(line)
                transfer(0)

    def _listed(self, path: str, is_long: bool) -> Iterator[str]:
        """A line for each name in a directory, or for a file."""
        try:
            names = self.files.names(path)
        except ShellRefused as refused:
            if refused.rule != "not-dir" or self.files.look(path) != FILE:
                raise
            path, names = split_path(path)[0], [split_path(path)[1]]
        for name in names:
            yield long_line(name, self.files.stat(below(path, name))) if is_long else plain(name)

    def cd(self, given: List[str], is_flagged: bool) -> None:
        """`cd [PATH]`"""
        path = self._path(given[0]) if given else "/"
        if path != "/" and self.files.look(path) != DIRECTORY:
            self.files.names(path)
        self.directory = path

    def pwd(self, given: List[str], is_flagged: bool) -> None:
        """`pwd`"""
        print(self.directory)

    def mkdir(self, given: List[str], is_flagged: bool) -> None:
        """`mkdir PATH`"""
        self.files.do("mkdir", self._path(given[0]))

    def rm(self, given: List[str], with_all: bool) -> None:
        """`rm [-r] PATH`"""
        path = self._path(given[0])
        if not with_all:
            self.files.do("rm", path)
            self.puts.settle(path)
        elif path == "/":
            self.files.look(path)
            raise Trouble("/: the top directory stays; mkfs begins an empty tree")
        else:
            with Transfer(path, is_shown=False) as transfer:
                self._trees.remove(path, transfer)

    def cp(self, given: List[str], is_flagged: bool) -> None:
        """`cp PATH PATH`"""
        self.files.do("cp", self._path(given[0]), self._path(given[1]))

    def mv(self, given: List[str], is_flagged: bool) -> None:
        """`mv PATH PATH`"""
        source, target = self._path(given[0]), self._path(given[1])
        with Transfer(source, is_shown=False) as transfer:
            self._trees.move(source, target, transfer)

    def df(self, given: List[str], is_flagged: bool) -> None:
        """`df`"""
        print(f"{self.files.free()} blocks free")

    def mkfs(self, given: List[str], is_flagged: bool) -> None:
        """`mkfs`; at a terminal it asks first."""
        what = "all files go" if self._nothing_here == NOTHING_HERE else f"{self._nothing_here}. all of it goes"
        if self._at_terminal and not is_confirmed(f"{what}; begin an empty tree? (yes) "):
            print("nothing was done")
            return
        self.files.do("mkfs")
        self.directory, self._nothing_here = "/", NOTHING_HERE

    def unfinished(self, given: List[str], is_flagged: bool) -> None:
        """`unfinished [PATH]`"""
        for left in self.puts.left(self._path(given[0]) if given else "/"):
            print(plain(str(left)))

    def finish(self, given: List[str], is_flagged: bool) -> None:
        """`finish PUT`"""
        left = self._left(given[0])
        if left.state is not State.WHOLE:
            raise Trouble(f"{left.stage.at}: the new file isn't whole; put it again, and discard takes this away")
        with Transfer(left.target or left.stage.at) as transfer:
            self.puts.finish(left, transfer)

    def discard(self, given: List[str], is_flagged: bool) -> None:
        """`discard PUT`"""
        self.puts.discard(self._left(given[0]))

    def help(self, given: List[str], is_flagged: bool) -> None:
        """`help`"""
        for name, command in COMMANDS.items():
            print(f"{command.usage(name):20} {command.help}")

    def quit(self, given: List[str], is_flagged: bool) -> None:
        """`quit`"""
        raise Quit

    def _path(self, text: str) -> str:
        return path_from(self.directory, text)

    def _left(self, text: str) -> Left:
        path = self._path(text)
        found = [left for left in self.puts.left(split_path(path)[0]) if left.stage.at == path]
        if not found:
            raise Trouble(f"{path}: no put left anything there; unfinished tells what puts left")
        return found[0]

    def _may_go(self, path: str) -> bool:
        if not self._at_terminal or self._transfer is None:
            return False
        with self._transfer.waiting():
            return is_confirmed(OVER_CHAINS.format(path))


COMMANDS: Dict[str, Command] = {
    "put": Command(Commands.put, (LOCAL, PATH), 1, "a file of this machine to the disk"),
    "get": Command(Commands.get, (PATH, LOCAL), 1, "a file of the disk to this machine, in place of a regular file"),
    "cat": Command(Commands.cat, (PATH, START, COUNT), 2, "prints a file, or COUNT bytes of it from byte START on"),
    "ls": Command(Commands.ls, (PATH,), 1, "the names in a directory; -l with sizes", "-l"),
    "cd": Command(Commands.cd, (PATH,), 1, "where paths without a slash before them begin from then on (/)"),
    "pwd": Command(Commands.pwd, (), 0, "where they begin"),
    "mkdir": Command(Commands.mkdir, (PATH,), 0, "a new directory (inode)"),
    "rm": Command(Commands.rm, (PATH,), 0, "takes away a file, or a directory without entries; -r with all in it",
                  "-r"),
    "cp": Command(Commands.cp, (PATH, PATH), 0, "a new file with the bytes of another (inode)"),
    "mv": Command(Commands.mv, (PATH, PATH), 0, "another name, or into a directory. Not one change: the new name is "
                                               "there first, and a crash may leave both"),
    "df": Command(Commands.df, (), 0, "how many blocks are free"),
    "mkfs": Command(Commands.mkfs, (), 0, "begins an empty tree in place of what is there"),
    "unfinished": Command(Commands.unfinished, (PATH,), 1, "what puts left that were cut off (in /)"),
    "finish": Command(Commands.finish, (PUT,), 0, "puts a new file that is whole into its place"),
    "discard": Command(Commands.discard, (PUT,), 0, "takes away what a put left"),
    "help": Command(Commands.help, (), 0, "this list"),
    "quit": Command(Commands.quit, (), 0, "ends tsd-shell, as the end of the input does"),
}


def local_path(text: str) -> str:
    """A path of this machine, as it is; one that no file can have is told."""
    if "\0" in text:
        raise Trouble(f"{text!r}: no file has a name with a byte 0")
    return text


def byte_number(text: str) -> int:
    """A number of bytes."""
    if not (text.isascii() and text.isdecimal() and len(text) <= MOST_DIGITS):
        raise Trouble(f"{text!r} is no number of bytes")
    return int(text)


def long_line(name: str, found: Stat) -> str:
    """A file with its size, or a directory."""
    return f"{'-':>15}  {plain(name)}/" if found.kind == DIRECTORY else f"{found.size:>15,}  {plain(name)}"


def is_confirmed(question: str) -> bool:
    """Whether the answer at the terminal is yes."""
    return answer_to(question) == "yes"


def answer_to(question: str) -> str:
    """The answer at the terminal; nothing where there is none."""
    try:
        return input(plain(question)).strip()
    except (EOFError, KeyboardInterrupt):
        print()
        return ""


def complain(text: str) -> bool:
    """Tells what went wrong; False."""
    sys.stdout.flush()
    print(plain_lines(text), file=sys.stderr, flush=True)
    return False

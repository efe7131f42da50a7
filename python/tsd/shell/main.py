"""The command `tsd-shell`."""

from __future__ import annotations

import argparse
import contextlib
import getpass
import io
import os
import sys
from pathlib import Path
from typing import Iterator, List, Optional

from tsd.arguments import seconds
from tsd.capability import Capability
from tsd.errors import LinkError, ProgramEnded
from tsd.image_header import geometry_of
from tsd.peers import ProgramPeer
from tsd.programs import PLACES, image_word, program_words, secret_word
from tsd.shell.asks import ask_of
from tsd.shell.commands import NOTHING_HERE, Commands, Quit, answer_to, complain
from tsd.shell.completion import Completer
from tsd.shell.files import Files
from tsd.shell.paths import CHAIN, INODE
from tsd.shell.program import ShellProgram
from tsd.shell.puts import Left, State
from tsd.shell.refusals import Limits, ShellRefused
from tsd.shell.root import what_is_there

FAILED, USAGE, INTERRUPTED = 1, 2, 130
LIMIT = 60.0
PROMPT = "tsd{}> "
MOST_HISTORY = 1000


def limit(text: str) -> float:
    """A number of seconds."""
    return seconds(float(text))


def options(words: Optional[List[str]] = None) -> argparse.Namespace:
    """The options of the command line."""
    parser = argparse.ArgumentParser(
        prog="tsd-shell", description="Files on a disk: a prompt at a terminal, else the commands of standard input.",
        epilog="The capability to write the root is asked for without echo where no file has it. The command help "
               "tells what there is. The status is 1 where a command failed, and the program's where that ended.")
    parser.add_argument("image", help="the image of the disk")
    parser.add_argument("kind", choices=(INODE, CHAIN), help="the file system: inodes, or chains of clusters")
    parser.add_argument("root", type=int, help="the primary block that the files hang from")
    parser.add_argument("place", nargs="?", choices=PLACES, default="near",
                        help="which free block is taken first (near)")
    parser.add_argument("--cap-file", metavar="FILE", help="a file whose first word is the capability")
    parser.add_argument("--limit", type=limit, default=LIMIT, help="seconds without an answer that are too many (60)")
    parser.add_argument("--program", help="the program tsd")
    return parser.parse_args(words)


def capability(file: Optional[str]) -> Capability:
    """The capability, from a file or from the terminal; ValueError where none comes."""
    if file is not None:
        return Capability.from_file(file)
    try:
        os.close(os.open("/dev/tty", os.O_RDWR | os.O_NOCTTY))
    except OSError:
        raise ValueError("there is no terminal to ask for the capability; --cap-file names a file with it") from None
    return Capability.from_hex(getpass.getpass("capability: ").strip())


@contextlib.contextmanager
def opened(given: argparse.Namespace, cap: Capability) -> Iterator[ShellProgram]:
    """The program, started; the capability comes to it by a pipe. It is open once it has answered."""
    with secret_word(cap.reveal().hex()) as (word, reading):
        words = program_words(given.program)
        words += [image_word(given.image), "files", given.kind, str(given.root), word, given.place]
        program = ShellProgram(ProgramPeer(words, pass_fds=(reading,)), given.limit)
        try:
            program.expect(ask_of("df"), "free")
        except BaseException:
            program.abandon()
            raise
    try:
        yield program
    except BaseException:
        program.abandon()
        raise
    program.close()


def history_file() -> Path:
    """Where the lines of earlier prompts are kept."""
    state = os.environ.get("XDG_STATE_HOME") or os.path.expanduser("~/.local/state")
    return Path(state) / "tsd" / "history"


@contextlib.contextmanager
def line_editing(commands: Commands) -> Iterator[None]:
    """History and Tab, where this Python has them."""
    try:
        import readline
    except ImportError:
        yield
        return
    path = history_file()
    with contextlib.suppress(OSError):
        readline.read_history_file(path)
    readline.set_history_length(MOST_HISTORY)
    readline.set_completer_delims(" ")
    readline.set_completer(Completer(commands).complete)
    is_libedit = "libedit" in (readline.__doc__ or "")
    readline.parse_and_bind("bind ^I rl_complete" if is_libedit else "tab: complete")
    try:
        yield
    finally:
        with contextlib.suppress(OSError):
            path.parent.mkdir(mode=0o700, parents=True, exist_ok=True)
            readline.write_history_file(path)


def prompt(commands: Commands) -> int:
    """Commands at a terminal, until its end."""
    while True:
        try:
            line = input(PROMPT.format("" if commands.directory == "/" else f" {commands.directory}"))
        except KeyboardInterrupt:
            print()
            continue
        except UnicodeDecodeError:
            complain("a line has to be UTF-8")
            continue
        except EOFError:
            print()
            return 0
        try:
            commands.run(line)
        except Quit:
            return 0


def script(commands: Commands) -> int:
    """Commands of standard input; 1 where one failed. Each is carried out, whatever became of those before."""
    status = 0
    if isinstance(sys.stdin, io.TextIOWrapper):
        sys.stdin.reconfigure(errors="surrogateescape")
    try:
        for line in sys.stdin:
            if not commands.run(line):
                status = FAILED
    except Quit:
        pass
    sys.stdout.flush()
    return status


def tell_unfinished(commands: Commands, at_terminal: bool) -> None:
    """Tells what earlier puts left, and at a terminal offers to finish it or to take it away."""
    for left in commands.puts.left():
        complain(f"tsd-shell: {left}")
        if at_terminal:
            choose(commands, left)
        else:
            complain(f"tsd-shell: finish {left.stage.at} or discard {left.stage.at} ends that")


def choose(commands: Commands, left: Left) -> None:
    """Asks what is to become of it."""
    choices = ["finish"] * (left.state is State.WHOLE) + ["discard", "leave"]
    answer = answer_to(f"{', '.join(choices[:-1])} or {choices[-1]} it? ")
    if answer in choices and answer != "leave":
        commands.run(f"{answer} {left.stage.at}")
    else:
        print("it stays; the command unfinished tells of it")


def is_mounted(files: Files) -> bool:
    """Whether a tree of files is there."""
    try:
        files.look("/")
    except ShellRefused as refused:
        return refused.rule != "not-this-fs"
    return True


def serve(given: argparse.Namespace, files: Files, nothing_here: str) -> int:
    """Commands over the files, at a terminal or in a script."""
    at_terminal = sys.stdin.isatty() and sys.stdout.isatty()
    commands = Commands(files, at_terminal, nothing_here)
    tell_unfinished(commands, at_terminal)
    if not at_terminal:
        return script(commands)
    with line_editing(commands):
        return prompt(commands)


def run(given: argparse.Namespace) -> int:
    """tsd-shell, with its program. Where no tree of files is there the block that it would hang from is looked at, so
    that nobody is told to begin a new one over a damaged one."""
    if isinstance(sys.stdout, io.TextIOWrapper):
        sys.stdout.reconfigure(errors="replace")
    cap, geometry = capability(given.cap_file), geometry_of(given.image)
    limits = Limits(given.kind, geometry.block_length if geometry else None)
    with opened(given, cap) as program:
        files = Files(program, limits)
        if is_mounted(files):
            return serve(given, files, NOTHING_HERE)
    nothing_here = what_is_there(given, cap)
    with opened(given, cap) as program:
        return serve(given, Files(program, limits), nothing_here)


def main(words: Optional[List[str]] = None) -> int:
    """The command; its exit status."""
    given = options(words)
    try:
        return run(given)
    except ProgramEnded as ended:
        complain(f"tsd-shell: {ended}")
        if ended.status == USAGE:
            complain("tsd-shell: does `tsd help files` know the command?")
        return ended.status if ended.status > 0 else FAILED
    except BrokenPipeError:
        os.dup2(os.open(os.devnull, os.O_WRONLY), sys.stdout.fileno())
        return FAILED
    except EOFError:
        return FAILED
    except (LinkError, OSError, ValueError) as error:
        complain(f"tsd-shell: {error}")
        return USAGE if isinstance(error, ValueError) else FAILED
    except KeyboardInterrupt:
        return INTERRUPTED

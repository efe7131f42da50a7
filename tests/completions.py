"""Completion in bash and in zsh, each the real shell at a terminal, which is asked what may stand at the end of a line;
and that the man pages are set without a warning. A shell that isn't there is skipped."""

from __future__ import annotations

import fcntl
import os
import pty
import re
import select
import shutil
import struct
import subprocess
import termios
import time
from pathlib import Path
from typing import Dict, FrozenSet, Iterator, List

from parts import Context, Result, compared, skipped

NAME = "completions"
MOST_SECONDS = 20
PIECE = 65536
ROWS, COLUMNS = 200, 120
PROMPT = b"tsd> "
ASK, CLEAR = b"\x14", b"\x15"
# A command whose output has a word that its echo hasn't.
SAY_END, END = b"echo E''ND\r", b"END\r\n"
COMMAND = re.compile(r"^  ([a-z]+) {2,}", re.MULTILINE)

IMAGES = frozenset({"disk.img", "other.img"})
FOLDER = "caps"
FILES = IMAGES | {FOLDER}
PLACES = frozenset({"low", "near", "spread", "zone"})
TOPICS = frozenset({"mirror", "requests", "replies"})
SECTORS = frozenset({"1", "2", "4", "8"})
CASES: Dict[str, FrozenSet[str]] = {
    "tsd ": FILES | {"mirror", "help", "--help", "--version", "--overwrite", "-"},
    "tsd --overwrite o": frozenset({"other.img"}),
    "tsd --overwrite disk.img sh": frozenset({"shell"}),
    "tsd --overwrite mirror disk.img other.img run ": PLACES,
    "tsd o": frozenset({"other.img"}),
    "tsd disk.img sh": frozenset({"shell"}),
    "tsd disk.img run ": PLACES,
    "tsd disk.img serve s": frozenset({"spread"}),
    "tsd disk.img group ": PLACES,
    "tsd disk.img shell ": frozenset({"inode", "chain"}),
    "tsd disk.img shell inode 0 @": FILES,
    "tsd disk.img shell inode 0 @disk.img ": PLACES,
    "tsd disk.img fi": frozenset({"files"}),
    "tsd disk.img files ": frozenset({"inode", "chain"}),
    "tsd disk.img files chain 0 @": FILES,
    "tsd disk.img files chain 0 @disk.img ": PLACES,
    "tsd disk.img copyfs ": frozenset({"inode", "chain"}),
    "tsd disk.img copyfs inode 0 a c": frozenset({"chain"}),
    "tsd disk.img copyfs inode 0 a chain 1 @": FILES,
    "tsd disk.img copyfs inode 0 a chain 1 @disk.img ": PLACES,
    "tsd disk.img load 00 5 ": PLACES,
    "tsd disk.img fresh 8 ": SECTORS,
    "tsd disk.img fresh 8 1 a b ": PLACES,
    "tsd disk.img format 8 ": SECTORS,
    "tsd mirror ": FILES,
    "tsd mirror disk.img o": frozenset({"other.img"}),
    "tsd mirror disk.img other.img run ": PLACES,
    "tsd mirror disk.img other.img fresh 8 ": SECTORS,
}
# Of tsd-shell.
CASES.update({
    "tsd-shell ": FILES,
    "tsd-shell disk.img ": frozenset({"inode", "chain"}),
    "tsd-shell disk.img c": frozenset({"chain"}),
    "tsd-shell disk.img inode 0 ": PLACES,
    "tsd-shell disk.img inode 0 --cap-file ": FILES,
    "tsd-shell --cap-file disk.img o": frozenset({"other.img"}),
    "tsd-shell disk.img inode 0 near --l": frozenset({"--limit"}),
})
# Of tsd-hub.
CASES.update({
    "tsd-hub ": FILES,
    "tsd-hub disk.img ": PLACES,
    "tsd-hub disk.img near --so": frozenset({"--socket"}),
    "tsd-hub disk.img near --socket ": FILES,
    "tsd-hub --per-user 4 disk.img s": frozenset({"spread"}),
    "tsd-hub disk.img near --mode ": frozenset({"600", "660", "666"}),
    "tsd-hub --stats o": frozenset({"other.img"}),
})
# Of the others.
CASES.update({
    "tsd-copy ": FILES,
    "tsd-copy disk.img o": frozenset({"other.img"}),
    "tsd-copy disk.img other.img --c": frozenset({"--caps"}),
    "tsd-copy disk.img other.img --caps ": FILES,
    "tsd-copy --caps other.img d": frozenset({"disk.img"}),
    "tsd-keygen ": frozenset({FOLDER}),
    "tsd-keygen --h": frozenset({"--help"}),
    "tsd-pointers --im": frozenset({"--image"}),
    "tsd-pointers --image d": frozenset({"disk.img"}),
    "tsd-mount ": FILES,
    "tsd-mount disk.img ": frozenset({"inode", "chain"}),
    "tsd-mount disk.img inode 0 ": frozenset({FOLDER}),
    "tsd-mount disk.img inode 0 caps ": PLACES,
    "tsd-mount disk.img inode 0 --cap-file o": frozenset({"other.img"}),
    "tsd-mount --limit 5 --re": frozenset({"--read-only"}),
})

BASH = f"""
PS1='{PROMPT.decode()}'
for file in '%s'/completions/*.bash; do . "$file"; done
bind 'set completion-query-items 0'
bind 'set page-completions off'
bind 'set completion-display-width 0'
bind 'set bell-style none'
bind 'set enable-bracketed-paste off'
bind '"\\C-t": possible-completions'
bind '"\\C-u": unix-line-discard'
"""
ZSH = f"""
PS1='{PROMPT.decode()}'
fpath=('%s/completions' $fpath)
autoload -Uz compinit && compinit -u -D
unset zle_bracketed_paste
LISTMAX=10000
setopt no_beep no_always_last_prompt no_prompt_sp
bindkey '^T' list-choices
bindkey '^U' kill-whole-line
"""


class Shell:
    """A shell at a terminal, in a folder with two files and a folder."""

    def __init__(self, words: List[str], home: Path, folder: Path) -> None:
        environment = {"PATH": os.environ["PATH"], "HOME": str(home), "ZDOTDIR": str(home), "TERM": "dumb",
                       "LC_ALL": "C.UTF-8"}
        self.pid, self.terminal = pty.fork()
        if self.pid == 0:
            os.chdir(folder)
            os.execvpe(words[0], words, environment)
        fcntl.ioctl(self.terminal, termios.TIOCSWINSZ, struct.pack("HHHH", ROWS, COLUMNS, 0, 0))
        self.told = b""
        self.until(PROMPT)

    def until(self, mark: bytes) -> str:
        """What it tells before this."""
        end = time.monotonic() + MOST_SECONDS
        while mark not in self.told:
            left = end - time.monotonic()
            if left <= 0 or not select.select([self.terminal], [], [], left)[0]:
                break
            try:
                self.told += os.read(self.terminal, PIECE)
            except OSError:
                break
        text, _, self.told = self.told.partition(mark)
        return text.decode(errors="replace")

    def choices(self, line: str) -> FrozenSet[str]:
        """What may stand at the end of a line: a list below it, each with words about it or alone."""
        os.write(self.terminal, line.encode() + ASK)
        listed = self.until(PROMPT).splitlines()[1:]
        os.write(self.terminal, CLEAR + SAY_END)
        self.until(END)
        self.until(PROMPT)
        words = (word for row in listed for word in row.partition(" -- ")[0].split())
        return frozenset(word.lstrip("@").rstrip("/") for word in words)

    def end(self) -> None:
        """Ends it."""
        os.close(self.terminal)
        os.waitpid(self.pid, 0)


def cases_of(context: Context) -> Dict[str, FrozenSet[str]]:
    """The cases above, and where a command or a topic stands: those that the program's help names."""
    told = subprocess.run([str(context.program), "--help"], stdout=subprocess.PIPE, check=True, text=True).stdout
    commands = frozenset(COMMAND.findall(told.partition("commands\n")[2].partition("exit status")[0]))
    return {**CASES, "tsd disk.img ": commands, "tsd mirror disk.img other.img ": commands,
            "tsd help ": commands | TOPICS}


def in_shell(name: str, script: str, context: Context) -> Iterator[Result]:
    """Each line in one shell."""
    if shutil.which(name) is None:
        yield skipped(f"completion in {name}", f"no {name} is there")
        return
    home, folder = context.folder / f"{name}-home", context.folder / f"{name}-folder"
    for path in (home, folder):
        path.mkdir()
    for image in IMAGES:
        (folder / image).touch()
    (folder / FOLDER).mkdir()
    (home / ".zshrc").write_text(script % context.top)
    words = {"bash": ["bash", "--noprofile", "--rcfile", str(home / ".zshrc"), "-i"], "zsh": ["zsh", "-i"]}
    shell = Shell(words[name], home, folder)
    try:
        for line, expected in cases_of(context).items():
            yield compared(f"completion in {name}: {line!r}", sorted(expected), sorted(shell.choices(line)))
    finally:
        shell.end()


def man_pages(context: Context) -> Iterator[Result]:
    """Each page is set, and nothing is told of it."""
    for page in sorted((context.top / "man").glob("*.1")):
        name = f"the man page {page.name} is set without a warning"
        if shutil.which("groff") is None:
            yield skipped(name, "no groff is there")
            continue
        ran = subprocess.run(["groff", "-ww", "-man", "-Tutf8", "-z", str(page)], capture_output=True, text=True)
        yield compared(name, (0, ""), (ran.returncode, ran.stderr))


def run(context: Context) -> Iterator[Result]:
    """Both shells, and the pages."""
    yield from in_shell("bash", BASH, context)
    yield from in_shell("zsh", ZSH, context)
    yield from man_pages(context)

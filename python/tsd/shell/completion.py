"""What Tab offers: commands, paths of the disk, and files of this machine, with the quotes that their names need."""

from __future__ import annotations

import glob
import os
import re
from typing import List, NamedTuple, Optional

from tsd.errors import TsdError
from tsd.shell.commands import COMMANDS, LOCAL, PATH, PUT, Commands
from tsd.shell.paths import BadPath, path_from

SAFE = re.compile(r"[\w@%+=:,./-]*\Z")
SINGLE, DOUBLE, ESCAPE, BLANKS = "'", '"', "\\", " \t"


class LastWord(NamedTuple):
    """The word at the end of a line: the words before it, where it begins, how it is typed, what that means, and the
    quote that is open in it."""

    before: List[str]
    start: int
    typed: str
    text: str
    quote: str


def last_word(line: str) -> LastWord:
    """The last word of a line, which may be one that isn't begun; quotes are as in a shell."""
    before: List[str] = []
    start, text, quote, is_inside, at = 0, "", "", False, 0
    while at < len(line):
        each = line[at]
        if not quote and each in BLANKS:
            if is_inside:
                before.append(text)
            start, text, is_inside = at + 1, "", False
        elif each == quote or not quote and each in (SINGLE, DOUBLE):
            quote, is_inside = "" if quote else each, True
        else:
            if each == ESCAPE and is_escape(line, at, quote):
                at, each = at + 1, line[at + 1]
            text, is_inside = text + each, True
        at += 1
    return LastWord(before, start, line[start:], text, quote)


def is_escape(line: str, at: int, quote: str) -> bool:
    """Whether the backslash there stands for what follows it."""
    follows = line[at + 1:at + 2]
    return bool(follows) and (not quote or quote == DOUBLE and follows in (DOUBLE, ESCAPE))


def spelled(word: LastWord, name: str, is_whole: bool) -> str:
    """A name, which begins as the word does, as it is typed: what stands there stays, and a name that needs quotes gets
    them. Behind one that is whole the quote is closed, and a blank stands."""
    rest, end = name[len(word.text):], " " if is_whole else ""
    if word.quote:
        return word.typed + quoted(rest, word.quote) + (word.quote + end if is_whole else "")
    if SAFE.match(rest):
        return word.typed + rest + end
    if word.typed != word.text:
        return word.typed + re.sub(r"([^\w@%+=:,./-])", r"\\\1", rest) + end
    quote = DOUBLE if SINGLE in name else SINGLE
    return quote + quoted(name, quote) + (quote + end if is_whole else "")


def quoted(text: str, quote: str) -> str:
    """Text inside a quote."""
    if quote == SINGLE:
        return text.replace(SINGLE, "'\\''")
    return text.replace(ESCAPE, ESCAPE * 2).replace(DOUBLE, ESCAPE + DOUBLE)


class Completer:
    """Over the commands and files of a disk. `complete` is what the module readline calls."""

    def __init__(self, commands: Commands) -> None:
        self._commands = commands
        self._found: List[str] = []

    def complete(self, text: str, state: int) -> Optional[str]:
        """The candidate of this number for the word that ends at the cursor. Readline replaces what stands behind the
        last blank, also where that is inside quotes."""
        import readline

        if state == 0:
            line = readline.get_line_buffer()[:readline.get_endidx()]
            skipped = readline.get_begidx() - last_word(line).start
            self._found = [found[skipped:] for found in self.candidates(line)]
        return self._found[state] if state < len(self._found) else None

    def candidates(self, line: str) -> List[str]:
        """The words that may stand in place of the last one of a line, typed as they have to be."""
        word = last_word(line)
        if not word.before:
            return [f"{name} " for name in COMMANDS if name.startswith(word.typed)]
        command = COMMANDS.get(word.before[0])
        given = [each for each in word.before[1:] if command is None or each != command.flag]
        if command is None or len(given) >= len(command.words):
            return []
        what = command.words[len(given)]
        found = local_files(word.text) if what == LOCAL else self._paths(word.text) if what in (PATH, PUT) else []
        is_whole = [not name.endswith("/") and len(found) == 1 for name in found]
        return [spelled(word, name, whole) for name, whole in zip(found, is_whole)]

    def _paths(self, text: str) -> List[str]:
        """Paths of the disk; a lone directory gets its slash, so that the next Tab goes on in it."""
        above, slash, begun = text.rpartition("/")
        names = self._names(above + slash)
        found = [f"{above}{slash}{name}" for name in names or [] if name.startswith(begun)]
        if len(found) == 1 and self._names(found[0]) is not None:
            return [found[0] + "/"]
        return found

    def _names(self, text: str) -> Optional[List[str]]:
        """The names in a directory; None where there is none."""
        try:
            return self._commands.files.names(path_from(self._commands.directory, text))
        except (TsdError, BadPath):
            return None


def local_files(text: str) -> List[str]:
    """Files of this machine; a directory has its slash. A name that says something to the terminal isn't offered."""
    found = sorted(name for name in glob.glob(glob.escape(text) + "*") if name.isprintable())
    return [name + "/" if os.path.isdir(name) else name for name in found]

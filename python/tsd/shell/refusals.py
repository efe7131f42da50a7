"""The shell's refusals, in words, with the limits that they speak of."""

from __future__ import annotations

from typing import Dict, List, NamedTuple, Optional, Tuple

from tsd.errors import TsdError
from tsd.shell.paths import INODE

WORDS: Dict[str, str] = {
    "bad-request": "this file system has no such command",
    "not-this-fs": "no tree of files is there",
    "not-dir": "that is a file, or a name on the way is",
    "no-entry": "nothing of that name",
    "is-dir": "that is a directory",
    "exists": "that is there already",
    "not-empty": "the directory isn't empty",
    "dir-full": "the directory is full",
    "too-big": "too big",
}
BLOCK_LENGTHS = (512, 1024, 2048, 4096)
HEAD, ENTRY, NUMBER = 16, 32, 4
MOST_CHAIN_NAMES = 4096


class Limits(NamedTuple):
    """What a file system takes (docs/FILES.md); the length of a block isn't known of every disk."""

    kind: str
    block_length: Optional[int] = None

    def most_names(self) -> str:
        """How many names a directory has at most."""
        if self.kind != INODE:
            return f"{MOST_CHAIN_NAMES:,}"
        return self._by_length([(length - HEAD) // ENTRY for length in BLOCK_LENGTHS])

    def most_blocks(self) -> str:
        """How many blocks a file over inodes has at most."""
        return self._by_length([(length - HEAD) // NUMBER for length in BLOCK_LENGTHS])

    def blocks_for(self, size: int) -> Optional[int]:
        """How many blocks a file of so many bytes takes; None where that isn't known."""
        if self.block_length is None:
            return None
        if self.kind == INODE:
            return 1 + rounded_up(size, self.block_length)
        return max(1, rounded_up(size, self.block_length - HEAD))

    def is_too_big(self, size: int) -> bool:
        """Whether no disk of such blocks has room for a file of so many bytes."""
        if self.block_length is None or self.kind != INODE:
            return False
        return rounded_up(size, self.block_length) > (self.block_length - HEAD) // NUMBER

    def _by_length(self, numbers: List[int]) -> str:
        if self.block_length in BLOCK_LENGTHS:
            return f"{numbers[BLOCK_LENGTHS.index(self.block_length)]:,}"
        return "{:,}, {:,}, {:,} or {:,}".format(*numbers)


def rounded_up(amount: int, each: int) -> int:
    """How many pieces an amount takes."""
    return -(-amount // each)


class ShellRefused(TsdError):
    """An ask was refused: its rule, and the rule's numbers. Who asked may add the paths and the limits."""

    FIELDS = ("rule", "numbers", "paths")

    def __init__(self, rule: str, numbers: Tuple[int, ...] = ()) -> None:
        super().__init__(rule, numbers)
        self.rule = rule
        self.numbers = numbers
        self.paths: Tuple[str, ...] = ()
        self.limits: Optional[Limits] = None

    def __str__(self) -> str:
        if self.rule == "full":
            return "no room: {:,} blocks free, {:,} needed".format(*self.numbers)
        if self.rule == "pointers-full":
            return "no room for pointers: {:,} of {:,} are held".format(*self.numbers)
        if self.limits is not None and self.rule == "dir-full":
            return f"the directory is full: it has at most {self.limits.most_names()} names" + self._by_length()
        if self.limits is not None and self.rule == "too-big":
            return f"too big: a file over inodes has at most {self.limits.most_blocks()} blocks" + self._by_length()
        return WORDS[self.rule]

    def _by_length(self) -> str:
        """Said where the length of a block isn't known, and decides."""
        is_known = self.limits is None or self.limits.block_length in BLOCK_LENGTHS or self.limits.kind != INODE
        return "" if is_known else ", by their length" if self.rule == "too-big" else ", by the length of a block"


def refusal(words: str) -> ShellRefused:
    """The refusal of these words; ValueError where there is none."""
    rule, *rest = words.split(" ")
    numbers = tuple(int(word) for word in rest)
    if len(numbers) != (2 if rule in ("full", "pointers-full") else 0 if rule in WORDS else -1):
        raise ValueError(f"{words!r} is no refusal")
    return ShellRefused(rule, numbers)

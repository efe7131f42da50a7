"""What a part of ./test is: a module of this folder with

    NAME = "tour"
    def run(context: Context) -> Iterator[Result]

It yields a result for each thing that it tried, as soon as it is known.
"""

from __future__ import annotations

import random
from dataclasses import dataclass
from pathlib import Path
from typing import NamedTuple, Optional

PASSED, FAILED, SKIPPED = "passed", "failed", "skipped"
# Of a long text so much is shown at either end.
MOST_SHOWN = 700


class Result(NamedTuple):
    """One thing that was tried: its name, its outcome, and for a failure or a skip what there is to say."""

    name: str
    outcome: str
    text: str = ""


def passed(name: str) -> Result:
    """It is as it should be."""
    return Result(name, PASSED)


def failed(name: str, text: str) -> Result:
    """It isn't; the text says what was expected and what came."""
    return Result(name, FAILED, text)


def skipped(name: str, text: str) -> Result:
    """It wasn't tried, since what the text names is missing."""
    return Result(name, SKIPPED, text)


def compared(name: str, expected: object, found: object) -> Result:
    """Passed where both are equal."""
    if expected == found:
        return passed(name)
    return failed(name, f"expected {shortened(repr(expected))}\n   found {shortened(repr(found))}")


def shortened(text: str) -> str:
    """A text whose middle is left out where it is long."""
    left_out = len(text) - 2 * MOST_SHOWN
    return text if left_out <= 0 else f"{text[:MOST_SHOWN]}...{left_out} more...{text[-MOST_SHOWN:]}"


@dataclass(frozen=True)
class Context:
    """What a part may use. Its folder is empty, its own, and is taken away when the part has ended."""

    program: Path
    folder: Path
    top: Path
    seed: int
    crashes: int
    compiler: Optional[str]
    is_root: bool

    def random(self, name: str) -> random.Random:
        """Random numbers that the seed and the name alone decide."""
        return random.Random(f"{self.seed}/{name}")

"""What may be given to a call. A TypeError or a ValueError names the argument, and tells of it its type alone where it
could be a secret."""

from __future__ import annotations

import math
import operator
import os
from typing import Any, Sequence, Union

MOST_NUMBER = 0xFFFFFFFF
MOST_SECONDS = 1e9
PathWord = Union[str, "os.PathLike[str]"]


def kind_of(value: object) -> str:
    """The type of a value, as an error names it."""
    return "None" if value is None else type(value).__name__


def whole_number(value: Any, name: str, most: int = MOST_NUMBER) -> int:
    """A number from 0 to the most."""
    if isinstance(value, bool) or not hasattr(type(value), "__index__"):
        raise TypeError(f"{name} is a whole number, not {kind_of(value)}")
    found = operator.index(value)
    if not 0 <= found <= most:
        raise ValueError(f"{name} is 0 to {most}, not {found}")
    return found


def content(value: Any, name: str = "data") -> bytes:
    """Bytes."""
    if not isinstance(value, (bytes, bytearray, memoryview)):
        raise TypeError(f"{name} is bytes, not {kind_of(value)}")
    return bytes(value)


def seconds(value: Any, name: str = "limit") -> float:
    """A number of seconds that somebody may wait: above 0, and not without end."""
    if isinstance(value, bool) or not isinstance(value, (int, float)):
        raise TypeError(f"{name} is a number of seconds, not {kind_of(value)}")
    if math.isnan(value) or not 0 < value <= MOST_SECONDS:
        raise ValueError(f"{name} is above 0 and at most {MOST_SECONDS:.0f} seconds, not {value}")
    return float(value)


def path_word(value: Any, name: str) -> str:
    """A path as a text."""
    if not isinstance(value, (str, os.PathLike)) or not isinstance(os.fspath(value), str):
        raise TypeError(f"{name} is a path, not {kind_of(value)}")
    return os.fspath(value)


def one_of(value: Any, name: str, words: Sequence[str]) -> str:
    """One of some words."""
    if value not in words:
        told = repr(value) if isinstance(value, str) else kind_of(value)
        raise ValueError(f"{name} is {', '.join(words[:-1])} or {words[-1]}, not {told}")
    return str(value)

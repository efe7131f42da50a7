"""Shrinks what shows a difference: steps are left out as long as there still is one (delta debugging)."""

from __future__ import annotations

import time
from typing import Callable, Sequence, Tuple, TypeVar

Step = TypeVar("Step")
MOST_SECONDS = 60.0


def shrunk(
    steps: Sequence[Step],
    still: Callable[[Tuple[Step, ...]], bool],
    seconds: float = MOST_SECONDS,
) -> Tuple[Step, ...]:
    """A part of the steps of which `still` holds, and of no part with one piece less; or what the time allows."""
    now = tuple(steps)
    end = time.monotonic() + seconds
    size = max(1, len(now) // 2)
    while True:
        smaller = _without_pieces(now, size, still, end)
        if time.monotonic() > end or (size == 1 and len(smaller) == len(now)):
            return smaller
        now = smaller
        size = max(1, size // 2)


def _without_pieces(now: Tuple[Step, ...], size: int, still: Callable[[Tuple[Step, ...]], bool],
                    end: float) -> Tuple[Step, ...]:
    """Leaves out each piece of this size that isn't needed, from the last one on."""
    at = len(now)
    while at > 0 and time.monotonic() < end:
        without = now[:max(0, at - size)] + now[at:]
        if len(without) < len(now) and still(without):
            now = without
        at -= size
    return now

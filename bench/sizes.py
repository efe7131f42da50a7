"""How much longer a request takes on a large disk than on a small one, in memory."""

from __future__ import annotations

from pathlib import Path
from typing import Sequence

from trials import MILLION, READ, WRITE, Place, Row, Rows, Talk, fresh, micros

COUNT = 40_000
SMALL = 1_000
GRANTED = (b"data", b"ok", b"gone 0")


def seconds(image: Path, lines: Sequence[str]) -> float:
    """The seconds of a request; block 1 is one that the session holds."""
    with Talk(image, "run", "low") as talk:
        talk.ask([f"alloc 1 0 {WRITE} - 1"], b"blocks 1\n")
        taken = talk.work(lines, GRANTED)
        talk.ask([f"delete 1 0 {WRITE} 1"], b"gone 1\n")
    return taken / len(lines)


def rows(place: Place) -> Rows:
    """READ, WRITE, CREATE and DELETE."""
    small, large = (fresh(place.memory / f"of{blocks}.img", blocks) for blocks in (SMALL, MILLION))
    kinds = {
        "READ": [f"read 1 0 {READ}"] * COUNT,
        "WRITE": [f"write 1 0 {WRITE} 01"] * COUNT,
        "CREATE and DELETE": ["create 1 1 - 1", "delete 1 1 - 1"] * (COUNT // 2),
    }
    for name, lines in kinds.items():
        of_small, of_large = (seconds(image, lines) for image in (small, large))
        yield Row(f"{name} at 1,000 blocks, µs of a processor", f"{micros(of_small, 1):.1f}")
        yield Row(f"{name} at 1,000,000 blocks, against 1,000", f"{of_large / of_small:.2f}")

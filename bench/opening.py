"""`check` of the largest disk, empty and full: time, against reading its tables, and memory."""

from __future__ import annotations

import time
from pathlib import Path
from statistics import median

from large import full_image, of_four_sources
from trials import LARGEST, PIECE, Place, Row, Rows, call, spent

SLOTS = 4 * LARGEST
TABLES = 512 * (1 + LARGEST // 128 + LARGEST // 4096 + SLOTS // 64)
ROUNDS = 3


def read(image: Path) -> float:
    """Reads the tables' bytes; the seconds of a processor."""
    began = time.process_time()
    with open(image, "rb", buffering=0) as file:
        left = TABLES
        while left > 0 and (got := len(file.read(min(left, 16 * PIECE)))):
            left -= got
    return time.process_time() - began


def rows(place: Place) -> Rows:
    """Empty, and with all blocks live and all slots in use, in an order that looks drawn at random."""
    image = place.memory / "largest.img"
    makers = {"empty": lambda: call([image, "format", LARGEST, 1, SLOTS, 1, "0" * 64]),
              "full": lambda: full_image(LARGEST, of_four_sources).write(image)}
    for name, make in makers.items():
        make()
        reading = median(read(image) for _ in range(ROUNDS))
        checks = [spent(image, "check") for _ in range(ROUNDS)]
        seconds = median(check.seconds for check in checks)
        yield Row(f"the largest disk, {name}: `check`, s of a processor", f"{seconds:.3f}")
        yield Row(f"the largest disk, {name}: `check` against reading its tables", f"{seconds / reading:.1f}")
        yield Row(f"the largest disk, {name}: `check`, most memory, MiB", f"{max(check.peak for check in checks):.0f}")
        image.unlink()

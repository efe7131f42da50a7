"""What `audit` and `verify` take beside `check`, of the largest disk with every block in one chain, the longest
search."""

from __future__ import annotations

from statistics import median

from large_images import LargeImage, numbers_of
from trials import LARGEST, Place, Row, Rows, call, spent

ROUNDS = 3


def rows(place: Place) -> Rows:
    """Times and memory against `check` of the same image."""
    image, certificate = place.memory / "chain.img", place.memory / "certificate"
    laid = LargeImage(LARGEST)
    laid.set_live(LARGEST)
    laid.put_pairs(numbers_of(range(LARGEST - 1)), numbers_of(range(1, LARGEST)))
    laid.write(image)
    certificate.write_bytes(call([image, "audit"]))
    checks = [spent(image, "check") for _ in range(ROUNDS)]
    seconds, peak = median(check.seconds for check in checks), max(check.peak for check in checks)
    for word, source in (("audit", None), ("verify", certificate)):
        runs = [spent(image, word, source=source) for _ in range(ROUNDS)]
        ratio, more = median(run.seconds for run in runs) / seconds, max(run.peak for run in runs) - peak
        yield Row(f"the largest disk, in one chain: `{word}` against `check`, in time", f"{ratio:.1f}")
        yield Row(f"the largest disk, in one chain: `{word}`, memory beside that of `check`, MiB", f"{more:.1f}")
    image.unlink()
    certificate.unlink()

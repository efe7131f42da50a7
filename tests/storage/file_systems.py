"""File systems that are made for a test, on a device, and mounted."""

from __future__ import annotations

from contextlib import contextmanager
from pathlib import Path
from typing import Dict, Iterator, List, Optional

from machine import call, missing

MEBIBYTE = 2**20
# The smallest that the tools of Debian 12 make.
SIZES: Dict[str, int] = {"ext4": 32 * MEBIBYTE, "xfs": 320 * MEBIBYTE, "btrfs": 128 * MEBIBYTE}
MAKERS: Dict[str, List[str]] = {
    "ext4": ["mkfs.ext4", "-q", "-F", "-m", "0"], "xfs": ["mkfs.xfs", "-q", "-f"], "btrfs": ["mkfs.btrfs", "-q", "-f"],
}


def lack_of(name: str) -> Optional[str]:
    """What is missing for a file system on a loop device, in words; none where nothing is."""
    return missing([MAKERS[name][0], "losetup"], ["/dev/loop-control"], [name])


def make(name: str, device: Path) -> None:
    """Makes a file system."""
    call(*MAKERS[name], device)


@contextmanager
def mounted(name: str, device: Path, at: Path) -> Iterator[Path]:
    """A file system, mounted with its own options; it is taken down at the end."""
    at.mkdir(exist_ok=True)
    call("mount", "-t", name, device, at)
    try:
        yield at
    finally:
        call("umount", at)

"""The head of an image (docs/FORMAT.md, The header), read from its file beside whoever has it open."""

from __future__ import annotations

import os
import stat
import struct
from typing import Optional

from tsd.arguments import PathWord
from tsd.hub_words import Greeting

SECTOR = 512
HEADER = struct.Struct("<8s5I")
MAGIC = b"TSDISK01"
SECTORS_PER_BLOCK = (1, 2, 4, 8)


def geometry_of(image: PathWord) -> Optional[Greeting]:
    """What the header says of a disk; None where no header can be read there. A disk's size never changes; its version
    may, and is in place once the disk is open."""
    try:
        mode = os.stat(image).st_mode
        if not stat.S_ISREG(mode) and not stat.S_ISBLK(mode):
            return None
        with open(image, "rb") as file:
            head = file.read(HEADER.size)
    except OSError:
        return None
    if len(head) < HEADER.size:
        return None
    magic, version, sectors, blocks, primaries, _ = HEADER.unpack(head)
    if magic != MAGIC or sectors not in SECTORS_PER_BLOCK:
        return None
    return Greeting(SECTOR * sectors, blocks, primaries, version)

"""The reader of images in tests/ itself: a bit that a rule of docs/FORMAT.md reads makes another outcome where it is
turned, and no other bit does. No program is asked.

The image is that of a fresh disk of eight blocks after an `alloc` of two blocks, a pointer between these, and a write
to each of blocks 0 and 1: pairs (0, 1), (0, 2) and (1, 2), counts in sector 134, bits in 135, slots in 136, data from
137. In the second image the four batches stand in the journal, and their homes are as they were before.
"""

from __future__ import annotations

from typing import Iterator, List, Sequence, Tuple

from disk_model import SECTOR, Disk, World, parse_line
from image_reader import read_image
from image_writer import Image
from parts import Result, failed, passed

READ_CAP, WRITE_CAP = b"\xaa" * 16, b"\xbb" * 16
REQUESTS = ("alloc 1 0 {w} - 2", "create 1 1 - 2", "write 1 0 {w} 05", "write 1 1 - 6869")

# A sector, a byte of it, and a bit of that.
Bit = Tuple[int, int, int]


def lowest(*places: Tuple[int, int]) -> List[Bit]:
    """The lowest bits of these bytes."""
    return [(sector, byte, 0) for sector, byte in places]


READ_BITS = lowest(
    (0, 0), (0, 7), (0, 8), (0, 12), (0, 16), (0, 20), (0, 27), (1, 0), (2, 0), (132, 0), (132, 31), (134, 4),
    (134, 11), (135, 0), (136, 0), (136, 4), (137, 0), (138, 1), (139, 511),
) + [(135, 0, 1), (135, 0, 2)]
# The bit of block 5 makes a block that nothing points to; an open sweep flag takes away what isn't reached, and that is
# none.
IGNORED_BITS = lowest(
    (0, 28), (0, 511), (1, 1), (2, 1), (3, 0), (4, 0), (116, 511), (117, 0), (129, 0), (131, 0), (131, 1), (132, 32),
    (133, 511), (134, 32), (135, 1), (136, 28), (136, 256), (140, 0), (144, 511),
) + [(135, 0, 5), (135, 0, 7)]
# While records 0 to 3 are open: their gates, descriptors and bodies, and the gate of record 4, whose descriptor is no
# valid one.
READ_OPEN = lowest(
    (2, 0), (117, 0), (119, 0), (121, 0), (123, 0), (3, 0), (3, 4), (118, 0), (122, 4), (9, 0), (10, 1), (132, 0),
)
# The homes of their bodies, what stands behind a gate's first byte and a descriptor's homes, and what nothing reads.
IGNORED_OPEN = lowest(
    (134, 4), (135, 0), (136, 0), (137, 0), (138, 1), (2, 1), (3, 511), (11, 0), (124, 0), (125, 0),
)
READ_DIGESTS = lowest((0, 8), (132, 0), (132, 63), (137, 0))
IGNORED_DIGESTS = lowest((132, 64), (133, 0))


def worlds() -> List[World]:
    """The world of the fresh disk, and that after each request."""
    disk = Disk.fresh(8, 1, READ_CAP, WRITE_CAP, "near")
    disk.apply(parse_line(b"open 1"))
    found = [disk.world()]
    for line in REQUESTS:
        disk.apply(parse_line(line.format(w=WRITE_CAP.hex()).encode()))
        found.append(disk.world())
    return found


def in_journal(stages: Sequence[World]) -> bytes:
    """The image of the first world, with a record for each that follows: its homes are the sectors that differ."""
    image, start = Image(stages[0]), 0
    for record, (before, after) in enumerate(zip(stages, stages[1:])):
        old, new = (bytes(Image(world).bytes) for world in (before, after))
        homes = [(at // SECTOR, new[at:at + SECTOR]) for at in range(0, len(new), SECTOR)
                 if old[at:at + SECTOR] != new[at:at + SECTOR]]
        image.put_record(record, start, homes)
        start += len(homes)
    return bytes(image.bytes)


def turned(image: bytes, bit: Bit) -> bytes:
    """The image with one bit turned."""
    sector, byte, number = bit
    data = bytearray(image)
    data[SECTOR * sector + byte] ^= 1 << number
    return bytes(data)


def bit_results(name: str, world: World, image: bytes, read: Sequence[Bit], ignored: Sequence[Bit]) -> Iterator[Result]:
    """The image as it is, and each bit turned."""
    whole = f"the reader: {name}"
    yield passed(whole) if read_image(image) == world else failed(whole, f"it reads as {read_image(image)}")
    for bits, is_same in ((read, False), (ignored, True)):
        for bit in bits:
            found = read_image(turned(image, bit))
            title = f"{whole}: sector {bit[0]}, byte {bit[1]}, bit {bit[2]}"
            text = "no rule reads this bit, and the outcome is another one" if is_same else "the outcome stays the same"
            yield passed(title) if (found == world) == is_same else failed(title, text)


def results(_context: object, _program: object) -> Iterator[Result]:
    """A result for each bit."""
    stages = worlds()
    last = stages[-1]
    upgraded = Disk(last)
    upgraded.upgrade()
    digest_world = upgraded.world()
    yield from bit_results("version 1", last, bytes(Image(last).bytes), READ_BITS, IGNORED_BITS)
    yield from bit_results("an open journal", last, in_journal(stages), READ_OPEN, IGNORED_OPEN)
    yield from bit_results("version 2", digest_world, bytes(Image(digest_world).bytes), READ_DIGESTS, IGNORED_DIGESTS)

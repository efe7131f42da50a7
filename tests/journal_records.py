"""Each record of the journal, 0 to 7, with descriptors that are valid and that aren't (docs/FORMAT.md, "The journal's
sectors"), on the small disk of `cut_images`. The records before it are open with a body each.
"""

from __future__ import annotations

from typing import Dict, Iterator, List, Tuple

from cut_images import line_result, small_image
from disk_model import SECTOR
from image_writer import Image, gate_at
from parts import Context, Result
from program import Program

RECORDS, BODIES = 8, 113
SOUND, BAD = "clean 4 4 3", "damaged descriptor"
# The data of a free block.
FREE_HOME = 143
MOST = 2**32 - 1
# Of each descriptor its count, its homes, and the line; the bodies are zeros.
DESCRIPTORS: Dict[str, Tuple[int, List[int], str]] = {
    "no homes": (0, [], BAD),
    "114 homes": (114, list(range(300, 414)), BAD),
    "2^32 - 1 homes": (MOST, [FREE_HOME], BAD),
    "a home twice": (2, [FREE_HOME, FREE_HOME], BAD),
    "home 1": (1, [1], BAD),
    "home 2": (1, [2], BAD),
    "home 130": (1, [130], BAD),
    "a home past the last one": (1, [8462726], BAD),
    "home 2^32 - 1": (1, [MOST], BAD),
    "the data of a free block": (1, [FREE_HOME], SOUND),
    "two homes": (2, [FREE_HOME, FREE_HOME - 1], SOUND),
    "the sweep flag": (1, [131], SOUND),
    "the last home": (1, [8462725], SOUND),
    "the header": (1, [0], "header magic"),
}


def open_record(image: Image, record: int, count: int, homes: List[int]) -> None:
    """Opens a record with a descriptor as it stands."""
    image.bytes[gate_at(record)] = 1
    image.put_descriptor(record, count, homes)


def image_before(record: int) -> Image:
    """The disk with all records before this one open, a body of zeros each."""
    image = small_image()
    for earlier in range(record):
        image.put_record(earlier, earlier, [(FREE_HOME, bytes(SECTOR))])
    return image


def record_results(record: int, context: Context, program: Program) -> Iterator[Result]:
    """All descriptors in one record; and as many homes as it may have, and one more."""
    most = BODIES - record
    table = {**DESCRIPTORS, f"{most} homes": (most, list(range(300, 300 + most)), SOUND),
             f"{most + 1} homes": (most + 1, list(range(300, 301 + most)), BAD)}
    for name, (count, homes, line) in table.items():
        image = image_before(record)
        open_record(image, record, count, homes)
        yield line_result(f"record {record}: {name}", line, bytes(image.bytes), context, program)


def closed_results(record: int, context: Context, program: Program) -> Iterator[Result]:
    """Behind a closed record each descriptor in open gates counts for nothing."""
    for name, (count, homes, _) in DESCRIPTORS.items():
        image = image_before(record)
        for later in range(record + 1, RECORDS):
            open_record(image, later, count, homes)
        title = f"record {record} is closed, behind it: {name}"
        yield line_result(title, SOUND, bytes(image.bytes), context, program)


def results(context: Context, program: Program) -> Iterator[Result]:
    """A result for each image."""
    for record in range(RECORDS):
        yield from record_results(record, context, program)
    for record in range(RECORDS - 1):
        yield from closed_results(record, context, program)

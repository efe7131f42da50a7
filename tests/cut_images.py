"""Files that end early, whose rest reads as zeros, and headers of lawful sizes that aren't those of the disk behind
them: each is named by the first test of docs/FORMAT.md that fails ("Faults of an image"), or is the disk that it says.
"""

from __future__ import annotations

from typing import Dict, Iterator, Tuple

from disk_model import SECTOR, Geometry, World
from image_reader import Fault, read_image
from image_writer import FIELDS, Image
from parts import Context, Result, compared, failed
from program import Program, without_length, write_image

READ_CAP, WRITE_CAP = b"\xaa" * 16, b"\xbb" * 16
SIZE_FIELDS = ("sectors", "blocks", "primaries", "slots")

# Of the small disk the sectors from which on `check` puts the line, up to the next one.
SMALL_CUTS: Dict[int, str] = {
    0: "not-formatted", 2: "damaged primary 0", 136: "damaged count 1 1 0", 137: "clean 4 4 3",
}
SMALL_SECTORS = 150
# Of the wide disk: counts in 134 to 173, bits in 174 and 175, slots in 176 to 488, data from 489.
WIDE_CUTS: Dict[int, str] = {
    0: "not-formatted", 1: "not-formatted", 60: "damaged primary 0", 132: "damaged primary 0",
    134: "damaged primary 0", 150: "damaged primary 0", 174: "damaged primary 0", 175: "damaged count 4200 1 0",
    176: "damaged count 4200 1 0", 300: "damaged count 4201 1 0", 488: "damaged count 4201 1 0",
    489: "clean 3 4997 2", 3000: "clean 3 4997 2",
}
# The same of files that end inside a sector, by their bytes: bits of blocks 0 to 7, and two slots and a half.
INNER_CUTS: Dict[int, str] = {
    SECTOR: "not-formatted", SECTOR + 1: "damaged primary 0", 135 * SECTOR: "damaged primary 0",
    135 * SECTOR + 1: "damaged count 1 1 0", 136 * SECTOR + 4: "damaged slot 0 1 0",
    136 * SECTOR + 20: "damaged slot 2 1 0", 136 * SECTOR + 16: "damaged count 3 1 0",
    136 * SECTOR + 21: "clean 4 4 3",
}
# What the fields of the small disk's header say: sectors, blocks, primary blocks, slots.
OTHER_SIZES: Dict[Tuple[int, int, int, int], str] = {
    (2, 8, 1, 32): "clean 4 4 3", (8, 8, 1, 32): "clean 4 4 3", (1, 9, 1, 32): "clean 4 5 3",
    (1, 8, 7, 32): "damaged slot 0 1 1", (1, 17, 16, 32): "damaged slot 0 1 1", (1, 8, 1, 1): "damaged count 2 1 0",
    (1, 1048576, 1, 32): "damaged primary 0", (1, 8, 1, 4194304): "clean 4 4 3",
}


def small_image() -> Image:
    """Eight blocks, of which three are allocated: the pairs (0, 1), (0, 2) and (0, 3) in slots 0 to 2."""
    blocks = {block: bytes(SECTOR) for block in range(4)}
    pairs = {(0, 1), (0, 2), (0, 3)}
    return Image(World(Geometry(1, 8, 1, 32), 1, blocks, pairs, (READ_CAP + WRITE_CAP,)))


def wide_image() -> Image:
    """5000 blocks, and two pairs, in the first slot and in the last one: each area has several sectors."""
    blocks = {block: bytes(SECTOR) for block in (0, 4200, 4201)}
    pairs = {(0, 4200), (0, 4201)}
    slots = ((0, (0, 4200)), (19999, (0, 4201)))
    return Image(World(Geometry(1, 5000, 1, 20000), 1, blocks, pairs, (READ_CAP + WRITE_CAP,)), slots)


def line_result(name: str, line: str, content: bytes, context: Context, program: Program) -> Result:
    """What `check` puts of an image, and what the reader of tests/ says; one that is none isn't changed."""
    path = context.folder / "cut.img"
    write_image(path, content)
    status, out, told = program.run([path, "check"])
    run = status, out, without_length(told)
    is_sound = line.startswith("clean")
    error = b"" if is_sound else f"tsd: not an image: {line}\n".encode()
    found = compared(name, (0 if is_sound else 3, f"{line}\n".encode(), error), run)
    if found.text:
        return found
    world = read_image(content)
    said = world.line if isinstance(world, Fault) else read_line(world)
    if said != line:
        return failed(name, f"the reader of tests/ says {said}")
    if path.read_bytes() != content and not is_sound:
        return failed(name, "the image was changed")
    return found


def read_line(world: World) -> str:
    """The line that `check` puts for a world."""
    live = len(world.blocks)
    return f"clean {live} {world.geometry[1] - live} {len(world.pairs)}"


def results(context: Context, program: Program) -> Iterator[Result]:
    """A result for each file."""
    small, wide, line = bytes(small_image().bytes), bytes(wide_image().bytes), ""
    for sectors in range(SMALL_SECTORS + 1):
        line = SMALL_CUTS.get(sectors, line)
        content = small.ljust(SECTOR * SMALL_SECTORS, b"\0")[:SECTOR * sectors]
        yield line_result(f"a file of {sectors} sectors", line, content, context, program)
    for sectors, line in WIDE_CUTS.items():
        name = f"5000 blocks in a file of {sectors} sectors"
        yield line_result(name, line, wide[:SECTOR * sectors], context, program)
    for length, line in INNER_CUTS.items():
        yield line_result(f"a file of {length} bytes", line, small[:length], context, program)
    for sizes, line in OTHER_SIZES.items():
        image = small_image()
        for field, value in zip(SIZE_FIELDS, sizes):
            image.put(FIELDS[field], value)
        yield line_result(f"a header of the sizes {sizes}", line, bytes(image.bytes), context, program)

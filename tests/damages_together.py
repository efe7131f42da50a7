"""Several damages at once, of which the first one by docs/FORMAT.md is named; rubbish in every byte that no rule reads,
all at once; and bits in a part of a byte. All on the small disk of `cut_images`.
"""

from __future__ import annotations

from itertools import compress, product
from typing import Callable, Iterator, List, Tuple

from cut_images import READ_CAP, WRITE_CAP, line_result, small_image
from disk_model import SECTOR, Geometry, World
from image_writer import COUNTS_SECTOR, FORMAT_GATE, RECORDS, SWEEP_FLAG, Image, gate_at
from parts import Context, Result, compared
from program import Program, write_image

SOUND = "clean 4 4 3"
RUBBISH = (0x01, 0xEE, 0xFF)
PAST_THE_END = 200


def close_format_gate(image: Image) -> None:
    """Test 1 fails."""
    image.bytes[FORMAT_GATE] = 0


def open_empty_record(image: Image) -> None:
    """Test 2 fails."""
    image.bytes[gate_at(0)] = 1
    image.put_descriptor(0, 0, [])


# Damages none of which mends another, in the order of the tests, each with its line.
DAMAGES: List[Tuple[str, Callable[[Image], None]]] = [
    ("not-formatted", close_format_gate),
    ("damaged descriptor", open_empty_record),
    ("header magic", lambda image: image.fill(0, SECTOR, 0)),
    ("damaged slot 4 9 9", lambda image: image.put_slot(4, 9, 9)),
    ("damaged repeated 0 1", lambda image: image.put_pair(5, 0, 1)),
    ("damaged primary 0", lambda image: image.set_free(0)),
    ("damaged end 0 5", lambda image: image.put_pair(6, 0, 5)),
    ("damaged count 1 2 1", lambda image: image.put(image.count_at(1), 2)),
]


def subset_results(context: Context, program: Program) -> Iterator[Result]:
    """Each of the subsets: the first of its damages is named."""
    for chosen in product((False, True), repeat=len(DAMAGES)):
        image = small_image()
        lines = []
        for line, damage in compress(DAMAGES, chosen):
            damage(image)
            lines.append(line)
        name = " and ".join(lines) or "none of the damages"
        yield line_result(name, (lines + [SOUND])[0], bytes(image.bytes), context, program)


def put_rubbish(image: Image, byte: int) -> None:
    """Fills all that no rule reads; the first gate of the journal stays closed."""
    image.fill(28, SECTOR, byte)
    image.fill(FORMAT_GATE + 1, FORMAT_GATE + SECTOR, byte)
    image.fill(gate_at(0) + (byte == 1), SWEEP_FLAG, byte)
    image.fill(SWEEP_FLAG + 1, SWEEP_FLAG + SECTOR, byte)
    image.fill(RECORDS + 32 * image.p, SECTOR * COUNTS_SECTOR, byte)
    image.fill(image.count_at(image.n), image.bitmap, byte)
    image.fill(image.bitmap + image.n // 8, image.slot_area, byte)
    image.fill(image.slot_at(image.m), image.data, byte)
    for slot in range(image.m):
        if image.number(image.slot_at(slot)) == 0:
            image.fill(image.slot_at(slot) + 4, image.slot_at(slot) + 8, byte)
    image.fill(image.data_at(4), image.data_at(image.n), byte)
    image.bytes += bytes([byte]) * (PAST_THE_END * SECTOR - len(image.bytes))


def rubbish_results(context: Context, program: Program) -> Iterator[Result]:
    """The disk is the same with each kind of rubbish, and goes on so."""
    path = context.folder / "rubbish.img"
    read, write = READ_CAP.hex(), WRITE_CAP.hex()
    lines = ["open 1", f"read 1 0 {read}", f"list 1 0 {read} 0", f"alloc 1 0 {write} 7 4", "read 1 7 -", "free",
             f"delete 1 0 {write} 7"]
    replies = ["ok", "data -", "list 1 2 3", "blocks 7 6 5 4", "data -", "free 0", "gone 1"]
    for byte in RUBBISH:
        image = small_image()
        put_rubbish(image, byte)
        yield line_result(f"rubbish of {byte:#04x}", SOUND, bytes(image.bytes), context, program)
        write_image(path, image.bytes)
        run = program.run([path, "run", "near"], "\n".join(lines).encode())
        yield compared(f"a run over rubbish of {byte:#04x}", (0, "\n".join(replies + [""]).encode(), b""), tuple(run))
        yield compared(f"check after it, {byte:#04x}", (0, b"clean 7 1 6\n", b""), tuple(program.run([path, "check"])))


def part_of_a_byte_results(context: Context, program: Program) -> Iterator[Result]:
    """Ten blocks: of the second byte of the bitmap two bits count."""
    blocks = {block: bytes(SECTOR) for block in (0, 8, 9)}
    world = World(Geometry(1, 10, 1, 40), 1, blocks, {(0, 8), (0, 9)}, (READ_CAP + WRITE_CAP,))
    for bits, line in ((b"\x01\xff", "clean 3 7 2"), (b"\x01\xfc", "damaged end 0 8")):
        image = Image(world)
        image.bytes[image.bitmap:image.bitmap + 2] = bits
        yield line_result(f"ten blocks of the bits {bits.hex()}", line, bytes(image.bytes), context, program)


def results(context: Context, program: Program) -> Iterator[Result]:
    """A result for each image."""
    yield from subset_results(context, program)
    yield from rubbish_results(context, program)
    yield from part_of_a_byte_results(context, program)

"""Images that are laid by hand and then damaged at one place or several: each is named by the line that docs/FORMAT.md
gives it ("Faults of an image"), or is sound where no rule reads the place. No image that is refused is changed.
"""

from __future__ import annotations

from typing import Callable, Dict, Iterator, List, Tuple

from disk_model import SECTOR, Geometry, World, digests
from image_reader import Fault, read_image
from image_writer import FIELDS, FORMAT_GATE, RECORDS, SWEEP_FLAG, Image, gate_at
from parts import Context, Result, compared, failed, passed
from program import Program, without_length, write_image

SEED = "00" * 32
PAIRS = {(0, 2), (0, 3), (1, 4), (2, 5), (3, 5), (5, 6), (6, 6)}
# Pairs in no order of the slots, with empty ones between and the last slot in use.
SLOTS = ((2, (3, 5)), (3, (0, 2)), (5, (5, 6)), (8, (0, 3)), (9, (6, 6)), (40, (1, 4)), (63, (2, 5)))
GEOMETRY = Geometry(1, 16, 2, 64)
SOUND = "clean 7 9 7"
LAST_HOME = 8462725

Damage = Callable[[Image], None]


def laid_world(version: int = 1) -> World:
    """The world that is laid: seven live blocks, two of them primary."""
    records = [bytes([0x10 + block]) * 16 + bytes([0x20 + block]) * 16 for block in range(2)]
    blocks = {block: bytes([block + 1]) * SECTOR for block in range(7)}
    return World(GEOMETRY, version, blocks, set(PAIRS), tuple(records if version == 1 else map(digests, records)))


def laid(version: int = 1) -> Image:
    """The sound image of it."""
    return Image(laid_world(version), SLOTS)


def at(*steps: Tuple) -> Damage:
    """A damage of several steps, each the name of a method of Image (or `byte`) and what it is given."""

    def damage(image: Image) -> None:
        for name, *values in steps:
            if name == "byte":
                image.bytes[values[0]] = values[1]
            else:
                getattr(image, name)(*values)

    return damage


def field(name: str, value: int) -> Tuple:
    """The step that puts a field of the header."""
    return ("put", FIELDS[name], value)


def opened(record: int, count: int, homes: List[int]) -> Tuple[Tuple, ...]:
    """The steps that open a record whose descriptor is as given."""
    return ("byte", gate_at(record), 1), ("put_descriptor", record, count, homes)


def overlaid(where: Callable[[Image], int], change: Damage, record: int = 0, start: int = 0) -> Damage:
    """A damage in a body of the journal: the home's sector is as it was, and its body is changed."""

    def damage(image: Image) -> None:
        place = where(image)
        kept = bytes(image.bytes)
        change(image)
        body = image.sector(place)
        image.bytes[:] = kept
        image.put_record(record, start, [(place // SECTOR, body)])

    return damage


def healed(where: Callable[[Image], int], change: Damage) -> Damage:
    """A damage in a home whose body in the journal is sound."""

    def damage(image: Image) -> None:
        place = where(image)
        body = image.sector(place)
        change(image)
        image.put_record(0, 0, [(place // SECTOR, body)])

    return damage


def both(*damages: Damage) -> Damage:
    """Several damages, one after the other."""

    def damage(image: Image) -> None:
        for each in damages:
            each(image)

    return damage


def slots_of(image: Image) -> int:
    """The byte of the first slot."""
    return image.slot_at(0)


def counts_of(image: Image) -> int:
    """The byte of the first count."""
    return image.count_at(0)


def bits_of(image: Image) -> int:
    """The byte of the bitmap."""
    return image.bitmap


def header_of(_image: Image) -> int:
    """The byte of the header."""
    return 0


BAD_SLOT = at(("put_slot", 4, 18, 5))
WRONG_COUNT = at(("put", SECTOR * 134 + 4 * 4, 9))

# Of each damage the line that names it.
FAULTS: Dict[str, Tuple[str, Damage]] = {
    # test 1
    "the format gate is 0": ("not-formatted", at(("byte", FORMAT_GATE, 0))),
    "the format gate is 2": ("not-formatted", at(("byte", FORMAT_GATE, 2))),
    "the format gate is 255": ("not-formatted", at(("byte", FORMAT_GATE, 255))),
    "gate and header are wrong": ("not-formatted", at(("byte", FORMAT_GATE, 0), ("byte", 0, 0))),
    "gate and journal are wrong": ("not-formatted", at(("byte", FORMAT_GATE, 0), *opened(0, 0, []))),
    # test 2
    "a record without homes": ("damaged descriptor", at(*opened(0, 0, []))),
    "a record of 114 homes": ("damaged descriptor", at(*opened(0, 114, list(range(131, 245))))),
    "a record of 2^32 - 1 homes": ("damaged descriptor", at(*opened(0, 2**32 - 1, [131]))),
    "the format gate as a home": ("damaged descriptor", at(*opened(0, 2, [0, 1]))),
    "a gate as a home": ("damaged descriptor", at(*opened(0, 1, [2]))),
    "the journal's last sector as a home": ("damaged descriptor", at(*opened(0, 1, [130]))),
    "a home past the last one": ("damaged descriptor", at(*opened(0, 1, [LAST_HOME + 1]))),
    "a home that stands twice": ("damaged descriptor", at(*opened(0, 3, [140, 0, 140]))),
    "the second record is wrong": ("damaged descriptor", at(("put_record", 0, 0, [(140, bytes(SECTOR))]),
                                                          *opened(1, 0, []))),
    "two records of more than 113 bodies": ("damaged descriptor", at(
        ("put_record", 0, 0, [(160 + home, bytes(SECTOR)) for home in range(60)]),
        *opened(1, 54, list(range(300, 354))))),
    "journal and header are wrong": ("damaged descriptor", at(*opened(0, 0, []), field("version", 7))),
    # test 3
    "the first byte of the magic": ("header magic", at(("byte", 0, 0x55))),
    "the last byte of the magic": ("header magic", at(("byte", 7, 0x32))),
    "magic and version are wrong": ("header magic", at(("byte", 3, 0), field("version", 9))),
    "version 0": ("header version 0", at(field("version", 0))),
    "version 3": ("header version 3", at(field("version", 3))),
    "version 2^32 - 1": ("header version 4294967295", at(field("version", 2**32 - 1))),
    "version and a field are wrong": ("header version 3", at(field("version", 3), field("sectors", 3))),
    "no sectors": ("header field 1 0", at(field("sectors", 0))),
    "three sectors": ("header field 1 3", at(field("sectors", 3))),
    "sixteen sectors": ("header field 1 16", at(field("sectors", 16))),
    "fields 1 to 4 are wrong": ("header field 1 5", at(
        field("sectors", 5), field("blocks", 7), field("primaries", 0), field("slots", 0))),
    "seven blocks": ("header field 2 7", at(field("blocks", 7))),
    "too many blocks": ("header field 2 1048577", at(field("blocks", 1048577))),
    "fields 2 to 4 are wrong": ("header field 2 0", at(field("blocks", 0), field("primaries", 0), field("slots", 0))),
    "no primary block": ("header field 3 0", at(field("primaries", 0))),
    "seventeen primary blocks": ("header field 3 17", at(field("blocks", 64), field("primaries", 17))),
    "all blocks are primary": ("header field 3 16", at(field("primaries", 16))),
    "eight blocks, all primary": ("header field 3 8", at(field("blocks", 8), field("primaries", 8))),
    "fields 3 and 4 are wrong": ("header field 3 99", at(field("primaries", 99), field("slots", 0))),
    "no slots": ("header field 4 0", at(field("slots", 0))),
    "too many slots": ("header field 4 4194305", at(field("slots", 4194305))),
    "header and a slot are wrong": ("header field 4 0", both(BAD_SLOT, at(field("slots", 0)))),
    "the header's body is wrong": ("header version 5", overlaid(header_of, at(field("version", 5)))),
    # test 4
    "a source past the last block": ("damaged slot 4 18 5", BAD_SLOT),
    "the source just past the last block": ("damaged slot 0 17 5", at(("put_slot", 0, 17, 5))),
    "a target past the last block": ("damaged slot 6 1 16", at(("put_slot", 6, 1, 16))),
    "a target of 2^32 - 1": ("damaged slot 62 16 4294967295", at(("put_slot", 62, 16, 2**32 - 1))),
    "a primary target": ("damaged slot 63 3 1", at(("put_slot", 63, 3, 1))),
    "two bad slots, the least": ("damaged slot 7 99 99", at(("put_slot", 61, 4294967295, 0), ("put_slot", 7, 99, 99))),
    "a bad slot before a repeated pair": ("damaged slot 60 1 0", at(("put_pair", 0, 0, 2), ("put_slot", 60, 1, 0))),
    "a bad slot in a body": ("damaged slot 4 18 5", overlaid(slots_of, BAD_SLOT)),
    "the later of two bodies is bad": ("damaged slot 4 18 5", both(
        at(("put_record", 0, 0, [(141, bytes([7]) * SECTOR)])), overlaid(slots_of, BAD_SLOT, 1, 1))),
    # test 5
    "a pair in two slots": ("damaged repeated 5 6", at(("put_pair", 0, 5, 6))),
    "a pair in three slots": ("damaged repeated 0 2", at(("put_pair", 0, 0, 2), ("put_pair", 50, 0, 2))),
    "two repeated pairs, by source": ("damaged repeated 2 5", at(("put_pair", 0, 3, 5), ("put_pair", 1, 2, 5))),
    "two repeated pairs, by target": ("damaged repeated 0 2", at(("put_pair", 0, 0, 3), ("put_pair", 1, 0, 2))),
    "a repeated pair before a primary block": ("damaged repeated 6 6", at(("put_pair", 0, 6, 6), ("set_free", 0))),
    # test 6
    "a primary block is free": ("damaged primary 1", at(("set_free", 1))),
    "both primary blocks are free": ("damaged primary 0", at(("set_free", 1), ("set_free", 0))),
    "a primary block before an end": ("damaged primary 1", at(("set_free", 2), ("set_free", 1))),
    "the bitmap's body is wrong": ("damaged primary 0", overlaid(bits_of, at(("set_free", 0)))),
    # test 7
    "a target is free": ("damaged end 1 4", at(("set_free", 4))),
    "a source is free": ("damaged end 0 2", at(("set_free", 2))),
    "a free source alone": ("damaged end 9 4", at(("put_pair", 0, 9, 4))),
    "two ends are free, by source": ("damaged end 3 5", at(
        ("put_pair", 0, 11, 4), ("put_pair", 63, 2, 3), ("set_free", 5))),
    "two ends are free, by target": ("damaged end 0 11", at(("put_pair", 0, 0, 12), ("put_pair", 1, 0, 11))),
    "an end before a count": ("damaged end 0 9", at(("put_pair", 0, 0, 9), ("put", SECTOR * 134, 5))),
    # test 8
    "a count is too large": ("damaged count 4 9 1", WRONG_COUNT),
    "a count is too small": ("damaged count 5 1 2", at(("put", SECTOR * 134 + 4 * 5, 1))),
    "the count of a primary block": ("damaged count 0 1 0", at(("put", SECTOR * 134, 1))),
    "the count of a free block": ("damaged count 15 4294967295 0", at(("put", SECTOR * 134 + 60, 2**32 - 1))),
    "two wrong counts, the least": ("damaged count 3 0 1", at(
        ("put", SECTOR * 134 + 24, 0), ("put", SECTOR * 134 + 12, 0))),
    "a pair that no count counts": ("damaged count 6 2 3", at(("put_pair", 0, 4, 6))),
    "a count in a body": ("damaged count 4 9 1", overlaid(counts_of, WRONG_COUNT)),
}

# Of each the line that `check` puts: no rule reads these places, or the journal has them right.
SOUND_ONES: Dict[str, Tuple[str, Damage]] = {
    "as it is laid": (SOUND, at()),
    "rubbish behind the format gate": (SOUND, at(("fill", FORMAT_GATE + 1, FORMAT_GATE + SECTOR))),
    "rubbish behind the header": (SOUND, at(("fill", 28, SECTOR))),
    "rubbish behind a closed gate": (SOUND, at(("fill", 2 * SECTOR, 131 * SECTOR))),
    "an open gate behind a closed one": (SOUND, at(*opened(1, 0, []), *opened(7, 1, [1]))),
    "rubbish behind a closed sweep flag": (SOUND, at(("fill", SWEEP_FLAG, SWEEP_FLAG + SECTOR))),
    "rubbish behind the capabilities": (SOUND, at(("fill", RECORDS + 64, RECORDS + 2 * SECTOR))),
    "counts past the last": (SOUND, at(("fill", 134 * SECTOR + 64, 135 * SECTOR))),
    "bits past the last": (SOUND, at(("fill", 135 * SECTOR + 2, 136 * SECTOR))),
    "the data of free blocks": (SOUND, at(("fill", (137 + 7) * SECTOR, (137 + 16) * SECTOR))),
    "the target of an empty slot": (SOUND, at(("put_slot", 0, 0, 2**32 - 1), ("put_slot", 1, 0, 0))),
    "a bad slot that its body heals": (SOUND, healed(slots_of, BAD_SLOT)),
    "a count that its body heals": (SOUND, healed(counts_of, WRONG_COUNT)),
    "a header that its body heals": (SOUND, healed(header_of, at(("fill", 0, SECTOR)))),
    "the later of two bodies is right": (SOUND, both(
        overlaid(slots_of, BAD_SLOT), lambda image: image.put_record(1, 1, [(136, image.sector(image.slot_at(0)))]))),
    "113 bodies in two records": (SOUND, at(
        ("put_record", 0, 0, [(300 + home, bytes(SECTOR)) for home in range(100)]),
        ("put_record", 1, 100, [(300 + home, bytes(SECTOR)) for home in range(13)]))),
    "a live block without a pointer": (SOUND, at(("set_live", 12))),
    "a doomed chain of two": ("clean 7 9 7", at(
        ("set_live", 12), ("set_live", 13), ("put_pair", 0, 12, 13), ("put", 134 * SECTOR + 52, 1))),
    "a doomed block that points to a live one": ("clean 7 9 7", at(
        ("set_live", 12), ("put_pair", 0, 12, 4), ("put", 134 * SECTOR + 16, 2))),
    "a cycle that nothing leads to": ("clean 9 7 9", at(
        ("set_live", 12), ("set_live", 13), ("put_pair", 0, 12, 13), ("put_pair", 1, 13, 12),
        ("put", 134 * SECTOR + 52, 1), ("put", 134 * SECTOR + 48, 1))),
    "such a cycle in a sweep": ("clean 7 9 7", at(
        ("set_live", 12), ("set_live", 13), ("put_pair", 0, 12, 13), ("put_pair", 1, 13, 12),
        ("put", 134 * SECTOR + 52, 1), ("put", 134 * SECTOR + 48, 1), ("byte", SWEEP_FLAG, 1))),
    "a sweep that the journal begins": ("clean 7 9 7", at(
        ("set_live", 12), ("put_pair", 0, 12, 12), ("put", 134 * SECTOR + 48, 1),
        ("put_record", 0, 0, [(131, b"\1".ljust(SECTOR, b"\0"))]))),
}

OTHER_COMMANDS = (["run", "near"], ["serve", "low"], ["load", SEED, "2", "zone"], ["upgrade"], ["audit"], ["verify"],
                  ["copyfs", "inode", "0", SEED[:32], "chain", "1", SEED[:32], "near"])


def fault_result(name: str, line: str, image: Image, context: Context, program: Program) -> Result:
    """Every command that opens the image refuses it by this line; where no record waits, not a byte of it changes."""
    path = context.folder / "damaged.img"
    text = bytes(image.bytes)
    error = f"tsd: not an image: {line}\n".encode()
    expected = [(3, line.encode() + b"\n", error)] + [(3, b"", error)] * len(OTHER_COMMANDS)
    write_image(path, text)
    all_runs = [program.run([path] + words) for words in (["check"], *OTHER_COMMANDS)]
    runs = [(run.status, run.out, without_length(run.error)) for run in all_runs]
    found = compared(name, expected, runs)
    if found.text:
        return found
    if read_image(text) != Fault(line):
        return failed(name, f"the reader of tests/ says {read_image(text)}")
    is_kept = path.read_bytes() == text
    early = line == "not-formatted" or line.startswith(("header", "damaged descriptor"))
    if not is_kept and (early or image.bytes[gate_at(0)] != 1):
        return failed(name, "the image was changed")
    return passed(name)


def sound_result(name: str, line: str, image: Image, context: Context, program: Program) -> Result:
    """The image is opened, stands for the world that its sectors say, and is tidy afterwards."""
    path = context.folder / "sound.img"
    before = read_image(bytes(image.bytes))
    write_image(path, image.bytes)
    runs = [tuple(program.run([path, "check"])), tuple(program.run([path, "run", "near"], b"free\n"))]
    free = line.split()[2]
    found = compared(name, [(0, line.encode() + b"\n", b""), (0, f"free {free}\n".encode(), b"")], runs)
    if found.text:
        return found
    if isinstance(before, Fault) or read_image(path.read_bytes()) != before:
        return failed(name, "it stands for another world than before")
    return passed(name)


def short_result(context: Context, program: Program) -> Result:
    """A file that ends behind the slots: sectors that were never written read as zeros."""
    path = context.folder / "short.img"
    image = laid()
    write_image(path, image.bytes[:image.data])
    asked = b"open 1\nread 1 0 " + b"20" * 16 + b"\nread 1 2 -\n"
    return compared("a file that ends behind its slots", (0, b"ok\ndata -\ndata -\n", b""),
                    tuple(program.run([path, "run", "near"], asked)))


def last_home_result(context: Context, program: Program) -> Result:
    """The last home that a record may have is written where it says, past the end of this image."""
    path = context.folder / "last.img"
    image = laid()
    body = bytes([0xC3]) * SECTOR
    image.put_record(0, 0, [(LAST_HOME, body)])
    write_image(path, image.bytes)
    run = tuple(program.run([path, "check"]))
    with path.open("rb") as file:
        file.seek(LAST_HOME * SECTOR)
        found = run, file.read()
    path.unlink()
    return compared("a record's home is the last one", ((0, SOUND.encode() + b"\n", b""), body), found)


def results(context: Context, program: Program) -> Iterator[Result]:
    """A result for each image, of both versions."""
    for version in (1, 2):
        for name, (line, damage) in FAULTS.items():
            image = laid(version)
            damage(image)
            yield fault_result(f"version {version}, {name}", line, image, context, program)
        for name, (line, damage) in SOUND_ONES.items():
            if version == 2 and name == "rubbish behind the capabilities":
                continue
            image = laid(version)
            damage(image)
            yield sound_result(f"version {version}, {name}", line, image, context, program)
    yield short_result(context, program)
    yield last_home_result(context, program)

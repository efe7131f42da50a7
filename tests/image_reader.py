"""Reads an image by the rules of docs/FORMAT.md alone: the world that it stands for, or the first test that it fails.

An image is given as its bytes, or as a function from a sector's number to its 512 bytes. What lies past the end reads
as zeros. Only sectors that matter are read: the gates up to the first closed one, the header, the tables, and the data
of the blocks that are left in the world.
"""

from __future__ import annotations

from dataclasses import dataclass
from struct import unpack, unpack_from
from typing import Callable, Dict, List, Optional, Set, Tuple, Union

from disk_model import World

SECTOR = 512
ZEROS = bytes(SECTOR)
MAGIC = b"TSDISK01"

HEADER, FORMAT_GATE, JOURNAL, SWEEP_FLAG, RECORDS, COUNTS = 0, 1, 2, 131, 132, 134
RING_RECORDS, RING_BODIES = 8, 113
FIRST_BODY = 4
LAST_HOME = 8_462_725
BITS_PER_SECTOR = 8 * SECTOR

Pair = Tuple[int, int]
SectorOf = Callable[[int], bytes]
Source = Union[bytes, bytearray, memoryview, SectorOf]


@dataclass(frozen=True)
class Fault:
    """Why an image stands for no world: the line of docs/FORMAT.md."""

    line: str


class Faulty(Exception):
    """A test of the image failed; its text is the fault's line."""


@dataclass(frozen=True)
class Layout:
    """The size of a disk, and where its areas begin."""

    sectors: int
    blocks: int
    primaries: int
    slots: int

    @property
    def bitmap(self) -> int:
        """The first sector of the bitmap."""
        return COUNTS + whole(4 * self.blocks, SECTOR)

    @property
    def slot_area(self) -> int:
        """The first sector of the pointer slots."""
        return self.bitmap + whole(self.blocks, BITS_PER_SECTOR)

    @property
    def data(self) -> int:
        """The first sector of the blocks' data."""
        return self.slot_area + whole(8 * self.slots, SECTOR)

    @property
    def all_sectors(self) -> int:
        """How many sectors the image has."""
        return self.data + self.sectors * self.blocks


@dataclass
class Tables:
    """What the tables of an image say, all tests passed."""

    layout: Layout
    version: int
    live: List[bool]
    pairs: Set[Pair]
    swept: bool


def whole(amount: int, each: int) -> int:
    """How many sectors hold so many bytes or bits: rounded up."""
    return -(-amount // each)


def gate_sector(record: int) -> int:
    """The sector of a journal record's gate; its descriptor is in the next one."""
    return JOURNAL if record == 0 else 115 + 2 * record


def is_open(sector: bytes) -> bool:
    """Whether a gate or a flag is open: its first byte alone counts."""
    return sector[0] == 1


def sectors_of(data: Source) -> SectorOf:
    """The function that reads a sector of the image."""
    if callable(data):
        return data
    view = bytes(data)

    def sector_of(number: int) -> bytes:
        return view[number * SECTOR:(number + 1) * SECTOR].ljust(SECTOR, b"\0")

    return sector_of


def homes_of(descriptor: bytes, start: int) -> Optional[Tuple[int, ...]]:
    """The homes of a record whose bodies begin at `start`, or None where its descriptor isn't valid."""
    count, = unpack_from("<I", descriptor)
    if count < 1 or start + count > RING_BODIES:
        return None
    homes = unpack_from(f"<{count}I", descriptor, 4)
    if len(set(homes)) != count or not all(map(is_home, homes)):
        return None
    return homes


def is_home(sector: int) -> bool:
    """Whether a batch may change a sector: the header, the sweep flag or anything behind it."""
    return sector == HEADER or SWEEP_FLAG <= sector <= LAST_HOME


def open_records(sector_of: SectorOf) -> Dict[int, bytes]:
    """The homes of the open records, each with its last body. Test 2."""
    overlay: Dict[int, bytes] = {}
    start = 0
    for record in range(RING_RECORDS):
        gate = gate_sector(record)
        if not is_open(sector_of(gate)):
            break
        homes = homes_of(sector_of(gate + 1), start)
        if homes is None:
            raise Faulty("damaged descriptor")
        for number, home in enumerate(homes, FIRST_BODY + start):
            overlay[home] = sector_of(number)
        start += len(homes)
    return overlay


def home_of(sector_of: SectorOf) -> SectorOf:
    """The home of an image: its sectors, overlaid with the open records of the journal."""
    overlay = open_records(sector_of)
    if not overlay:
        return sector_of

    def home_sector(number: int) -> bytes:
        body = overlay.get(number)
        return sector_of(number) if body is None else body

    return home_sector


def read_header(sector: bytes) -> Tuple[int, Layout]:
    """The version and the geometry. Test 3."""
    if sector[:8] != MAGIC:
        raise Faulty("header magic")
    version, sectors, blocks, primaries, slots = unpack_from("<5I", sector, 8)
    if version not in (1, 2):
        raise Faulty(f"header version {version}")
    lawful = (
        sectors in (1, 2, 4, 8),
        8 <= blocks <= 1_048_576,
        1 <= primaries <= 16 and primaries < blocks,
        1 <= slots <= 4_194_304,
    )
    for number, (good, value) in enumerate(zip(lawful, (sectors, blocks, primaries, slots)), 1):
        if not good:
            raise Faulty(f"header field {number} {value}")
    return version, Layout(sectors, blocks, primaries, slots)


def area(home: SectorOf, first: int, size: int) -> bytes:
    """So many bytes from the start of a sector on."""
    return b"".join([home(first + number) for number in range(whole(size, SECTOR))])[:size]


def read_pairs(home: SectorOf, layout: Layout) -> List[Pair]:
    """The pairs of the slots that aren't empty, in the order of the slots. Test 4."""
    words = unpack(f"<{2 * layout.slots}I", area(home, layout.slot_area, 8 * layout.slots))
    pairs = []
    for slot, (first, target) in enumerate(zip(words[::2], words[1::2])):
        if first == 0:
            continue
        if first > layout.blocks or not layout.primaries <= target < layout.blocks:
            raise Faulty(f"damaged slot {slot} {first} {target}")
        pairs.append((first - 1, target))
    return pairs


def read_live(home: SectorOf, layout: Layout) -> List[bool]:
    """Which blocks are live: their bits in the bitmap."""
    bits = area(home, layout.bitmap, whole(layout.blocks, 8))
    return [bits[block >> 3] >> (block & 7) & 1 == 1 for block in range(layout.blocks)]


def refuse_repeated(pairs: List[Pair]) -> Set[Pair]:
    """The pairs as a set. Test 5."""
    distinct = set(pairs)
    if len(distinct) != len(pairs):
        ordered = sorted(pairs)
        source, target = next(one for one, other in zip(ordered, ordered[1:]) if one == other)
        raise Faulty(f"damaged repeated {source} {target}")
    return distinct


def refuse_free_ends(layout: Layout, live: List[bool], pairs: Set[Pair]) -> None:
    """Primary blocks and the ends of pairs are live. Tests 6 and 7."""
    for block in range(layout.primaries):
        if not live[block]:
            raise Faulty(f"damaged primary {block}")
    loose = [(source, target) for source, target in pairs if not (live[source] and live[target])]
    if loose:
        source, target = min(loose)
        raise Faulty(f"damaged end {source} {target}")


def refuse_wrong_counts(home: SectorOf, layout: Layout, pairs: Set[Pair]) -> None:
    """The stored counts are the numbers of pairs. Test 8."""
    stored = unpack(f"<{layout.blocks}I", area(home, COUNTS, 4 * layout.blocks))
    found = [0] * layout.blocks
    for _, target in pairs:
        found[target] += 1
    for block, (kept, counted) in enumerate(zip(stored, found)):
        if kept != counted:
            raise Faulty(f"damaged count {block} {kept} {counted}")


def read_tables(home: SectorOf) -> Tables:
    """The tables of an image by its home. Tests 3 to 8, in order."""
    version, layout = read_header(home(HEADER))
    pairs = refuse_repeated(read_pairs(home, layout))
    live = read_live(home, layout)
    refuse_free_ends(layout, live, pairs)
    refuse_wrong_counts(home, layout, pairs)
    return Tables(layout, version, live, pairs, is_open(home(SWEEP_FLAG)))


def settled(tables: Tables) -> Set[int]:
    """The live blocks that aren't doomed. One that isn't primary is, where all pointers to it come from doomed ones."""
    kept = {block for block, lives in enumerate(tables.live) if lives}
    counts = dict.fromkeys(kept, 0)
    targets: Dict[int, List[int]] = {}
    for source, target in tables.pairs:
        counts[target] += 1
        targets.setdefault(source, []).append(target)
    lost = [block for block, count in counts.items() if count == 0 and block >= tables.layout.primaries]
    while lost:
        source = lost.pop()
        kept.remove(source)
        for target in targets.get(source, ()):
            counts[target] -= 1
            if counts[target] == 0:
                lost.append(target)
    return kept


def swept(tables: Tables) -> Set[int]:
    """The blocks that a primary block leads to, the primary ones too."""
    targets: Dict[int, List[int]] = {}
    for source, target in tables.pairs:
        targets.setdefault(source, []).append(target)
    reached = set(range(tables.layout.primaries))
    waiting = list(reached)
    while waiting:
        new = [target for target in targets.get(waiting.pop(), ()) if target not in reached]
        reached.update(new)
        waiting += new
    return reached


def read_records(home: SectorOf, tables: Tables) -> Tuple[bytes, ...]:
    """What each primary block keeps: 32 bytes of capabilities in version 1, 64 of digests in version 2."""
    size = 32 if tables.version == 1 else 64
    kept = area(home, RECORDS, size * tables.layout.primaries)
    return tuple(kept[at:at + size] for at in range(0, len(kept), size))


def read_world(sector_of: SectorOf) -> World:
    """The world that an image stands for, or `Faulty`."""
    if not is_open(sector_of(FORMAT_GATE)):
        raise Faulty("not-formatted")
    home = home_of(sector_of)
    tables = read_tables(home)
    layout = tables.layout
    kept = swept(tables) if tables.swept else settled(tables)
    size = layout.sectors
    return World(
        geometry=(size, layout.blocks, layout.primaries, layout.slots),
        version=tables.version,
        blocks={block: area(home, layout.data + size * block, size * SECTOR) for block in sorted(kept)},
        pairs={(source, target) for source, target in tables.pairs if source in kept and target in kept},
        records=read_records(home, tables),
    )


def read_image(data: Source) -> Union[World, Fault]:
    """The world that an image stands for, or the line of the first test that it fails."""
    try:
        return read_world(sectors_of(data))
    except Faulty as fault:
        return Fault(str(fault))


def has_closed_gates(data: Source) -> bool:
    """Whether all gates of the journal are closed, also those behind the first closed one."""
    sector_of = sectors_of(data)
    return not any(is_open(sector_of(gate_sector(record))) for record in range(RING_RECORDS))


def is_settled(data: Source) -> bool:
    """Whether nothing waits on an image of a world: no sweep has begun, and no block is doomed."""
    tables = read_tables(home_of(sectors_of(data)))
    return not tables.swept and len(settled(tables)) == sum(tables.live)


def is_quiet(data: Source) -> bool:
    """Whether nothing is left to be done on an image of a world: an opening would write nothing."""
    return has_closed_gates(data) and is_settled(data)

"""Lays an image of a world by hand, by the rules of docs/FORMAT.md alone, to be damaged at a place that has a name."""

from __future__ import annotations

from typing import Iterable, List, Sequence, Tuple

from disk_model import World

SECTOR = 512
FORMAT_GATE = SECTOR
SWEEP_FLAG = 131 * SECTOR
RECORDS = 132 * SECTOR
COUNTS_SECTOR = 134
FIELDS = {"version": 8, "sectors": 12, "blocks": 16, "primaries": 20, "slots": 24}


def sectors_for(amount: int, each: int) -> int:
    """How many sectors an amount takes, `each` to a sector: rounded up."""
    return (amount + each - 1) // each


def gate_at(record: int) -> int:
    """The byte of a journal record's gate; its descriptor stands in the next sector."""
    return SECTOR * (2 if record == 0 else 115 + 2 * record)


class Image:
    """The bytes of an image, with the byte at which each thing stands."""

    def __init__(self, world: World, slots: Iterable[Tuple[int, Tuple[int, int]]] = ()) -> None:
        """The image of a world. `slots` says which pair stands in which slot; without it they stand from slot 0 on."""
        self.k, self.n, self.p, self.m = world.geometry
        self.bitmap = SECTOR * (COUNTS_SECTOR + sectors_for(4 * self.n, SECTOR))
        self.slot_area = self.bitmap + SECTOR * sectors_for(self.n, 8 * SECTOR)
        self.data = self.slot_area + SECTOR * sectors_for(8 * self.m, SECTOR)
        self.bytes = bytearray(self.data + SECTOR * self.k * self.n)
        self._lay(world, list(slots) or list(enumerate(sorted(world.pairs))))

    def _lay(self, world: World, slots: Sequence[Tuple[int, Tuple[int, int]]]) -> None:
        self.bytes[:8] = b"TSDISK01"
        for field, value in zip(FIELDS, (world.version, self.k, self.n, self.p, self.m)):
            self.put(FIELDS[field], value)
        self.bytes[FORMAT_GATE] = 1
        size = 32 * world.version
        for block, record in enumerate(world.records):
            self.bytes[RECORDS + size * block:RECORDS + size * (block + 1)] = record
        for block, text in world.blocks.items():
            self.set_live(block)
            self.bytes[self.data_at(block):self.data_at(block) + len(text)] = text
        for slot, pair in slots:
            self.put_pair(slot, *pair)
            self.put(self.count_at(pair[1]), self.number(self.count_at(pair[1])) + 1)

    def number(self, at: int) -> int:
        """The number at a byte."""
        return int.from_bytes(self.bytes[at:at + 4], "little")

    def put(self, at: int, number: int) -> None:
        """Puts a number at a byte."""
        self.bytes[at:at + 4] = number.to_bytes(4, "little")

    def fill(self, at: int, end: int, byte: int = 0xA7) -> None:
        """Puts rubbish from a byte up to another one."""
        self.bytes[at:end] = bytes([byte]) * (end - at)

    def count_at(self, block: int) -> int:
        """The byte of a block's count."""
        return SECTOR * COUNTS_SECTOR + 4 * block

    def slot_at(self, slot: int) -> int:
        """The byte of a slot."""
        return self.slot_area + 8 * slot

    def data_at(self, block: int) -> int:
        """The first byte of a block's data."""
        return self.data + SECTOR * self.k * block

    def put_pair(self, slot: int, source: int, target: int) -> None:
        """Puts a pair into a slot; the count stays."""
        self.put_slot(slot, source + 1, target)

    def put_slot(self, slot: int, first: int, target: int) -> None:
        """Puts both numbers of a slot as they stand."""
        self.put(self.slot_at(slot), first)
        self.put(self.slot_at(slot) + 4, target)

    def set_live(self, block: int) -> None:
        """Sets a block's bit."""
        self.bytes[self.bitmap + block // 8] |= 1 << block % 8

    def set_free(self, block: int) -> None:
        """Clears a block's bit."""
        self.bytes[self.bitmap + block // 8] &= ~(1 << block % 8)

    def sector(self, at: int) -> bytes:
        """The sector in which a byte stands."""
        first = at // SECTOR * SECTOR
        return bytes(self.bytes[first:first + SECTOR])

    def put_record(self, record: int, start: int, homes: List[Tuple[int, bytes]], is_open: bool = True) -> None:
        """Puts a record of the journal, whose bodies begin at body `start`: its homes, each with its body."""
        gate = gate_at(record)
        self.bytes[gate] = 1 if is_open else 0
        self.put_descriptor(record, len(homes), [home for home, _ in homes])
        for place, (_, body) in enumerate(homes, 4 + start):
            self.bytes[SECTOR * place:SECTOR * (place + 1)] = body

    def put_descriptor(self, record: int, count: int, homes: Sequence[int]) -> None:
        """Puts a descriptor as it stands."""
        at = gate_at(record) + SECTOR
        self.put(at, count)
        for number, home in enumerate(homes, 1):
            self.put(at + 4 * number, home)

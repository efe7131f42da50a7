"""What a crash may leave of a disk: sectors that are firm, sectors that are loose, and images made of them.

A sector is loose from a write to it on until a sync answers. After a crash each loose sector holds, on its own, what it
held when it was last firm, what any of the writes since then gave it, a mixture of these, or anything else.
"""

from __future__ import annotations

import random
from typing import Callable, Dict, Iterator, List, NamedTuple, Sequence, Tuple

from recording import INPUT, PUT, SYNC, TRUNCATE, WRITE, Event

SECTOR = 512
ZEROS = bytes(SECTOR)
FORMAT_GATE = 1


class Choice(NamedTuple):
    """What a loose sector holds, and in words why."""

    why: str
    data: bytes


Choices = Dict[int, Choice]


class Unrecorded(Exception):
    """The file isn't what the recorded calls make of it; the text says where."""


class Medium:
    """A disk by the calls so far."""

    def __init__(self, data: bytes) -> None:
        """One on which all is firm."""
        self.firm: Dict[int, bytes] = dict(sectors_in(data))
        self.loose: Dict[int, List[bytes]] = {}
        self.current: Dict[int, bytes] = {}

    def copy(self) -> Medium:
        """Another one that is alike."""
        other = Medium(b"")
        other.firm = dict(self.firm)
        other.loose = {sector: list(writes) for sector, writes in self.loose.items()}
        other.current = dict(self.current)
        return other

    def read(self, sector: int) -> bytes:
        """What a read gives."""
        return self.current.get(sector) or self.firm.get(sector, ZEROS)

    def write(self, offset: int, data: bytes, answered: bool) -> None:
        """A write, of whole sectors or not; of one that failed it isn't known whether it was done."""
        at = 0
        while at < len(data):
            sector, start = divmod(offset + at, SECTOR)
            piece = data[at:at + SECTOR - start]
            old = self.read(sector)
            new = old[:start] + piece + old[start + len(piece):]
            self.loose.setdefault(sector, []).append(new)
            self.current[sector] = new if answered else old
            at += len(piece)

    def sync(self) -> None:
        """A sync that answered."""
        self.firm.update(self.current)
        self.loose.clear()
        self.current.clear()

    def compare(self, data: bytes) -> None:
        """Compares with the file. What a failed write left of its sector is known from then on."""
        for sector, content in sectors_in(data):
            if sector in self.loose:
                if content != self.current[sector]:
                    self.loose[sector].append(content)
                    self.current[sector] = content
            elif content != self.firm.get(sector, ZEROS):
                raise Unrecorded(f"sector {sector} of the file was changed by no recorded call")

    def sector_of(self, choices: Choices) -> Callable[[int], bytes]:
        """The function that reads the image which these choices leave."""
        def sector_of(sector: int) -> bytes:
            choice = choices.get(sector)
            return self.firm.get(sector, ZEROS) if choice is None else choice.data
        return sector_of

    def image(self, choices: Choices) -> bytes:
        """The bytes of that image."""
        size = 1 + max([*self.firm, *choices], default=0)
        sector_of = self.sector_of(choices)
        return b"".join(map(sector_of, range(size)))


def sectors_in(data: bytes) -> Iterator[Tuple[int, bytes]]:
    """The sectors of a file, each with its number; the last one with zeros to its end."""
    for at in range(0, len(data), SECTOR):
        yield at // SECTOR, data[at:at + SECTOR].ljust(SECTOR, b"\0")


class Progress:
    """How far a run has come at a moment, as the judge needs it: bytes sent, syncs that answered, bytes taken, whether
    input was taken, and whether the format gate was opened or another sector than that was written, or begun to be."""

    def __init__(self) -> None:
        self.sent = 0
        self.syncs = 0
        self.taken = 0
        self.took_input = False
        self.opened_gate = False
        self.wrote_elsewhere = False


def moments(medium: Medium, events: Sequence[Event]) -> Iterator[Tuple[int, Progress]]:
    """Goes through the calls and stops inside each that matters, with its number: the medium is then as a crash finds
    it. Inside a write its sector is loose already, inside a sync nothing is firm yet, and inside a put all of it may
    have been sent. So a crash between two calls leaves nothing that isn't left inside one of them too. The last stop is
    behind all calls.
    """
    progress = Progress()
    for number, event in enumerate(events):
        if event.kind == TRUNCATE:
            raise Unrecorded("a truncation of the image, for which this has no rule")
        if event.kind == WRITE:
            asked = event.data if event.error else event.data[:event.answer]
            medium.write(event.offset, asked, not event.error)
            if event.offset == FORMAT_GATE * SECTOR and len(asked) <= SECTOR:
                progress.opened_gate |= asked[:1] == b"\1"
            else:
                progress.wrote_elsewhere = True
        elif event.kind == PUT:
            progress.sent += max(event.answer, 0)
        elif event.kind == INPUT:
            progress.taken += max(event.answer, 0)
            progress.took_input |= event.answer > 0
        if event.kind in (WRITE, SYNC, PUT):
            yield number, progress
        if event.kind == SYNC and not event.error:
            medium.sync()
            progress.syncs += 1
    yield len(events), progress


def old_and_new(medium: Medium, sector: int) -> Tuple[bytes, bytes]:
    """What a loose sector held when it was firm, and what it was last given."""
    return medium.firm.get(sector, ZEROS), medium.loose[sector][-1]


def torn(random_numbers: random.Random, medium: Medium, sector: int) -> Choice:
    """A mixture, or anything."""
    old, new = old_and_new(medium, sector)
    kind = random_numbers.randrange(8)
    if kind <= 1:
        at = random_numbers.randrange(1, SECTOR)
        first, then, why = (new, old, "new, then old") if kind == 0 else (old, new, "old, then new")
        return Choice(f"{why} from byte {at}", first[:at] + then[at:])
    if kind == 2:
        picks = [random_numbers.random() < 0.5 for _ in range(0, SECTOR, 4)]
        mixed = b"".join((new if pick else old)[4 * at:4 * at + 4] for at, pick in enumerate(picks))
        return Choice("old and new in pieces of 4 bytes", mixed)
    if kind == 3:
        at = random_numbers.randrange(8 * SECTOR)
        flipped = bytearray(new)
        flipped[at // 8] ^= 1 << at % 8
        return Choice(f"new with bit {at} turned", bytes(flipped))
    if kind == 4:
        other = random_numbers.choice(sorted(medium.loose))
        return Choice(f"what was meant for {other}", medium.loose[other][-1])
    rest = random_numbers.getrandbits(8 * (SECTOR - 1)).to_bytes(SECTOR - 1, "little")
    if kind == 5:
        return Choice("a 1, then anything", b"\1" + rest)
    if kind == 6:
        small = bytes(byte % 3 if at % 4 == 0 else 0 for at, byte in enumerate(b"\0" + rest))
        return Choice("small numbers", small)
    return Choice("anything", bytes([random_numbers.randrange(256)]) + rest)


def written(medium: Medium, sector: int, number: int) -> Choice:
    """What one of the writes gave the sector, by its number from 0."""
    writes = medium.loose[sector]
    last = "new" if len(writes) == 1 else f"write {number + 1} of {len(writes)}"
    return Choice(last, writes[number])


def some_choices(random_numbers: random.Random, medium: Medium) -> Choices:
    """What the loose sectors hold after one crash: nearly all alike with one that is not, or each on its own."""
    sectors = sorted(medium.loose)
    old = {sector: Choice("old", medium.firm.get(sector, ZEROS)) for sector in sectors}
    new = {sector: written(medium, sector, len(medium.loose[sector]) - 1) for sector in sectors}
    if not sectors:
        return {}
    kind = random_numbers.randrange(14)
    one = random_numbers.choice(sectors)
    if kind <= 1:
        return old if kind == 0 else new
    if kind <= 3:
        return {**new, one: old[one]}
    if kind <= 5:
        return {**old, one: new[one]}
    if kind <= 8:
        return {**(new if kind < 8 else old), one: torn(random_numbers, medium, one)}
    return {sector: any_choice(random_numbers, medium, sector, old[sector]) for sector in sectors}


def any_choice(random_numbers: random.Random, medium: Medium, sector: int, old: Choice) -> Choice:
    """What one loose sector holds, whatever the others do."""
    kind = random_numbers.random()
    if kind < 0.35:
        return old
    if kind < 0.7:
        return written(medium, sector, random_numbers.randrange(len(medium.loose[sector])))
    return torn(random_numbers, medium, sector)


def told(choices: Choices) -> str:
    """The choices in words."""
    return ", ".join(f"sector {sector}: {choice.why}" for sector, choice in sorted(choices.items())) or "none was loose"

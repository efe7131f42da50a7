"""A virtual disk: a row of bytes that is kept under one primary block of a disk, block by block as it is written.

    root: header, numbers ----> table: numbers ----> table ... ----> leaf: the bytes of the virtual disk
          the primary block            0 is none                     each a block of the disk

The root begins with 64 bytes: `TSDVDSK1`, the size in bytes (8 bytes), the bytes of a block (4), how many tables are on
the way to a leaf besides the root (4), and zeros. What is left of the root, and each table, is a row of numbers of four
bytes; all numbers have the lowest byte first. A leaf that was never written, or was given back, has no block and reads
as zeros. docs/VIRTUAL_DISKS.md has what this is for, and what a crash leaves.

**In which order.** A new block is taken from its table, then written, and then named by the table's number: so a table
names no block that isn't written. To give one back its number is zeroed first, and then its pointer goes. Whatever
stops between leaves a block to which its table points and which it doesn't name: it is deleted when the table is read
the next time.
"""

from __future__ import annotations

import itertools
import struct
import sys
import threading
from array import array
from collections import OrderedDict
from concurrent.futures import Future
from contextlib import contextmanager, suppress
from typing import Dict, Iterator, List, Optional, Set, Tuple

from tsd import requests
from tsd.capability import Capability
from tsd.errors import Denied, TsdError

MAGIC = b"TSDVDSK1"
HEADER = struct.Struct("<8sQII40x")
NUMBER_BYTES = 4
MOST_NEW = 32
NUMBERS = "I"
assert array(NUMBERS).itemsize == NUMBER_BYTES
DEFAULT_CACHE = 32 << 20


class Unusable(TsdError):
    """The root has no virtual disk, or another one than was asked for; nothing was changed."""


class Table:
    """A block of numbers: of tables, or of leaves."""

    __slots__ = ("block", "numbers")

    def __init__(self, block: int, numbers: "array[int]") -> None:
        self.block = block
        self.numbers = numbers


class Gate:
    """Many may pass at once, or one alone."""

    def __init__(self) -> None:
        self._lock = threading.Lock()
        self._left = threading.Condition(self._lock)
        self._inside = 0
        self._wanting = 0
        self._is_alone = False
        self._many = Many(self)

    def many(self) -> Many:
        """With others."""
        return self._many

    def enter(self) -> None:
        """Goes in with others, once nobody is alone."""
        with self._lock:
            while self._is_alone:
                self._wait()
            self._inside += 1

    def leave(self) -> None:
        """Goes out again."""
        with self._lock:
            self._inside -= 1
            if self._wanting:
                self._left.notify_all()

    @contextmanager
    def alone(self) -> Iterator[None]:
        """Once all others have gone."""
        with self._lock:
            while self._is_alone:
                self._wait()
            self._is_alone = True
            while self._inside:
                self._wait()
        try:
            yield
        finally:
            with self._lock:
                self._is_alone = False
                self._left.notify_all()

    def _wait(self) -> None:
        self._wanting += 1
        self._left.wait()
        self._wanting -= 1


class Many:
    """The time of one of many in a gate."""

    __slots__ = ("_gate",)

    def __init__(self, gate: Gate) -> None:
        self._gate = gate

    def __enter__(self) -> None:
        self._gate.enter()

    def __exit__(self, *_: object) -> None:
        self._gate.leave()


class Cache:
    """Leaves as they are on the disk, up to so many bytes. What was read is kept where nothing was written meanwhile,
    what was written where no other write of the same leaf was under way, since it isn't known which was the later."""

    def __init__(self, most: int) -> None:
        self._most = most
        self._kept: "OrderedDict[int, bytes]" = OrderedDict()
        self._lock = threading.Lock()
        self._writers: Dict[int, int] = {}
        self._contested: Set[int] = set()
        self._written = 0

    def get(self, leaf: int) -> Optional[bytes]:
        """What is kept of a leaf."""
        return self._kept.get(leaf)

    def moment(self) -> int:
        """To be given with what is read from now on."""
        return -1 if self._writers else self._written

    def keep_read(self, leaf: int, data: bytes, moment: int) -> None:
        """Keeps a leaf that was read since that moment."""
        with self._lock:
            if moment == self._written and not self._writers:
                self._keep(leaf, data)

    def writing(self, leaves: range, data: Optional[bytes] = None) -> Writing:
        """While these are written, with these bytes, or given back. Where that fails nothing is kept of them."""
        return Writing(self, leaves, data)

    def begin(self, leaves: range) -> None:
        """These are written from now on."""
        with self._lock:
            for leaf in leaves:
                self._kept.pop(leaf, None)
                self._writers[leaf] = self._writers.get(leaf, 0) + 1
                if self._writers[leaf] > 1:
                    self._contested.add(leaf)

    def end(self, leaves: range, data: Optional[bytes]) -> None:
        """These were written, with these bytes; with None it isn't known what they have."""
        with self._lock:
            self._written += 1
            for at, leaf in enumerate(leaves):
                if data is not None and leaf not in self._contested:
                    length = len(data) // len(leaves)
                    self._keep(leaf, data[at * length:(at + 1) * length])
                self._end(leaf)

    def _keep(self, leaf: int, data: bytes) -> None:
        if self._most:
            self._kept[leaf] = data
            if len(self._kept) > self._most:
                self._kept.popitem(last=False)

    def _end(self, leaf: int) -> None:
        self._writers[leaf] -= 1
        if not self._writers[leaf]:
            del self._writers[leaf]
            self._contested.discard(leaf)


class Writing:
    """The time in which leaves are written, to a cache."""

    __slots__ = ("_cache", "_leaves", "_data")

    def __init__(self, cache: Cache, leaves: range, data: Optional[bytes]) -> None:
        self._cache, self._leaves, self._data = cache, leaves, data

    def __enter__(self) -> None:
        self._cache.begin(self._leaves)

    def __exit__(self, kind: object, error: object, trace: object) -> None:
        self._cache.end(self._leaves, self._data if error is None else None)


class VirtualDisk:
    """A virtual disk. Several threads may use it; only one VirtualDisk may be open at a root at a time.

    A call raises the disk's refusal (Full where no block is free) or the link's end; what it had done until then is
    done: of a write or a trim over several blocks some may be carried out, each whole."""

    def __init__(self, session: "object", root: int, cap: Capability, size: Optional[int] = None,
                 cache: int = DEFAULT_CACHE) -> None:
        """The virtual disk at a primary block, by its capability to write. With a size it is made, where the root is
        all zeros and points to nothing; one that is there has to be of that size. Unusable where it can't be so."""
        self._session = session
        self._root_cap = cap
        self._gate = Gate()
        self._taking = threading.Lock()
        self._numbers = itertools.count()
        self._under_way: Set[int] = set()
        self._ended = threading.Condition()
        self._flushes = 0
        self._tables: Dict[Tuple[int, int], Table] = {}
        data = session.read(root, cap)
        self.block_length = len(data)
        self._fan = self.block_length // NUMBER_BYTES
        self._root_fan = (self.block_length - HEADER.size) // NUMBER_BYTES
        self._cache = Cache(cache // self.block_length)
        if data[:len(MAGIC)] == MAGIC:
            self._open(root, data, size)
        else:
            self._make(root, data, size)

    # --- opening ---

    def _open(self, root: int, data: bytes, size: Optional[int]) -> None:
        _, self.size, length, self._levels = HEADER.unpack_from(data)
        if length != self.block_length or self._levels != self._levels_of(self.size):
            raise Unusable(f"block {root} has a damaged header of a virtual disk")
        if size is not None and size != self.size:
            raise Unusable(f"the virtual disk at block {root} has {self.size} bytes, not {size}: leave the size out")
        self._put_root(root, data[HEADER.size:])
        self._mend(self._tables[0, 0])

    def _make(self, root: int, data: bytes, size: Optional[int]) -> None:
        if data.strip(b"\0") or next(iter(self._session.list(root, self._root_cap)), None) is not None:
            raise Unusable(f"block {root} has something else than a virtual disk, and stays as it is")
        if size is None:
            raise Unusable(f"block {root} has no virtual disk yet: give the size of the one that is to be made")
        if size <= 0 or size % self.block_length:
            raise Unusable(f"the size has to be a multiple of {self.block_length} bytes and more than 0, not {size}")
        self.size, self._levels = size, self._levels_of(size)
        self._put_root(root, bytes(self.block_length - HEADER.size))
        self._write_table(self._tables[0, 0]).result()

    def _put_root(self, root: int, numbers: bytes) -> None:
        self._tables[0, 0] = Table(root, numbers_of(numbers))

    def _levels_of(self, size: int) -> int:
        """How many tables are on the way to a leaf besides the root."""
        leaves, reached, levels = -(-size // self.block_length), self._root_fan, 0
        while reached < leaves:
            reached, levels = reached * self._fan, levels + 1
        return levels

    # --- tables ---

    def _cap(self, block: int) -> Optional[Capability]:
        return self._root_cap if block == self._tables[0, 0].block else None

    def _table(self, depth: int, index: int) -> Optional[Table]:
        """The table at a depth; None where it has no block yet. It is read once, and then kept."""
        table = self._tables.get((depth, index))
        if table is None:
            with self._taking:
                table = self._read_table(depth, index)
        return table

    def _read_table(self, depth: int, index: int) -> Optional[Table]:
        """(With the lock of those who take blocks.)"""
        found = self._tables.get((depth, index))
        if found is not None:
            return found
        parent, at = self._parent(depth, index)
        above = self._read_table(depth - 1, parent)
        block = above.numbers[at] if above is not None else 0
        if not block:
            return None
        table = Table(block, numbers_of(self._session.read(block)))
        self._mend(table)
        self._tables[depth, index] = table
        return table

    def _parent(self, depth: int, index: int) -> Tuple[int, int]:
        """Which table of the depth above names this one, and where in it."""
        return (0, index) if depth == 1 else divmod(index, self._fan)

    def _place(self, leaf: int) -> Tuple[int, int]:
        """Which table of the last depth names a leaf, and where in it."""
        return (0, leaf) if self._levels == 0 else divmod(leaf, self._fan)

    def _mend(self, table: Table) -> None:
        """Deletes what the table points to and doesn't name: a stop left it. A capability to read leaves it there."""
        held = set(self._session.list(table.block, self._cap(table.block)))
        named = {number for number in table.numbers if number}
        if not named <= held:
            raise Unusable(f"the table in block {table.block} names block {min(named - held)}, and doesn't point to it")
        with suppress(Denied):
            wait_for([self._delete(table, block) for block in sorted(held - named)])

    def _write_table(self, table: Table) -> "Future[None]":
        cap = self._cap(table.block)
        head = b"" if cap is None else HEADER.pack(MAGIC, self.size, self.block_length, self._levels)
        return self._session.ask(requests.Write(table.block, head + bytes_of(table.numbers), cap))

    def _delete(self, table: Table, block: int) -> "Future[int]":
        return self._session.ask(requests.Delete(table.block, block, self._cap(table.block)))

    def _block(self, leaf: int) -> int:
        """The block of a leaf; 0 where it has none."""
        index, at = self._place(leaf)
        table = self._table(self._levels, index)
        return table.numbers[at] if table is not None else 0

    # --- reading ---

    def read(self, offset: int, length: int) -> bytes:
        """Bytes of the virtual disk."""
        first, last = offset // self.block_length, (offset + length - 1) // self.block_length
        if first == last:
            # What is kept of a leaf is what it was before each write that is under way: nothing has to be waited for.
            kept = self._cache.get(first)
            if kept is not None:
                start = offset - first * self.block_length
                return kept if length == self.block_length else kept[start:start + length]
        with self._gate.many():
            whole = self._read_leaves(range(first, last + 1)) if length else b""
        start = offset - first * self.block_length
        return whole if len(whole) == length else whole[start:start + length]

    def _read_leaves(self, leaves: range) -> bytes:
        moment = self._cache.moment()
        asked = [self._asked(leaf) for leaf in leaves]
        found = []
        for leaf, answer in zip(leaves, asked):
            data = answer.result() if isinstance(answer, Future) else answer
            found.append(data)
            if isinstance(answer, Future):
                self._cache.keep_read(leaf, data, moment)
        return found[0] if len(found) == 1 else b"".join(found)

    def _asked(self, leaf: int) -> "bytes | Future[bytes]":
        """A leaf that is kept or has no block, or else its read, which is under way."""
        kept = self._cache.get(leaf)
        if kept is not None:
            return kept
        block = self._block(leaf)
        return self._session.ask(requests.Read(block)) if block else bytes(self.block_length)

    # --- writing ---

    def write(self, offset: int, data: bytes) -> None:
        """Sets bytes. When it is done they are on the disk."""
        number = next(self._numbers)
        self._under_way.add(number)
        try:
            if data:
                self._write(offset, data)
        finally:
            self._under_way.discard(number)
            if self._flushes:
                with self._ended:
                    self._ended.notify_all()

    def _write(self, offset: int, data: bytes) -> None:
        first, last = offset // self.block_length, (offset + len(data) - 1) // self.block_length
        leaves, start = range(first, last + 1), offset - first * self.block_length
        if start == 0 and len(data) == self.block_length:
            with self._gate.many(), self._cache.writing(leaves, data):
                self._write_leaf(first, data)
            return
        if start == 0 and len(data) % self.block_length == 0:
            with self._gate.many():
                self._write_leaves(leaves, data)
            return
        with self._gate.alone():
            whole = bytearray(self._read_leaves(leaves))
            whole[start:start + len(data)] = data
            self._write_leaves(leaves, bytes(whole))

    def _write_leaf(self, leaf: int, data: bytes) -> None:
        block = self._block(leaf)
        if block:
            self._session.write(block, data)
        else:
            self._write_new([(leaf, data)])

    def _write_leaves(self, leaves: range, data: bytes) -> None:
        length = self.block_length
        with self._cache.writing(leaves, data):
            under_way: List[Future[None]] = []
            new: List[Tuple[int, bytes]] = []
            for at, leaf in enumerate(leaves):
                part, block = data[at * length:(at + 1) * length], self._block(leaf)
                if block:
                    under_way.append(self._session.ask(requests.Write(block, part)))
                else:
                    new.append((leaf, part))
            try:
                if new:
                    self._write_new(new)
            finally:
                wait_for(under_way)

    def _write_new(self, new: List[Tuple[int, bytes]]) -> None:
        """Leaves without a block, table by table."""
        with self._taking:
            parts: Dict[int, List[Tuple[int, bytes]]] = {}
            for leaf, data in new:
                parts.setdefault(self._place(leaf)[0], []).append((leaf, data))
            for index, part in parts.items():
                table = self._made_table(self._levels, index)
                for at in range(0, len(part), MOST_NEW):
                    self._write_new_of(table, part[at:at + MOST_NEW])

    def _made_table(self, depth: int, index: int) -> Table:
        """The table at a depth, which is made where it isn't there."""
        table = self._read_table(depth, index)
        if table is not None:
            return table
        parent, at = self._parent(depth, index)
        above = self._made_table(depth - 1, parent)
        [block] = self._session.alloc(above.block, 1, self._cap(above.block))
        self._name(above, {at: block}, [])
        table = self._tables[depth, index] = Table(block, array(NUMBERS, bytes(self.block_length)))
        return table

    def _write_new_of(self, table: Table, part: List[Tuple[int, bytes]]) -> None:
        """At most 32 leaves of one table. The requests go out in the order in which they have to be carried out."""
        wanted = sum(1 for leaf, _ in part if not table.numbers[self._place(leaf)[1]])
        blocks = self._session.alloc(table.block, wanted, self._cap(table.block), table.block) if wanted else []
        places: Dict[int, int] = {}
        under_way: List[Future[None]] = []
        for leaf, data in part:
            at = self._place(leaf)[1]
            if table.numbers[at]:
                # Another write has made it meanwhile.
                under_way.append(self._session.ask(requests.Write(table.numbers[at], data)))
                continue
            places[at] = blocks.pop(0)
            under_way.append(self._session.ask(requests.Write(places[at], data)))
        self._name(table, places, under_way)

    def _name(self, table: Table, places: Dict[int, int], under_way: List[Future]) -> None:
        """Has the table name new blocks, once what is under way is carried out. Others see them when that is done."""
        later = Table(table.block, array(NUMBERS, table.numbers))
        for at, block in places.items():
            later.numbers[at] = block
        wait_for(under_way + ([self._write_table(later)] if places else []))
        table.numbers = later.numbers

    # --- giving back ---

    def trim(self, offset: int, length: int) -> None:
        """Gives back the blocks that lie whole in these bytes, which read as zeros then; the others stay."""
        first, end = -(-offset // self.block_length), (offset + length) // self.block_length
        with self._gate.alone(), self._taking, self._cache.writing(range(first, end)):
            leaf = first
            while leaf < end:
                index, at = self._place(leaf)
                count = min(end - leaf, (self._root_fan if self._levels == 0 else self._fan) - at)
                table = self._read_table(self._levels, index)
                if table is not None:
                    self._give_back(table, range(at, at + count))
                leaf += count

    def _give_back(self, table: Table, places: range) -> None:
        blocks = [table.numbers[at] for at in places if table.numbers[at]]
        if not blocks:
            return
        later = Table(table.block, array(NUMBERS, table.numbers))
        for at in places:
            later.numbers[at] = 0
        written = self._write_table(later)
        deleted = [self._delete(table, block) for block in blocks]
        wait_for([written])
        table.numbers = later.numbers
        wait_for(deleted)

    def zero(self, offset: int, length: int) -> None:
        """Sets bytes to zero; blocks that lie whole in them are given back."""
        first, end = -(-offset // self.block_length), (offset + length) // self.block_length
        if first >= end:
            self.write(offset, bytes(length))
            return
        self.write(offset, bytes(first * self.block_length - offset))
        self.trim(first * self.block_length, (end - first) * self.block_length)
        self.write(end * self.block_length, bytes(offset + length - end * self.block_length))

    def flush(self) -> None:
        """Waits for the writes that are under way now. Those that were answered are on the disk already."""
        before = set(self._under_way)
        if not before:
            return
        with self._ended:
            self._flushes += 1
            try:
                while not before.isdisjoint(self._under_way):
                    self._ended.wait()
            finally:
                self._flushes -= 1

    def extents(self, offset: int, length: int) -> Iterator[Tuple[int, int, bool]]:
        """Pieces of these bytes in order: where each begins, how long it is, and whether it has blocks."""
        end, start, was_there = offset + length, offset, False
        at = offset
        with self._gate.many():
            while at < end:
                is_there, after = self._stretch(at // self.block_length)
                if is_there != was_there and at > start:
                    yield start, at - start, was_there
                    start = at
                was_there, at = is_there, min(after * self.block_length, end)
        if at > start:
            yield start, at - start, was_there

    def _stretch(self, leaf: int) -> Tuple[bool, int]:
        """Whether a leaf has a block, and up to which leaf that is told by this."""
        index, at = self._place(leaf)
        table = self._table(self._levels, index)
        return (False, (index + 1) * self._fan) if table is None else (table.numbers[at] != 0, leaf + 1)


def numbers_of(data: bytes) -> "array[int]":
    """Numbers, the lowest byte of each first."""
    numbers = array(NUMBERS, data)
    if sys.byteorder == "big":
        numbers.byteswap()
    return numbers


def bytes_of(numbers: "array[int]") -> bytes:
    """Their bytes, the lowest of each first."""
    if sys.byteorder == "big":
        numbers = array(NUMBERS, numbers)
        numbers.byteswap()
    return numbers.tobytes()


def wait_for(answers: List[Future]) -> None:
    """Waits for all; then the first error is raised."""
    errors = [error for error in (answer.exception() for answer in answers) if error is not None]
    if errors:
        raise errors[0]

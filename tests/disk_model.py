"""A plain model of the disk, written from docs/MODEL.md and docs/FORMAT.md alone; it shares no code with the program.

    disk = Disk.fresh(8, 1, read_cap, write_cap)
    reply_line(disk.apply(parse_line(b"open 1")))       # b"ok\n"
    disk.world()                                        # a snapshot, comparable by ==

`apply(None)` is what came and is no request. Placement is `disk.place`: low, near, spread or zone. The modules of
tests/ are imported flat (`from disk_model import Disk`): `./test` puts the folder on the path. `disk_requests` has
requests and replies with their lines and frames, `seeds` what a seed gives; both are handed on from here.
"""

from __future__ import annotations

import hashlib
from dataclasses import dataclass
from itertools import islice
from typing import Callable, Dict, Iterable, List, NamedTuple, Optional, Set, Tuple

from disk_requests import (  # noqa: F401 (handed on)
    BAD_REQUEST, LEVEL_NAMES, Reply, Request, cut_frames, cut_lines, frame, frames_of, lines_of, parse_body, parse_line,
    parse_reply_body, refused, reply_body, reply_line, request_body, request_line,
)
from seeds import drawn_requests, seed_caps, words_of  # noqa: F401 (handed on)

SECTOR = 512
NONE, READ, WRITE = 0, 1, 2
MOST_SESSIONS = 64
MOST_COUNT = 32
MOST_LISTED = 64
PLACES = ("low", "near", "spread", "zone")
ZONE_TURNS = (0, 2, 4, 6, 8, 10, 12, 14, 15, 13, 11, 9, 7, 5, 3, 1)

Pair = Tuple[int, int]


class Geometry(NamedTuple):
    """Sectors of a block, blocks, primary blocks, pointer slots."""

    k: int
    n: int
    p: int
    m: int


def is_lawful(geometry: Geometry) -> bool:
    """Whether a disk may have this geometry."""
    k, n, p, m = geometry
    return k in (1, 2, 4, 8) and 8 <= n <= 1048576 and 1 <= p <= 16 and p < n and 1 <= m <= 4194304


@dataclass
class World:
    """What a disk holds. `blocks` has the live blocks, each with all its bytes; `records` has for each primary block
    what the version keeps: 32 bytes (the capabilities to read and to write), or 64 bytes (their two digests)."""

    geometry: Geometry
    version: int
    blocks: Dict[int, bytes]
    pairs: Set[Pair]
    records: Tuple[bytes, ...]


def rank(place: str, block: int, hint: Optional[int]) -> int:
    """The rank of a block for a hint, by a kind of placement."""
    at = hint or 0
    if place == "low":
        return block
    if place == "near":
        return 2 * abs(block - at) + (1 if block < at else 0)
    if place == "spread":
        return (block - at) % 2**32
    if place == "zone":
        return 2**32 * ZONE_TURNS[(block // 256 - at // 256) % 16] + block
    raise ValueError(place)


def doomed(live: Iterable[int], pairs: Iterable[Pair], primaries: int) -> Set[int]:
    """The live blocks that aren't primary and to which every pointer comes from a doomed block, found in rounds."""
    incoming = {block: 0 for block in live}
    targets: Dict[int, List[int]] = {}
    for source, target in pairs:
        incoming[target] += 1
        targets.setdefault(source, []).append(target)
    gone: Set[int] = set()
    now = [block for block, count in incoming.items() if count == 0 and block >= primaries]
    while now:
        gone.update(now)
        lost = [target for source in now for target in targets.get(source, ())]
        for target in lost:
            incoming[target] -= 1
        now = [block for block in set(lost) if incoming[block] == 0 and block >= primaries]
    return gone


def reached(pairs: Iterable[Pair], primaries: int) -> Set[int]:
    """The blocks to which a way of pointers leads from a primary block."""
    targets: Dict[int, List[int]] = {}
    for source, target in pairs:
        targets.setdefault(source, []).append(target)
    found = set(range(primaries))
    now = list(found)
    while now:
        now = list({target for source in now for target in targets.get(source, ())} - found)
        found.update(now)
    return found


def digests(record: bytes) -> bytes:
    """What version 2 keeps of the two capabilities of a record."""
    return hashlib.sha256(record[:16]).digest() + hashlib.sha256(record[16:]).digest()


class Refusal(Exception):
    """A rule by which a request is refused."""

    def __init__(self, rule: str, *numbers: int) -> None:
        super().__init__(rule)
        self.reply = refused(rule, *numbers)


class Disk:
    """A world with its open sessions. What a session holds is held[session][block][origin], a level above none."""

    def __init__(self, world: World, place: str = "near") -> None:
        self.geometry = Geometry(*world.geometry)
        self.place = place
        self.version = world.version
        self.blocks = dict(world.blocks)
        self.pairs = set(world.pairs)
        self.records = list(world.records)
        self.held: Dict[int, Dict[int, Dict[int, int]]] = {}

    # --- disks and worlds ---

    @classmethod
    def fresh(cls, blocks: int, sectors: int, read_cap: bytes, write_cap: bytes, place: str = "near") -> Disk:
        """The disk that the command `fresh` makes: one primary block, four slots for each block."""
        return cls(_fresh_world(Geometry(sectors, blocks, 1, 4 * blocks), [read_cap + write_cap]), place)

    @classmethod
    def formatted(cls, blocks: int, sectors: int, slots: int, primaries: int, seed: bytes, place: str = "near") -> Disk:
        """The disk that the command `format` makes, with the seed's capabilities."""
        records = [read + write for read, write in seed_caps(seed)[:primaries]]
        return cls(_fresh_world(Geometry(sectors, blocks, primaries, slots), records), place)

    def world(self) -> World:
        """A snapshot; it doesn't change with the disk."""
        return World(self.geometry, self.version, dict(self.blocks), set(self.pairs), tuple(self.records))

    def end_sessions(self) -> None:
        """Ends all sessions with what they hold, as the end of a run does."""
        self.held.clear()

    def upgrade(self) -> None:
        """Keeps digests in place of capabilities."""
        if self.version == 1:
            self.version = 2
            self.records = [digests(record) for record in self.records]

    def check_line(self) -> bytes:
        """What `check` puts for this world."""
        live = len(self.blocks)
        return b"clean %d %d %d\n" % (live, self.geometry.n - live, len(self.pairs))

    def load(self, seed: bytes, count: int) -> bytes:
        """Carries out the first `count` requests of the seed; what `load` puts."""
        drawn = islice(drawn_requests(seed, self.geometry.n, self.geometry.p), count)
        granted = sum(self.apply(request).kind != "refused" for request in drawn)
        numbers = (count, granted, count - granted, self.free_count(), len(self.pairs))
        return b"load %d granted %d refused %d free %d pointers %d\n" % numbers

    def free_count(self) -> int:
        """How many blocks are free."""
        return self.geometry.n - len(self.blocks)

    # --- levels ---

    def shown_level(self, block: int, shown: Optional[bytes]) -> int:
        """The level that a capability attains at a primary block."""
        if shown is None:
            return NONE
        record = self.records[block]
        half = len(record) // 2
        kept = shown if self.version == 1 else hashlib.sha256(shown).digest()
        return WRITE if kept == record[half:] else READ if kept == record[:half] else NONE

    def attained(self, session: int, block: int, shown: Optional[bytes]) -> Dict[int, int]:
        """What a session attains at a block, for each origin from which it is above none."""
        if block < self.geometry.p:
            level = self.shown_level(block, shown)
            return {block: level} if level > NONE else {}
        levels: Dict[int, int] = {}
        for source, by_origin in self.held[session].items():
            if (source, block) in self.pairs:
                _raise(levels, by_origin)
        return levels

    # --- requests ---

    def apply(self, request: Optional[Request]) -> Reply:
        """Answers a request and changes the disk where it is granted."""
        if request is None:
            return BAD_REQUEST
        if request.name == "free":
            return Reply("free", (self.free_count(),))
        try:
            self._refuse_form(request)
            self._refuse_blocks(request)
            granted = self._refuse_levels(request)
            self._refuse_pointers(request)
            chosen = self._choose(request)
        except Refusal as refusal:
            return refusal.reply
        for block, levels in granted.items():
            _raise(self.held[request.session].setdefault(block, {}), levels)
        reply = self._carry_out(request, chosen)
        self._drop_dead_levels()
        return reply

    def _refuse_form(self, request: Request) -> None:
        """Rules 1 to 3."""
        if not 1 <= request.session <= MOST_SESSIONS:
            raise Refusal("bad-session")
        is_open = request.session in self.held
        if request.name == "open":
            if is_open:
                raise Refusal("already-open")
        elif not is_open:
            raise Refusal("not-open")
        if request.name in ("alloc", "contig") and not 1 <= request.count <= MOST_COUNT:
            raise Refusal("bad-count")
        if request.name == "write" and len(request.data) > SECTOR * self.geometry.k:
            raise Refusal("bad-size")

    def _refuse_blocks(self, request: Request) -> None:
        """Rules 4 to 6."""
        named = _named(request)
        if any(block >= self.geometry.n for block in named):
            raise Refusal("no-such-block")
        if any(block not in self.blocks for block in named):
            raise Refusal("free-block")
        if request.name == "setcap" and request.block >= self.geometry.p:
            raise Refusal("not-primary")
        if request.name == "create" and request.target < self.geometry.p:
            raise Refusal("is-primary")

    def _refuse_levels(self, request: Request) -> Dict[int, Dict[int, int]]:
        """Rule 7; what is attained at each block where a level is needed."""
        granted: Dict[int, Dict[int, int]] = {}
        for block, shown, needed in _needs(request):
            levels = self.attained(request.session, block, shown)
            attained = max(levels.values(), default=NONE)
            if attained < needed:
                raise Refusal("denied", attained, needed)
            _raise(granted.setdefault(block, {}), levels)
        return granted

    def _refuse_pointers(self, request: Request) -> None:
        """Rule 8."""
        pair = (request.block, request.target)
        if request.name == "create" and pair in self.pairs:
            raise Refusal("pointer-exists")
        if request.name == "delete" and pair not in self.pairs:
            raise Refusal("no-pointer")

    def _choose(self, request: Request) -> List[int]:
        """Rules 9 to 11; the blocks that are taken."""
        chosen: List[int] = []
        if request.name in ("alloc", "contig"):
            if self.free_count() < request.count:
                raise Refusal("full", self.free_count(), request.count)
            chosen = self._least(request) if request.name == "alloc" else self._run(request)
        new = 1 if request.name == "create" else len(chosen)
        if new and len(self.pairs) + new > self.geometry.m:
            raise Refusal("pointers-full", len(self.pairs), self.geometry.m)
        return chosen

    def _least(self, request: Request) -> List[int]:
        free = [block for block in range(self.geometry.n) if block not in self.blocks]
        return sorted(free, key=lambda block: rank(self.place, block, request.hint))[:request.count]

    def _run(self, request: Request) -> List[int]:
        starts = []
        length = 0
        for block in range(self.geometry.n):
            length = 0 if block in self.blocks else length + 1
            if length >= request.count:
                starts.append(block - request.count + 1)
        if not starts:
            raise Refusal("run", self.free_count(), request.count)
        first = min(starts, key=lambda block: rank(self.place, block, request.hint))
        return list(range(first, first + request.count))

    def _carry_out(self, request: Request, chosen: List[int]) -> Reply:
        """The change and the reply of a granted request."""
        done: Dict[str, Callable[[Request], Reply]] = {
            "open": self._open, "close": self._close, "read": self._read, "write": self._write, "create": self._create,
            "delete": self._delete, "setcap": self._set_caps, "sweep": self._sweep, "list": self._list,
        }
        if request.name in done:
            return done[request.name](request)
        for block in chosen:
            self.blocks[block] = bytes(SECTOR * self.geometry.k)
            self.pairs.add((request.block, block))
        return Reply("blocks", tuple(chosen))

    def _open(self, request: Request) -> Reply:
        self.held[request.session] = {}
        return Reply("done")

    def _close(self, request: Request) -> Reply:
        del self.held[request.session]
        return Reply("done")

    def _read(self, request: Request) -> Reply:
        return Reply("data", (), self.blocks[request.block])

    def _write(self, request: Request) -> Reply:
        self.blocks[request.block] = request.data.ljust(SECTOR * self.geometry.k, b"\0")
        return Reply("done")

    def _create(self, request: Request) -> Reply:
        self.pairs.add((request.block, request.target))
        return Reply("done")

    def _delete(self, request: Request) -> Reply:
        self.pairs.remove((request.block, request.target))
        return self._free(doomed(self.blocks, self.pairs, self.geometry.p))

    def _sweep(self, _request: Request) -> Reply:
        return self._free(set(self.blocks) - reached(self.pairs, self.geometry.p))

    def _free(self, gone: Set[int]) -> Reply:
        """Takes blocks and the pointers from them away."""
        if gone:
            self.pairs = {pair for pair in self.pairs if pair[0] not in gone}
            for block in gone:
                del self.blocks[block]
        return Reply("gone", (len(gone),))

    def _set_caps(self, request: Request) -> Reply:
        record = request.read_cap + request.write_cap
        self.records[request.block] = record if self.version == 1 else digests(record)
        for by_block in self.held.values():
            for by_origin in by_block.values():
                by_origin.pop(request.block, None)
        return Reply("done")

    def _list(self, request: Request) -> Reply:
        targets = sorted(t for source, t in self.pairs if source == request.block and t >= request.start)
        return Reply("list", tuple(targets[:MOST_LISTED]))

    def _drop_dead_levels(self) -> None:
        for by_block in self.held.values():
            for block in [block for block in by_block if block not in self.blocks]:
                del by_block[block]


def _fresh_world(geometry: Geometry, records: List[bytes]) -> World:
    zeros = bytes(SECTOR * geometry.k)
    return World(geometry, 1, {block: zeros for block in range(geometry.p)}, set(), tuple(records))


def _raise(levels: Dict[int, int], more: Dict[int, int]) -> None:
    """Raises levels by origin to others."""
    for origin, level in more.items():
        levels[origin] = max(levels.get(origin, NONE), level)


def _named(request: Request) -> List[int]:
    """The blocks that a request names."""
    if request.name in ("open", "close", "sweep"):
        return []
    return [request.block, request.target] if request.name in ("create", "delete") else [request.block]


def _needs(request: Request) -> List[Tuple[int, Optional[bytes], int]]:
    """Where a request needs a level, in the order in which it is denied: the block, what is shown there, the level."""
    if request.name in ("read", "list"):
        return [(request.block, request.shown, READ)]
    if request.name in ("write", "alloc", "contig", "delete", "setcap"):
        return [(request.block, request.shown, WRITE)]
    if request.name == "create":
        return [(request.block, request.shown, WRITE), (request.target, None, WRITE)]
    return [(0, request.shown, WRITE)] if request.name == "sweep" else []

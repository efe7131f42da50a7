"""Random disks, and random requests that keep them busy: most are granted, and they make long reclamations, cycles for
sweeps, new capabilities and full disks.
"""

from __future__ import annotations

import random
from typing import Callable, Dict, List, Optional, Sequence, Tuple

from disk_model import NONE, WRITE, Disk, Geometry, Request, frame, request_body, request_line
from judging import Caps

Drawn = Optional[Request]
SECTOR = 512
NO_REQUEST_LINE, NO_REQUEST_BODY = b"write  1 0 - 00\n", b"\x0d\x01\x02"

# How often each kind of request is drawn, of all together.
WEIGHTS: Dict[str, int] = {
    "alloc": 18, "contig": 6, "write": 20, "create": 15, "delete": 15, "setcap": 4, "sweep": 4, "read": 3, "list": 2,
    "free": 2, "open": 2, "close": 1, "wild": 4, "none": 1, "chain": 5, "cycle": 6, "fan": 3,
}


def random_geometry(numbers: random.Random) -> Geometry:
    """A small disk: 8 to 64 blocks."""
    k = numbers.choice((1, 1, 1, 1, 2, 4, 8))
    n = numbers.choice((8, 8, 12, 16, 24, 40, 64))
    p = min(n - 1, numbers.choice((1, 1, 1, 2, 3, 5, 9, 16)))
    m = numbers.choice((4 * n, 4 * n, 2 * n, n, 4, 200))
    return Geometry(k, n, p, m)


def random_caps(numbers: random.Random) -> Tuple[bytes, bytes]:
    """A capability to read and one to write."""
    return random_bytes(numbers, 16), random_bytes(numbers, 16)


def random_bytes(numbers: random.Random, amount: int) -> bytes:
    """So many random bytes."""
    return numbers.getrandbits(8 * amount).to_bytes(amount, "little") if amount else b""


def text_of(requests: Sequence[Drawn], frames: bool) -> bytes:
    """The input that has these requests, as lines or as frames."""
    if frames:
        return b"".join(frame(NO_REQUEST_BODY if one is None else request_body(one)) for one in requests)
    return b"".join(NO_REQUEST_LINE if one is None else request_line(one) for one in requests)


class Drawer:
    """Draws requests for a disk, which it carries out on a copy so as to know what comes next."""

    def __init__(self, numbers: random.Random, disk: Disk, caps: Caps) -> None:
        self.numbers = numbers
        self.disk = Disk(disk.world(), disk.place)
        self.caps = list(caps)
        self.drawn: List[Drawn] = []

    def draw(self, amount: int) -> List[Drawn]:
        """About so many requests; some come in groups."""
        self.add(Request("open", session=1))
        names, weights = list(WEIGHTS), list(WEIGHTS.values())
        while len(self.drawn) < amount:
            if not self.disk.held:
                self.add(Request("open", session=1))
            name = self.numbers.choices(names, weights)[0]
            makers: Dict[str, Callable[[], None]] = {
                "chain": self.chain, "cycle": self.cycle, "fan": self.fan, "wild": self.wild,
                "none": lambda: self.add(None),
            }
            makers.get(name, lambda: self.plain(name))()
        return self.drawn

    def add(self, request: Drawn) -> Tuple[int, ...]:
        """One request more; the numbers of its reply."""
        reply = self.disk.apply(request)
        if request is not None and request.name == "setcap" and reply.kind == "done":
            self.caps[request.block] = (request.read_cap, request.write_cap)
        self.drawn.append(request)
        return reply.numbers if reply.kind != "refused" else ()

    def shown(self, block: int) -> Optional[bytes]:
        """The capability to write of a primary block; nothing at others."""
        return self.caps[block][1] if block < len(self.caps) else None

    def session(self) -> int:
        """One that is open."""
        return self.numbers.choice(sorted(self.disk.held))

    def writable(self, session: int) -> List[int]:
        """The blocks at which a session attains write."""
        return [block for block in sorted(self.disk.blocks)
                if max(self.disk.attained(session, block, self.shown(block)).values(), default=NONE) == WRITE]

    def pointed(self, session: int) -> List[Tuple[int, int]]:
        """The pairs that a session may delete."""
        sources = set(self.writable(session))
        return sorted(pair for pair in self.disk.pairs if pair[0] in sources)

    def plain(self, name: str) -> None:
        """One request of a kind, which is granted where it can be."""
        numbers, session = self.numbers, self.session()
        if name == "open":
            self.add(Request("open", numbers.randrange(1, 65)))
        elif name in ("close", "free"):
            self.add(Request(name, session if name == "close" else 0))
        elif name == "sweep":
            self.add(Request("sweep", session, shown=self.shown(0)))
        elif name == "setcap":
            block = numbers.randrange(len(self.caps))
            read_cap, write_cap = random_caps(numbers)
            self.add(Request("setcap", session, block, self.shown(block), read_cap=read_cap, write_cap=write_cap))
        elif name == "delete":
            self.delete(session)
        else:
            self.at_block(name, session)

    def delete(self, session: int) -> None:
        """The deletion of a pair."""
        pairs = self.pointed(session)
        if pairs:
            source, target = self.numbers.choice(pairs)
            self.add(Request("delete", session, source, self.shown(source), target=target))

    def at_block(self, name: str, session: int) -> None:
        """A request at a block that may be written."""
        numbers, blocks = self.numbers, self.writable(session)
        block = numbers.choice(blocks)
        shown = self.shown(block)
        if name == "write":
            most = SECTOR * self.disk.geometry.k
            amount = numbers.choice((0, 2, 20, most, numbers.randrange(1, most + 1)))
            self.add(Request("write", session, block, shown, data=random_bytes(numbers, amount)))
        elif name == "create":
            others = [other for other in blocks if other >= self.disk.geometry.p] or blocks
            self.add(Request("create", session, block, shown, target=numbers.choice(others)))
        elif name in ("alloc", "contig"):
            hint = numbers.choice((None, numbers.randrange(self.disk.geometry.n)))
            count = numbers.choice((1, 1, 2, 3, 4, numbers.randrange(1, 33)))
            self.add(Request(name, session, block, shown, hint=hint, count=count))
        else:
            self.add(Request(name, session, block, shown))

    def chain(self) -> None:
        """Blocks under one another, and then the pointer to the first is deleted, so that all of them go."""
        session, source = self.session(), self.numbers.randrange(len(self.caps))
        first = self.under(session, source)
        last = first
        for _ in range(self.numbers.randrange(8)):
            last = self.under(session, last)
        if first is not None:
            self.add(Request("delete", session, source, self.shown(source), target=first))

    def cycle(self) -> None:
        """Blocks that point to each other in a ring, cut off; sometimes swept."""
        session, source = self.session(), self.numbers.randrange(len(self.caps))
        first = self.under(session, source)
        last = first
        for _ in range(self.numbers.randrange(5)):
            last = self.under(session, last)
        if first is None or last is None:
            return
        self.add(Request("create", session, last, target=first))
        self.add(Request("delete", session, source, self.shown(source), target=first))
        if self.numbers.random() < 0.4:
            self.add(Request("sweep", session, shown=self.shown(0)))

    def fan(self) -> None:
        """Many pointers from one block, and then that block goes."""
        session, source = self.session(), self.numbers.randrange(len(self.caps))
        hub = self.under(session, source)
        if hub is None:
            return
        free = self.disk.free_count()
        self.add(Request("alloc", session, hub, count=max(1, min(32, free, self.numbers.randrange(1, 33)))))
        targets = sorted(block for block in self.writable(session) if block >= self.disk.geometry.p)
        for target in self.numbers.sample(targets, min(len(targets), 6)):
            self.add(Request("create", session, hub, target=target))
        self.add(Request("delete", session, source, self.shown(source), target=hub))

    def under(self, session: int, source: Optional[int]) -> Optional[int]:
        """A new block under another one."""
        if source is None:
            return None
        got = self.add(Request("alloc", session, source, self.shown(source), count=1))
        return got[0] if len(got) == 1 else None

    def wild(self) -> None:
        """A request whose fields mean nothing in particular."""
        numbers = self.numbers
        read_cap, write_cap = random_caps(numbers)
        self.add(Request(
            numbers.choice(("read", "write", "alloc", "contig", "create", "delete", "setcap", "sweep", "list")),
            session=numbers.choice((0, 1, 1, 1, 2, 65)),
            block=numbers.choice((0, 0, 1, 2, 7, 70)),
            shown=numbers.choice((None, *self.caps[0])),
            data=b"wild" * numbers.choice((1, 200)),
            count=numbers.choice((0, 1, 33)),
            target=numbers.choice((0, 1, 2, 7, 70)),
            read_cap=read_cap,
            write_cap=write_cap,
        ))

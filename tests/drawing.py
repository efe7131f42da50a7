"""Draws requests at random: most are such as the disk grants at that moment, the others wrong in each way that a rule
or the grammar names."""

from __future__ import annotations

import random
from typing import Dict, List, NamedTuple, Optional, Tuple

from disk_model import MOST_SESSIONS, PLACES, SECTOR, Disk, Request, request_body, request_line, seed_caps

MOST_NUMBER = 4294967295
WEIGHTS = {
    "open": 6, "close": 2, "read": 12, "write": 14, "alloc": 16, "contig": 8, "free": 3, "create": 14, "delete": 16,
    "setcap": 2, "sweep": 2, "list": 8,
}
# On a disk of more blocks than are listed at once: it gets full, and its blocks get many pointers.
WIDE = 64
WIDE_WEIGHTS = {**WEIGHTS, "alloc": 30, "delete": 8, "sweep": 1, "list": 14}
ZONE = 256
NOISE_PERCENT = 6
LONG_LINE = 8401


class Ask(NamedTuple):
    """What a client sends: a line (without its line feed) where lines are answered, else the body of a frame."""

    line: bytes
    body: bytes


class Shape(NamedTuple):
    """The words of `format` that a case begins with."""

    blocks: int
    sectors: int
    slots: int
    primaries: int
    seed: bytes


def draw_shape(rng: random.Random) -> Shape:
    """A lawful size, mostly small; now and then so large that lists are long, or that there is more than one zone."""
    blocks = rng.choice([8, rng.randint(8, 12), rng.randint(9, 40), rng.randint(70, 140)])
    if rng.random() < 0.08:
        blocks = rng.choice([rng.randint(ZONE, 3 * ZONE), rng.randint(ZONE, 5 * ZONE), rng.randint(ZONE, 18 * ZONE)])
    primaries = rng.choice([1, 1, 2, 3, rng.randint(1, min(16, blocks - 1))])
    slots = rng.choice([4 * blocks, 4 * blocks, rng.randint(1, 2 * blocks)])
    return Shape(blocks, rng.choice([1, 1, 2, 4, 8]), slots, primaries, rng.getrandbits(256).to_bytes(32, "little"))


class Drawer:
    """Draws requests beside a disk of the model, and knows the capabilities that its primary blocks have."""

    def __init__(self, rng: random.Random, disk: Disk, caps: List[Tuple[bytes, bytes]]) -> None:
        self.rng = rng
        self.disk = disk
        self.caps: Dict[int, Tuple[bytes, bytes]] = dict(enumerate(caps[:disk.geometry.p]))
        self.known = [cap for pair in self.caps.values() for cap in pair]
        self.is_wide = disk.geometry.n > WIDE

    def ask(self) -> Ask:
        """The next thing that is sent; a request of it is carried out at the disk beside."""
        request = self.request()
        asked = Ask(spelled(self.rng, request), request_body(request))
        if self.rng.randrange(100) < NOISE_PERCENT:
            return Ask(noise_of_line(self.rng, asked.line), noise_of_body(self.rng, asked.body))
        self.carry_out(request)
        return asked

    def open_all(self) -> List[Ask]:
        """Requests that open all sessions, among which is drawn from then on."""
        requests = [Request("open", session) for session in range(1, MOST_SESSIONS + 1)]
        for request in requests:
            self.carry_out(request)
        return [Ask(spelled(self.rng, request), request_body(request)) for request in requests]

    def carry_out(self, request: Request) -> None:
        """Carries a request out at the disk beside."""
        reply = self.disk.apply(request)
        if request.name == "setcap" and reply.kind == "done":
            self.caps[request.block] = (request.read_cap, request.write_cap)
            self.known += self.caps[request.block]

    def request(self) -> Request:
        """The next request."""
        rng = self.rng
        weights = WIDE_WEIGHTS if self.is_wide else WEIGHTS
        name = rng.choices(list(weights), list(weights.values()))[0]
        if not self.disk.held and rng.random() < 0.9:
            name = "open"
        if name == "free":
            return Request(name)
        session = self.session(name)
        if name in ("open", "close"):
            return Request(name, session)
        if name == "sweep":
            return Request(name, session, 0, self.shown(0))
        pair = self.pair(name, session)
        block = pair[0]
        shown = self.shown(block)
        if name == "write":
            return Request(name, session, block, shown, data=self.data())
        if name in ("alloc", "contig"):
            return Request(name, session, block, shown, hint=self.hint(), count=self.count(name))
        if name in ("create", "delete"):
            return Request(name, session, block, shown, target=pair[1])
        if name == "setcap":
            return Request(name, session, block, shown, read_cap=self.new_cap(), write_cap=self.new_cap())
        return Request(name, session, block, shown, start=self.number() if name == "list" else 0)

    def session(self, name: str) -> int:
        """A session: mostly an open one; to be opened, mostly a closed one of a few."""
        rng = self.rng
        if rng.random() < 0.04:
            return rng.choice([0, 65, 64, 63, MOST_NUMBER, rng.randint(1, 64)])
        is_open = sorted(self.disk.held)
        return rng.randint(1, 5) if name == "open" or not is_open or rng.random() < 0.03 else rng.choice(is_open)

    def pair(self, name: str, session: int) -> Tuple[int, int]:
        """A source and a target: of a deletion mostly a pointer that is there."""
        rng, disk = self.rng, self.disk
        if name == "setcap" and rng.random() < 0.8:
            return rng.randrange(disk.geometry.p), 0
        within = self.within_reach(session)
        if name == "delete" and disk.pairs and rng.random() < 0.8:
            pairs = sorted(disk.pairs)
            near = [pair for pair in pairs if pair[0] in within]
            return rng.choice(near or pairs)
        if name == "list" and disk.pairs and rng.random() < 0.4:
            return self.widest(), 0
        if name in ("read", "write", "list") and disk.pairs and rng.random() < 0.15:
            return rng.choice(sorted(disk.pairs))[1], 0
        if name == "alloc" and self.is_wide and rng.random() < 0.5:
            return 0, 0
        source = rng.choice(within) if within and rng.random() < 0.7 else self.number()
        ends = [block for block in within if block >= disk.geometry.p] if name == "create" else []
        return source, rng.choice(ends) if ends and rng.random() < 0.8 else self.number()

    def widest(self) -> int:
        """The source of most pointers."""
        sources = [source for source, _ in self.disk.pairs]
        return max(set(sources), key=sources.count)

    def within_reach(self, session: int) -> List[int]:
        """The blocks at which a session attains a level, where it shows a right capability at a primary block."""
        disk = self.disk
        holds = disk.held.get(session, {})
        primaries = list(range(disk.geometry.p))
        return primaries + sorted({target for source, target in disk.pairs if holds.get(source)})

    def number(self) -> int:
        """A block: mostly a live one, now and then past the end."""
        rng = self.rng
        blocks = self.disk.geometry.n
        if rng.random() < 0.05:
            return rng.choice([blocks, blocks - 1, blocks + 1, MOST_NUMBER])
        return rng.choice(sorted(self.disk.blocks)) if rng.random() < 0.8 else rng.randrange(blocks)

    def shown(self, block: int) -> Optional[bytes]:
        """What is shown at a block: at a primary one mostly its capability to write."""
        rng = self.rng
        draw = rng.random()
        if block not in self.caps:
            return None if draw < 0.9 else rng.choice(self.known)
        if draw < 0.7:
            return self.caps[block][1]
        if draw < 0.85:
            return self.caps[block][0]
        return None if draw < 0.92 else rng.choice(self.known + [rng.getrandbits(128).to_bytes(16, "little")])

    def new_cap(self) -> bytes:
        """A new capability; now and then one that was in use before."""
        if self.rng.random() < 0.3:
            return self.rng.choice(self.known)
        return self.rng.getrandbits(128).to_bytes(16, "little")

    def data(self) -> bytes:
        """Bytes to be written: few, a whole block, or too many."""
        rng = self.rng
        block = SECTOR * self.disk.geometry.k
        length = rng.choice([0, 1, rng.randint(1, 9), rng.randint(1, 9), block, min(block + 1, 4096)])
        text = bytes(rng.choice(b"\0\1\x7f\xff") for _ in range(min(length, 9)))
        return text.ljust(length, rng.choice([b"\0", b"\xa5"]))

    def hint(self) -> Optional[int]:
        """No hint, a block, or any number."""
        rng = self.rng
        blocks = self.disk.geometry.n
        far = rng.choice([rng.getrandbits(32), MOST_NUMBER - rng.randrange(2 * blocks), 2**31 + rng.randrange(blocks)])
        zone = ZONE * rng.randrange(40) + rng.randrange(ZONE) if blocks > ZONE else None
        return rng.choice([None, self.number(), rng.randrange(blocks), rng.randrange(2 * blocks), far, zone])

    def count(self, name: str) -> int:
        """How many blocks are asked for: few, what is free, a count that is none; in a row often all that are free."""
        rng = self.rng
        free = self.disk.free_count()
        if rng.random() < 0.1:
            return rng.choice([0, 33, MOST_NUMBER, 32, free, free + 1])
        if name == "contig" and rng.random() < 0.4:
            return max(1, min(free, 32, rng.randint(free // 2, free)))
        return rng.choice([1, 2, rng.randint(1, 32), 32] if self.is_wide else [1, 1, 2, 3, rng.randint(1, 32)])


def spelled(rng: random.Random, request: Request) -> bytes:
    """A line of a request: mostly the printed one, else with zeros before its numbers and digits of either case."""
    line = request_line(request)[:-1]
    if rng.random() < 0.9:
        return line
    words = line.decode().split(" ")
    for at, word in enumerate(words[1:], 1):
        if len(word) < 10 and word.isdigit() and not _is_data(words, at):
            words[at] = word.zfill(rng.randint(len(word), 10))
        elif rng.random() < 0.5:
            words[at] = word.upper()
    return " ".join(words).encode()


def _is_data(words: List[str], at: int) -> bool:
    return words[0] == "write" and at == 4


def noise_of_line(rng: random.Random, line: bytes) -> bytes:
    """A line that was changed somewhere; it may still be a request."""
    at = rng.randrange(len(line))
    return rng.choice([
        line[:at] + line[at + 1:],
        line[:at] + b" " + line[at:],
        line[:at] + bytes([rng.choice([byte for byte in range(256) if byte != 10])]) + line[at + 1:],
        line + b" ", b" " + line, line + b" 0", line.upper(), line[:at], b"", line + b"\r",
        line.ljust(LONG_LINE, b"0"),
    ])


def noise_of_body(rng: random.Random, body: bytes) -> bytes:
    """A body that was changed somewhere; it may still be a request's."""
    at = rng.randrange(len(body))
    return rng.choice([
        body[:at], body[:at] + body[at + 1:], body + b"\0", b"",
        body[:at] + bytes([rng.randrange(256)]) + body[at + 1:],
        bytes([rng.randrange(256)]) + body[1:],
        body.ljust(4200, b"\1"),
    ])


def draw_place(rng: random.Random, blocks: int) -> str:
    """A kind of placement: by zones mostly where there is more than one."""
    return "zone" if blocks > ZONE and rng.random() < 0.5 else rng.choice(PLACES)


def caps_of(shape: Shape) -> List[Tuple[bytes, bytes]]:
    """The capabilities that the disk of a shape begins with."""
    return seed_caps(shape.seed)[:shape.primaries]

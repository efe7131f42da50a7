"""A case: a disk that is made, and what is sent to it in one run of the program after the other. It is carried out by
the program and by the model, and told as lines that can be pasted."""

from __future__ import annotations

from pathlib import Path
from typing import List, NamedTuple, Optional, Set, Tuple, Union

from disk_model import (
    Disk, Reply, World, cut_frames, frame, parse_body, parse_line, parse_reply_body, reply_body, reply_line, seed_caps,
)
from disk_requests import RULE_CODES
from drawing import Ask, Shape
from image_reader import Fault, is_quiet, read_image
from program import Program

INSIDE_FRAME = 9
WORLD_PARTS = ("geometry", "version", "blocks", "pairs", "records")
ENDS_INSIDE = b"tsd: input ends inside a frame\n"


# A deletion or a sweep by which so many blocks go is a kind of its own.
MANY_GONE = 3
REPLY_KINDS = frozenset(
    ["done", "data", "blocks", "free", "gone", "list", f"gone {MANY_GONE}", *(f"no {rule}" for rule in RULE_CODES)])


def kind_of(reply: Reply) -> str:
    """The kind of a reply: a refusal's is its rule."""
    if reply.kind == "refused":
        return f"no {reply.rule}"
    many = reply.kind == "gone" and reply.numbers[0] >= MANY_GONE
    return f"gone {MANY_GONE}" if many else reply.kind


class Reopen(NamedTuple):
    """The run ends, and the next one begins: with this kind of placement, by lines or by frames. `tail` is what stands
    behind the whole lines or frames: for lines nothing or a line feed, for frames nothing or the front of a frame."""

    place: str
    by_frames: bool
    tail: bytes


class Upgrade(NamedTuple):
    """The run ends, and the image is upgraded."""


Step = Union[Ask, Reopen, Upgrade]


class Case(NamedTuple):
    """A disk and the steps."""

    shape: Shape
    steps: Tuple[Step, ...]


class Segment(NamedTuple):
    """One run of the program: how it is opened, and what is sent."""

    how: Reopen
    asks: Tuple[Ask, ...]

    def text(self) -> bytes:
        """The input."""
        if self.how.by_frames:
            return b"".join(frame(ask.body) for ask in self.asks) + self.how.tail
        return b"\n".join(ask.line for ask in self.asks) + (self.how.tail if self.asks else b"")

    def ends_inside(self) -> bool:
        """Whether the input ends inside a frame."""
        return self.how.by_frames and self.how.tail != b""

    def replies(self, disk: Disk) -> List[Reply]:
        """The replies that the model gives."""
        disk.place = self.how.place
        if self.how.by_frames:
            return [disk.apply(parse_body(ask.body)) for ask in self.asks]
        return [disk.apply(parse_line(ask.line)) for ask in self.lines()]

    def sent(self, replies: List[Reply]) -> List[bytes]:
        """Replies, each as it is sent."""
        return [frame(reply_body(reply)) if self.how.by_frames else reply_line(reply) for reply in replies]

    def lines(self) -> Tuple[Ask, ...]:
        """The asks as lines; an empty one at the end of an input that doesn't end in a line feed is none."""
        if self.asks and not self.asks[-1].line and not self.how.tail:
            return self.asks[:-1]
        return self.asks


class Difference(NamedTuple):
    """Where model and program differ: after how many asks of the case, and what was expected and found."""

    text: str


FIRST = Reopen("near", False, b"\n")


def segments(steps: Tuple[Step, ...]) -> List[Union[Segment, Upgrade]]:
    """The runs of the program that carry out these steps."""
    found: List[Union[Segment, Upgrade]] = []
    how, asks = FIRST, []
    for step in steps:
        if isinstance(step, Ask):
            asks.append(step)
            continue
        if asks:
            found.append(Segment(how, tuple(asks)))
            asks = []
        if isinstance(step, Upgrade):
            found.append(step)
        else:
            how = step
    return found + ([Segment(how, tuple(asks))] if asks else [])


def format_words(shape: Shape) -> List[str]:
    """The words that make the disk."""
    return ["format", str(shape.blocks), str(shape.sectors), str(shape.slots), str(shape.primaries), shape.seed.hex()]


def cap_lines(shape: Shape) -> bytes:
    """What `format` puts."""
    caps = seed_caps(shape.seed)[:shape.primaries]
    return b"".join(b"cap %d %s %s\n" % (block, read.hex().encode(), write.hex().encode())
                    for block, (read, write) in enumerate(caps))


def difference(case: Case, program: Program, image: Path, kinds: Set[str]) -> Optional[Difference]:
    """Carries a case out; the first difference between the program and the model. The kinds of the replies that came
    are added to those that are given."""
    if image.exists():
        image.unlink()
    shape = case.shape
    disk = Disk.formatted(shape.blocks, shape.sectors, shape.slots, shape.primaries, shape.seed)
    found = _differ("format", program.run([image] + format_words(shape)), (0, cap_lines(shape), b""))
    for part in segments(case.steps):
        if found is not None:
            return found
        if isinstance(part, Upgrade):
            disk.upgrade()
            found = _differ("upgrade", program.run([image, "upgrade"]), (0, b"version 2\n", b""))
        else:
            found = _segment_difference(part, disk, program, image, kinds)
        found = found or _world_difference(disk, image, isinstance(part, Upgrade) or not part.ends_inside())
    return found or _differ("check", program.run([image, "check"]), (0, disk.check_line(), b""))


def _differ(what: str, run: Tuple, expected: Tuple) -> Optional[Difference]:
    if tuple(run) == expected:
        return None
    return Difference(f"{what}: expected (status, output, error)\n  {expected}\nfound\n  {tuple(run)}")


def _segment_difference(
    part: Segment, disk: Disk, program: Program, image: Path, kinds: Set[str]
) -> Optional[Difference]:
    answers = part.replies(disk)
    replies = part.sent(answers)
    disk.end_sessions()
    run = program.run([image, "serve" if part.how.by_frames else "run", part.how.place], part.text())
    ended = (INSIDE_FRAME, ENDS_INSIDE) if part.ends_inside() else (0, b"")
    expected = (ended[0], b"".join(replies), ended[1])
    if tuple(run) == expected:
        kinds.update(map(kind_of, answers))
        return None
    return _first_difference(part, replies, run.out) or _differ("run", run, expected)


def _first_difference(part: Segment, replies: List[bytes], out: bytes) -> Optional[Difference]:
    """The first reply that is another one."""
    at = 0
    for ask, reply in zip(part.asks, replies):
        if out[at:at + len(reply)] != reply:
            sent = ask.body.hex() if part.how.by_frames else repr(ask.line)
            return Difference(f"to {sent}\nexpected {_shown(part, reply)}\n   found {_shown(part, out[at:])}")
        at += len(reply)
    return None


def _shown(part: Segment, text: bytes) -> str:
    """The first reply of a text, by frames also in words."""
    if not part.how.by_frames:
        return repr(text.split(b"\n")[0])
    bodies, _ = cut_frames(text)
    if not bodies:
        return f"no whole frame, {text.hex()}"
    reply = parse_reply_body(bodies[0])
    return f"{bodies[0].hex()}, {'no reply' if reply is None else repr(reply_line(reply))}"


def _world_difference(disk: Disk, image: Path, is_done: bool) -> Optional[Difference]:
    """Whether the image stands for the model's world, and where the run is done, nothing is left to be done on it."""
    content = image.read_bytes()
    wrong = world_difference(disk.world(), content)
    if wrong is None and is_done and not is_quiet(content):
        wrong = "a gate is open, a sweep has begun, or a block is doomed"
    return None if wrong is None else Difference(wrong)


def world_difference(expected: World, content: bytes) -> Optional[str]:
    """How an image's world differs from the one that is expected."""
    read = read_image(content)
    if isinstance(read, Fault):
        return f"the image stands for no world: {read.line}"
    wrong = [name for name in WORLD_PARTS if getattr(read, name) != getattr(expected, name)]
    return "\n".join(_world_part(name, getattr(expected, name), getattr(read, name)) for name in wrong) or None


def _world_part(name: str, expected: object, found: object) -> str:
    if name == "pairs":
        more, less = sorted(found - expected), sorted(expected - found)  # type: ignore[operator]
        return f"the image's pairs: {more} too many, {less} missing"
    if name == "blocks":
        blocks = sorted(set(found) | set(expected))  # type: ignore[arg-type,call-overload]
        wrong = [b for b in blocks if found.get(b) != expected.get(b)]  # type: ignore[attr-defined]
        return f"the image's blocks {wrong} differ in their bytes, or in whether they are live"
    return f"the image's {name}: expected {expected}, found {found}"


# --- lines that can be pasted -------------------------------------------------------------------------------------


def pasteable(case: Case) -> str:
    """The case as commands of a shell."""
    lines = ["rm -f image", "./tsd image " + " ".join(format_words(case.shape))]
    for part in segments(case.steps):
        if isinstance(part, Upgrade):
            lines.append("./tsd image upgrade")
        else:
            word = "serve" if part.how.by_frames else "run"
            shown = " | od -An -tx1" if part.how.by_frames else ""
            lines.append(f"{_printed(part.text())} | ./tsd image {word} {part.how.place}{shown}")
    return "\n".join(lines)


def _printed(text: bytes) -> str:
    """The command that prints a text."""
    if text.endswith(b"\n") and all(32 <= byte < 127 and byte != 39 or byte == 10 for byte in text):
        return "printf '%s\\n' " + " ".join(f"'{line}'" for line in text.decode().split("\n")[:-1])
    return "printf '" + "".join(f"\\{byte:03o}" for byte in text) + "'"

"""What a crash may leave of a run, by the promise of the program: the world after a prefix of the requests that holds
every request whose reply was sent, and at most one more. Moments inside a formatting have rules of their own
(docs/FORMAT.md, "How a disk is made"), and so have those before a run's first sync, which leave what was there.
"""

from __future__ import annotations

from bisect import bisect_right
from itertools import accumulate, islice
from typing import List, NamedTuple, Optional, Sequence, Tuple, Union

from certificates import answer_to, certificate_of
from crash_images import FORMAT_GATE, ZEROS, Choice, Choices, Medium, Progress, told
from disk_model import Disk, Request, World, drawn_requests, frame, reply_body, reply_line, seed_caps
from image_reader import Fault, read_image

Outcome = Union[World, Fault]
Caps = Tuple[Tuple[bytes, bytes], ...]
NOT_FORMATTED = Fault("not-formatted")
SYNCS_OF_FORMAT = 3


class Different(Exception):
    """Something isn't as the rules say; the text has all that is needed to look at it."""


class Standing(NamedTuple):
    """What an image stands for, and the capabilities that are right there."""

    outcome: Outcome
    caps: Caps = ()


class Course:
    """A run as the model has it: where the disk stands after each prefix of its requests, and the answers.

    `before` is what a crash before the first sync may leave. `formats`: the run makes the disk first, and `old_gate` is
    what the sector of the format gate reads as before that. `takes_input`: nothing is carried out before a byte of
    input was taken. `is_one_answer`: many requests with one answer in the end. `ends`: of group commit, where each
    request ends in the input; `boundaries`: the only numbers of requests that may be on the disk.
    """

    def __init__(self, before: Sequence[Standing], start: Standing, formats: bool = False) -> None:
        self.before = list(before)
        self.prefixes = [start]
        self.answers: List[bytes] = []
        self.formats = formats
        self.old_gate = ZEROS
        self.takes_input = False
        self.is_one_answer = False
        self.ends: Optional[List[int]] = None
        self.boundaries: Optional[List[int]] = None

    def out(self) -> bytes:
        """All that the run sends."""
        return b"".join(self.answers)

    def whole_answers(self, sent: int) -> int:
        """How many whole answers are among so many bytes sent."""
        return bisect_right(list(accumulate(map(len, self.answers))), sent)

    def allowed(self, progress: Progress) -> List[Standing]:
        """Where an image may stand that a crash leaves now."""
        if self.formats and progress.syncs < SYNCS_OF_FORMAT:
            return self.while_formatting(progress)
        if progress.syncs == 0:
            return self.before
        last = len(self.prefixes) - 1
        if self.is_one_answer:
            return self.prefixes[last:] if progress.sent else self.prefixes
        if self.takes_input and not progress.took_input:
            return self.prefixes[:1]
        whole = min(self.whole_answers(progress.sent), last)
        if self.ends is not None:
            return self.of_groups(whole, self.requests_in(progress.taken))
        return self.prefixes[whole:whole + 2]

    def requests_in(self, taken: int) -> int:
        """Of group commit: how many whole requests are among so many bytes of the input."""
        return bisect_right(self.ends or [], taken)

    def of_groups(self, answered: int, taken: int) -> List[Standing]:
        """Of group commit: every answered request counts, and none that was not taken."""
        counts = range(answered, taken + 1)
        return [self.prefixes[count] for count in counts if self.boundaries is None or count in self.boundaries]

    def while_formatting(self, progress: Progress) -> List[Standing]:
        """The same before the format gate is open and firm."""
        if progress.syncs == 0:
            return self.before + [Standing(NOT_FORMATTED)]
        opens = progress.syncs == SYNCS_OF_FORMAT - 1 and progress.opened_gate
        return [Standing(NOT_FORMATTED)] + (self.prefixes[:1] if opens else [])


def course_of_requests(
    before: Sequence[Standing], disk: Disk, caps: Caps, requests: Sequence[Optional[Request]], frames: bool,
    formats: bool = False,
) -> Course:
    """The course of `run`, `serve` or `fresh`; the disk is as it was at the start, and is changed."""
    course = Course(before, Standing(disk.world(), caps), formats)
    course.takes_input = True
    for request in requests:
        reply = disk.apply(request)
        course.answers.append(frame(reply_body(reply)) if frames else reply_line(reply))
        if request is not None and request.name == "setcap" and reply.kind == "done":
            caps = caps[:request.block] + ((request.read_cap, request.write_cap),) + caps[request.block + 1:]
        course.prefixes.append(Standing(disk.world(), caps))
    disk.end_sessions()
    return course


def course_of_format(before: Sequence[Standing], disk: Disk, caps: Caps) -> Course:
    """The course of `format`: a line for each primary block."""
    course = Course(before, Standing(disk.world(), caps), formats=True)
    for block, (read_cap, write_cap) in enumerate(caps):
        course.answers.append(f"cap {block} {read_cap.hex()} {write_cap.hex()}\n".encode())
    return course


def course_of_check(before: Sequence[Standing], disk: Disk, caps: Caps) -> Course:
    """The course of `check`, which changes no world."""
    course = Course(before, Standing(disk.world(), caps))
    course.answers.append(disk.check_line())
    return course


def course_of_audit(before: Sequence[Standing], disk: Disk, caps: Caps) -> Course:
    """The course of `audit`, which changes no world: its lines."""
    course = Course(before, Standing(disk.world(), caps))
    course.answers += certificate_of(disk.world()).splitlines(keepends=True)
    return course


def course_of_verify(before: Sequence[Standing], disk: Disk, caps: Caps, text: bytes) -> Course:
    """The course of `verify`, which changes no world: its answer."""
    course = Course(before, Standing(disk.world(), caps))
    course.answers.append(answer_to(text, disk.world()))
    return course


def course_of_upgrade(before: Sequence[Standing], disk: Disk, caps: Caps) -> Course:
    """The course of `upgrade`; the disk is upgraded."""
    course = Course(before, Standing(disk.world(), caps))
    disk.upgrade()
    course.prefixes.append(Standing(disk.world(), caps))
    course.answers.append(b"version 2\n")
    return course


def course_of_load(before: Sequence[Standing], disk: Disk, caps: Caps, seed: bytes, count: int) -> Course:
    """The course of `load`; the disk carries the requests out."""
    course = Course(before, Standing(disk.world(), caps))
    course.is_one_answer = True
    granted = 0
    for request in islice(drawn_requests(seed, disk.geometry.n, disk.geometry.p), count):
        granted += disk.apply(request).kind != "refused"
        course.prefixes.append(Standing(disk.world(), caps))
    disk.end_sessions()
    numbers = (count, granted, count - granted, disk.free_count(), len(disk.pairs))
    course.answers.append(b"load %d granted %d refused %d free %d pointers %d\n" % numbers)
    return course


def caps_of_seed(seed: bytes, primaries: int) -> Caps:
    """The capabilities with which `format` makes a disk."""
    return tuple(seed_caps(seed)[:primaries])


def matching(found: Outcome, allowed: Sequence[Standing]) -> Optional[Standing]:
    """The standing that was found among those allowed."""
    return next((standing for standing in allowed if standing.outcome == found), None)


def judge_image(medium: Medium, choices: Choices, progress: Progress, course: Course) -> Standing:
    """Where an image stands that a crash leaves now; Different where it may not."""
    if course.formats and progress.syncs == 0:
        return judge_unmade(medium, choices, progress, course)
    allowed = course.allowed(progress)
    found = read_image(medium.sector_of(choices))
    standing = matching(found, allowed)
    if standing is None:
        whole = course.whole_answers(progress.sent)
        raise Different(f"with {progress.sent} bytes sent, {whole} whole replies; {told(choices)}\n"
                        f"{difference(found, allowed)}")
    return standing


def judge_unmade(medium: Medium, choices: Choices, progress: Progress, course: Course) -> Standing:
    """The same before the first sync of a formatting: all is as it was but for the format gate, which may be torn.
    Where that reads as open, what lay behind a closed one may show, whatever it is."""
    as_it_was = {**choices, FORMAT_GATE: Choice("as it was", course.old_gate)}
    found = read_image(medium.sector_of(as_it_was))
    if progress.wrote_elsewhere or matching(found, course.before) is None:
        raise Different(f"before the first sync of a formatting; {told(as_it_was)}\n"
                        f"{difference(found, course.before)}")
    outcome = read_image(medium.sector_of(choices))
    return matching(outcome, course.before) or Standing(outcome, caps_kept(outcome))


def caps_kept(outcome: Outcome) -> Caps:
    """The capabilities of a world, where it keeps them."""
    if isinstance(outcome, World) and outcome.version == 1:
        return tuple((record[:16], record[16:]) for record in outcome.records)
    return ()


def difference(found: Outcome, allowed: Sequence[Standing]) -> str:
    """In what a finding differs from each outcome that is allowed."""
    return "\n".join(f"from outcome {number}: {one_difference(found, standing.outcome)}"
                     for number, standing in enumerate(allowed, 1))


def one_difference(found: Outcome, wanted: Outcome) -> str:
    """In what it differs from one."""
    if isinstance(found, Fault) or isinstance(wanted, Fault):
        return f"{summary(found)} where {summary(wanted)} is right"
    texts = []
    for name in ("geometry", "version", "records"):
        if getattr(found, name) != getattr(wanted, name):
            texts.append(f"{name} {getattr(found, name)} where {getattr(wanted, name)} is right")
    if found.blocks.keys() != wanted.blocks.keys():
        texts.append(f"live blocks {sorted(found.blocks)} where {sorted(wanted.blocks)} are right")
    bytes_differ = [block for block in found.blocks if found.blocks[block] != wanted.blocks.get(block)]
    if bytes_differ:
        texts.append(f"other bytes in blocks {bytes_differ}")
    if found.pairs != wanted.pairs:
        more, fewer = sorted(found.pairs - wanted.pairs), sorted(wanted.pairs - found.pairs)
        texts.append(f"pairs too many {more}, missing {fewer}")
    return "; ".join(texts) or "none"


def summary(outcome: Outcome) -> str:
    """An outcome in a few words."""
    if isinstance(outcome, Fault):
        return f"'{outcome.line}'"
    return f"a world of version {outcome.version} with {len(outcome.blocks)} live blocks and {len(outcome.pairs)} pairs"

"""Worked sessions of the shell, answer by answer, over files: sizes that matter, all layouts of a disk, malformed
lines, disks that are opened again, the longest files and the fullest directory, and one session that is stopped at each
of its calls.

What must be answered is written down here from docs/FILES.md, and nothing of it was made by the program.
"""

from __future__ import annotations

import resource
from pathlib import Path
from typing import Iterator, List, NamedTuple, Sequence, Tuple

from crash_images import Choice, Medium, moments, written
from disk_model import PLACES, seed_caps
from file_model import parts
from file_text import CHAIN, INODE
from file_trees import plain, read_tree
from files import told
from image_reader import Fault, read_image
from parts import Context, Result, compared, failed, passed, shortened, skipped
from program import Program
from recording import PUT, READ, SYNC, NoRecorder, Recorder, Recording

NAME = "file_rows"
USAGE = 2
R, W = "aa" * 16, "bb" * 16
SEED = bytes(32)
OK = ["ok"]
BAD = "no bad-request"
LONGEST_LINE = 8400
LITTLE_STACK = 1 << 20


class Session(NamedTuple):
    """A disk by the words of `fresh`, a layout of trees, lines and their answers."""

    name: str
    blocks: int
    sectors: int
    kind: str
    lines: Sequence[str]
    answers: Sequence[str]


def letters(count: int) -> str:
    """So many bytes 0x61."""
    return "61" * count


# A file of inodes has at most 124 blocks of one sector, whatever else is lacking; a copy shares them.
LONGEST = (
    ("mkfs", "ok"),
    (f"put /a {'11' * 4096}", "ok"),
    *[(f"append /a {'22' * 4096}", "ok")] * 14,
    ("df", "free 18"),
    (f"append /a {'33' * 4096}", "no too-big"),
    (f"append /a {'33' * 2049}", "no too-big"),
    (f"append /a {'33' * 2047}", "ok"),
    ("df", "free 14"),
    ("cp /a /b", "ok"),
    ("append /a 44", "ok"),
    ("append /a 44", "no too-big"),
    ("append /a -", "ok"),
    ("cat /a", f"data {'11' * 4096}{'22' * 57344}{'33' * 2047}44"),
    ("cat /b", f"data {'11' * 4096}{'22' * 57344}{'33' * 2047}"),
    ("df", "free 12"),
)

# An empty file grows by appends, and is then replaced: the old blocks come back once the new ones are named.
GROWN = ["mkfs", "mkdir /docs", "put /docs/a -"] + [f"append /docs/a {letters(2560)}"] * 8 + ["df"]
REPLACED = ["put /docs/a 6869", "cat /docs/a", "df"]


def long_chain(blocks: int, appends: int, last: int, free: int) -> Session:
    """A file of many clusters, which is taken away again."""
    lines = ["mkfs", "put /big -"] + [f"append /big {letters(4096)}"] * appends + [f"append /big {letters(last)}"]
    answers = OK * len(lines) + [f"free {free}", "ok", f"free {blocks - 1}"]
    lines += ["df", "rm /big", "df"]
    return Session(f"a file of {blocks - 1 - free} clusters", blocks, 1, CHAIN, lines, answers)


SESSIONS = (
    Session("a file that is replaced", 2048, 8, INODE, GROWN + REPLACED,
            OK * 11 + ["free 2040", "ok", "data 6869", "free 2044"]),
    long_chain(1024, 60, 2240, 523),
    long_chain(8192, 605, 1920, 3191),
    Session("the longest file of inodes", 140, 1, INODE, *zip(*LONGEST)),
    Session("nothing is mounted before mkfs", 8, 1, INODE,
            ["put /a 01", "mkfs", "ls /", "put /a 01", "cat /a", f"put /a {letters(4096)}", "cp /a /b", "df",
             "mkdir /a", "rm /a", "cat /b", "ls /", "df", "cat /a", "ls /b"],
            ["no not-this-fs", "ok", "names -", "ok", "data 01", "no full 5 9", "ok", "free 4", "no exists", "ok",
             "data 01", "names b", "free 5", "no no-entry", "no not-dir"]),
    Session("chains have one directory", 8, 1, CHAIN,
            ["mkfs", "put /a -", "append /a 01", "cat /a", "mkdir /b", "cp /a /b", "df"],
            ["ok", "ok", "ok", "data 01", BAD, BAD, "free 6"]),
    Session("malformed lines", 8, 1, INODE,
            ["", "mkfs ", " mkfs", "mkfs /", "put /a", "put /a 0", "put /a 0g", "put a 00", "put / 00", "put /a/ 00",
             "put /. 00", "put /.. 00", "put /- 00", f"put /{'n' * 29} 00", f"put {'/a' * 17} 00", "put  /a 00",
             "PUT /a 00", "cat", "ls", "cp /a", "df /", "x" * LONGEST_LINE, "x" * (LONGEST_LINE + 1), "df"],
            [BAD] * 8 + ["no not-this-fs"] + [BAD] * 14 + ["free 7"]),
    *(Session("names at their ends", 8, 1, kind,
              ["mkfs", f"put /{'n' * 28} 01", "put /n 02", "put /nn 03", "ls /", "cat /n", "cat /nn",
               f"cat /{'n' * 28}"],
              ["ok", "ok", "ok", "ok", f"names n nn {'n' * 28}", "data 02", "data 03", "data 01"])
      for kind in (INODE, CHAIN)),
)


def result_of(session: Session, program: Program, image: Path) -> Result:
    """A session over a disk that `fresh` has made."""
    image.unlink(missing_ok=True)
    program.run([image, "fresh", str(session.blocks), str(session.sectors), R, W, "near"], b"")
    run = program.run([image, "shell", session.kind, "0", W, "near"], text_of(session.lines))
    return compared(f"{session.name} ({session.kind})", (0, text_of(session.answers), b""), tuple(run))


def little_stack_result(program: Program, image: Path) -> Result:
    """A file of 5,000 clusters is made and taken away in a stack of 210 bytes for each: no call calls itself."""
    session = long_chain(8192, 605, 1920, 3191)
    image.unlink(missing_ok=True)
    program.run([image, "fresh", str(session.blocks), str(session.sectors), R, W, "near"], b"")
    run = program.run([image, "shell", session.kind, "0", W, "near"], text_of(session.lines), before=limit_stack)
    return compared(f"{session.name} in little stack", (0, text_of(session.answers), b""), tuple(run))


def limit_stack() -> None:
    """The stack of a program has a megabyte."""
    resource.setrlimit(resource.RLIMIT_STACK, (LITTLE_STACK, LITTLE_STACK))


def text_of(lines: Sequence[str]) -> bytes:
    """Lines as bytes."""
    return "".join(f"{line}\n" for line in lines).encode()


# --- all layouts of a disk ---

def disk_results(program: Program, image: Path) -> Iterator[Result]:
    """Both layouts, blocks of each size, all placements, a root that isn't 0, and a disk that was upgraded."""
    for kind in (INODE, CHAIN):
        for sectors in (1, 2, 4, 8):
            for place in PLACES:
                for upgraded in (False, True):
                    yield disk_result(program, image, kind, sectors, place, upgraded)


def disk_result(program: Program, image: Path, kind: str, sectors: int, place: str, upgraded: bool) -> Result:
    """A file under root 1, with a block under root 0 that another session wrote meanwhile."""
    caps = [pair[1].hex() for pair in seed_caps(SEED)[:2]]
    image.unlink(missing_ok=True)
    program.run([image, "format", "32", str(sectors), "128", "2", SEED.hex()], b"")
    if upgraded:
        program.run([image, "upgrade"], b"")
    shell = [image, "shell", kind, "1", caps[1], place]
    program.run(shell, text_of(["mkfs", "put /a 0102"]))
    lines = ["open 1", f"alloc 1 0 {caps[0]} - 1", f"write 1 0 {caps[0]} 07"]
    other = program.run([image, "run", place], text_of(lines))
    run = program.run(shell, text_of(["cat /a", "append /a 03", "cat /a", "ls /"]))
    rest = program.run([image, "run", place], text_of(["open 1", f"read 1 0 {caps[0]}"]))
    found = (run.out, other.out[:3] + other.out[-3:], rest.out)
    right = (b"data 0102\nok\ndata 010203\nnames a\n", b"ok\nok\n", b"ok\ndata 07\n")
    return compared(f"{kind}, {sectors} sectors, {place}{', upgraded' if upgraded else ''}", right, found)


# --- a full directory, and files that are too big ---

def largest_results(program: Program, image: Path) -> Iterator[Result]:
    """How many entries a directory of inodes has and how many blocks a file, by the sectors of a block."""
    for sectors, entries, blocks in ((1, 15, 124), (2, 31, 252), (4, 63, 508), (8, 127, 1020)):
        image.unlink(missing_ok=True)
        program.run([image, "fresh", "2048", str(sectors), R, W, "low"], b"")
        lines = ["mkfs"] + [f"put /{number} -" for number in range(entries)] + ["put /more -", "rm /0", "put /more -"]
        answers = OK * (entries + 1) + ["no dir-full", "ok", "ok"]
        run = program.run([image, "shell", INODE, "0", W, "low"], text_of(lines))
        yield compared(f"{entries} entries of a directory", (0, text_of(answers), b""), tuple(run))
        piece = 512 * sectors
        lines = ["mkfs", "put /a -"] + [f"append /a {letters(piece)}"] * blocks + ["append /a 61", "append /a -"]
        answers = OK * (blocks + 2) + ["no too-big", "ok"]
        run = program.run([image, "shell", INODE, "0", W, "low"], text_of(lines))
        yield compared(f"{blocks} blocks of a file", (0, text_of(answers), b""), tuple(run))


# --- a block that another root leads to as well ---

def shared_result(program: Program, image: Path, kind: str) -> Result:
    """A file goes, but for the block to which root 0 leads, too: the bytes of inodes, or a whole cluster."""
    caps = [pair[1].hex() for pair in seed_caps(SEED)[:2]]
    image.unlink(missing_ok=True)
    program.run([image, "format", "32", "1", "128", "2", SEED.hex()], b"")
    shell = [image, "shell", kind, "1", caps[1], "low"]
    program.run(shell, text_of(["mkfs", "put /a 0102"]))
    way = [1, *pointed(image, 1)]
    if kind == INODE:
        way += pointed(image, way[-1])
    reads = [f"read 1 {block} {caps[1] if block == 1 else '-'}" for block in way]
    first = program.run([image, "run", "low"], text_of(["open 1", *reads, f"create 1 0 {caps[0]} {way[-1]}"]))
    run = program.run(shell, text_of(["cat /a", "rm /a", "df", "ls /", "put /a 03", "cat /a", "df"]))
    rest = program.run([image, "run", "low"], text_of(["open 1", f"read 1 0 {caps[0]}", f"read 1 {way[-1]} -"]))
    data = first.out.split(b"\n")[-3:]
    found = (data[1:], run.out, rest.out.split(b"\n")[2:])
    answers = ["data 0102", "ok", "free 29", "names -", "ok", "data 03", "free 27" if kind == INODE else "free 28"]
    right = ([b"ok", b""], text_of(answers), [data[0], b""])
    return compared(f"a block shared with another root ({kind})", right, found)


def pointed(image: Path, block: int) -> Sequence[int]:
    """The targets of the pointers out of a block of an image."""
    world = read_image(image.read_bytes())
    return [] if isinstance(world, Fault) else sorted(target for source, target in world.pairs if source == block)


# --- a mount that is refused, and then mkfs ---

def other_kind_result(program: Program, image: Path) -> Result:
    """Chains find no tree where inodes keep one, change nothing, and take the place over by `mkfs` alone."""
    image.unlink(missing_ok=True)
    program.run([image, "fresh", "16", "1", R, W, "near"], b"")
    program.run([image, "shell", INODE, "0", W, "near"], text_of(["mkfs", "put /a 01"]))
    before = image.read_bytes()
    refused = program.run([image, "shell", CHAIN, "0", W, "near"], text_of(["ls /", "cat /a", "rm /a", "df"]))
    kept = image.read_bytes() == before
    made = program.run([image, "shell", CHAIN, "0", W, "near"], text_of(["mkfs", "put /b 02", "ls /", "df"]))
    right = (b"no not-this-fs\nno not-this-fs\nno not-this-fs\nfree 13\n", True, b"ok\nok\nnames b\nfree 14\n")
    return compared("a tree of the other kind", right, (refused.out, kept, made.out))


# --- opened again ---

# A session over eight blocks of inodes, the example of the documents at first, and the tree that it leaves.
INODES = (
    ("mkfs", "ok"), ("put /a 6869", "ok"), ("cat /a", "data 6869"), ("mkdir /docs", "ok"), ("cp /a /docs/b", "ok"),
    ("ls /", "names a docs"), ("rm /docs", "no not-empty"), ("cat /docs", "no is-dir"), ("put /a/b -", "no not-dir"),
    ("df", "free 3"), ("append /a 21", "ok"), ("df", "free 2"), (f"put /c {letters(513)}", "no full 2 3"),
    (f"put /c {letters(512)}", "ok"), ("df", "free 0"), ("mkdir /d", "no full 0 1"), ("rm /c", "ok"),
    ("mkdir /d", "ok"),
)
LEFT_BY_INODES = (
    ("ls /", "names a d docs"), ("cat /a", "data 686921"), ("ls /d", "names -"), ("ls /docs", "names b"),
    ("cat /docs/b", "data 6869"), ("df", "free 1"),
)
# The same over chains.
CHAINS = (
    ("mkfs", "ok"), ("put /b 6869", "ok"), ("put /a -", "ok"), ("cat /b", "data 6869"), ("cat /a", "data -"),
    ("ls /", "names a b"), ("put /a/b -", "no not-dir"), ("cat /c", "no no-entry"), ("cat /", "no is-dir"),
    ("append /b 21", "ok"), ("df", "free 5"), (f"put /c {letters(2481)}", "no full 5 6"),
    (f"put /c {letters(2480)}", "ok"), ("append /c 62", "no full 0 1"), ("put /d -", "no full 0 1"), ("rm /c", "ok"),
    (f"put /d {letters(497)}", "ok"),
)
LEFT_BY_CHAINS = (
    ("ls /", "names a b d"), ("cat /a", "data -"), ("cat /b", "data 686921"), ("cat /d", f"data {letters(497)}"),
    ("df", "free 3"),
)
# As many clusters as the disk has pointers, each of 496 bytes, on a disk with 200 blocks more.
CLUSTERS = 5000
LONG_TEXT = bytes(at % 251 for at in range(496 * CLUSTERS))
LONG = (
    ("mkfs", "ok"), ("put /long -", "ok"),
    *((f"append /long {LONG_TEXT[at:at + 4096].hex()}", "ok") for at in range(0, len(LONG_TEXT), 4096)),
    ("df", "free 199"), ("append /long 00", f"no pointers-full {CLUSTERS} {CLUSTERS}"),
)
LONG_AGAIN = (("cat /long", f"data {LONG_TEXT.hex()}"), ("rm /long", "ok"), ("df", "free 5199"))
# A cluster of eight sectors has room for 127 entries, so a directory of 4,096 has 32 beside its root.
NAMES = [f"n{number:04}" for number in range(4096)]
FULL = (
    ("mkfs", "ok"), *((f"put /{name} -", "ok") for name in NAMES), ("df", "free 30"), ("put /more -", "no dir-full"),
    ("put /n0017 6869", "ok"), ("cat /n0017", "data 6869"), ("rm /n4000", "ok"), ("df", "free 31"),
    ("put /more 21", "ok"), ("put /n4000 -", "no dir-full"), ("cat /n4000", "no no-entry"), ("df", "free 30"),
)
FULL_AGAIN = (
    *((f"cat /{name}", {"n0017": "data 6869", "n4000": "no no-entry"}.get(name, "data -")) for name in NAMES),
    ("ls /", " ".join(("names", "more", *(name for name in NAMES if name != "n4000")))),
    ("cat /more", "data 21"), ("put /n4000 -", "no dir-full"), ("append /n4000 22", "no no-entry"),
    ("append /n4095 22", "ok"), ("cat /n4095", "data 22"), ("df", "free 30"),
)
Rows = Sequence[Tuple[str, str]]


def again_results(program: Program, image: Path) -> Iterator[Result]:
    """Runs one after the other over a disk; the shell of the other kind finds no tree between them."""
    small, long, full = (8, 1, 32), (CLUSTERS + 200, 1, CLUSTERS), (4096 + 63, 8, 4096 + 62)
    empty = (("df", "free 5199"), ("ls /", "names -"))
    yield again_result(program, image, "inodes", small, INODE, (INODES, LEFT_BY_INODES))
    yield again_result(program, image, "chains", small, CHAIN, (CHAINS, LEFT_BY_CHAINS))
    yield again_result(program, image, f"a file of {CLUSTERS} clusters", long, CHAIN, (LONG, LONG_AGAIN, empty))
    yield again_result(program, image, "a directory of 4,096 names", full, CHAIN, (FULL, FULL_AGAIN))


def again_result(
    program: Program, image: Path, name: str, size: Tuple[int, int, int], kind: str, runs: Sequence[Rows]
) -> Result:
    """These runs over a disk of so many blocks, sectors and slots."""
    image.unlink(missing_ok=True)
    program.run([image, "format", *map(str, size), "1", SEED.hex()])
    cap, other = seed_caps(SEED)[0][1].hex(), CHAIN if kind == INODE else INODE
    for rows in runs:
        lines, answers = map(text_of, zip(*rows))
        run = program.run([image, "shell", kind, "0", cap, "near"], lines)
        if tuple(run) != (0, answers, b""):
            first = told(lines.splitlines(), answers.splitlines(keepends=True), run.out)
            return failed(f"opened again: {name}", f"status {run.status}, {run.error!r}, {shortened(first)}")
        rest = program.run([image, "shell", other, "0", cap, "near"], text_of(["ls /"]))
        if tuple(rest) != (0, b"no not-this-fs\n", b""):
            return failed(f"opened again: {name}", f"the shell of the other kind ends with {tuple(rest)}")
    return passed(f"opened again: {name}")


# --- stopped at each call ---

def stopped_results(context: Context, program: Program) -> Iterator[Result]:
    """The second `put` of a file, with a crash inside each call of the device."""
    image, opened = context.folder / "stopped.img", context.folder / "stopped_opened.img"
    try:
        recorder = Recorder(context.program, context.compiler or "cc", context.folder)
    except NoRecorder as no_recorder:
        yield skipped("a put that is stopped", str(no_recorder))
        return
    program.run([image, "fresh", "2048", "8", R, W, "near"], b"")
    shell = ["shell", INODE, "0", W, "near"]
    program.run([image, *shell], text_of(GROWN))
    medium = Medium(image.read_bytes())
    recording = recorder.run(image, shell, text_of(["put /docs/a 6869"]))
    old, new = bytes.fromhex(letters(20480)), bytes.fromhex("6869")
    stops = 0
    for number, progress in moments(medium, recording.events):
        for choices in ({}, {sector: last_write(medium, sector) for sector in medium.loose}):
            stops += 1
            found = file_of(medium.image(choices))
            allowed = [new] if progress.sent == 3 else [old, new]
            if found not in allowed:
                yield failed(f"stopped at call {number + 1}", f"the file has {found!r}"[:200])
        opened.write_bytes(medium.image({}))
        run = program.run([opened, *shell], text_of(["cat /docs/a", "df"]))
        answers = [text_of([f"data {old.hex()}", "free 2040"]), text_of(["data 6869", "free 2044"])]
        if run.out not in answers[int(progress.sent == 3):]:
            yield failed(f"opened after a stop at call {number + 1}", run.out[-40:].decode())
    yield passed(f"a put that is stopped: {stops} images")


# --- what asks cost ---

ASKS = 10
# Of the ring of the journal: its records, and the sectors in all of them together.
RECORDS, BODIES = 8, 113
# So many steps of reclamation an ask makes, in its own commit, before it takes blocks.
STEPS_BEFORE = 64


class Cost(NamedTuple):
    """Ten asks of one form, by their number, over a tree that these lines made, on blocks of so many sectors. By the
    documents each changes so many blocks and so many sectors of tables, and leaves so many steps of reclamation."""

    name: str
    kind: str
    sectors: int
    lines: Sequence[str]
    ask: str
    blocks: int
    tables: int
    steps: int

    def most_syncs(self) -> int:
        """A commit takes two syncs. A checkpoint takes three, and comes where the ring has no record or too few bodies
        left: so after so many commits, and in the end. The steps that the last ask leaves are a commit each.

        An ask is one commit. Where more steps are left than it makes before it takes blocks, those that it makes are
        one, and each of the others, the request that takes blocks, and what follows that: and it goes to the device
        with that request alone, with a checkpoint before it and one behind it."""
        between = min(RECORDS, BODIES // (self.sectors * self.blocks + self.tables))
        late = max(0, self.steps - STEPS_BEFORE)
        if late:
            return 2 * (ASKS * (3 + late) + self.steps) + 3 * (2 * ASKS + self.steps // between + 1)
        commits = ASKS + self.steps
        return 2 * commits + 3 * (commits // between + 1)


def long_file(kilobytes: int) -> List[str]:
    """An empty tree, and a file of so many KB."""
    return ["mkfs", "put /a -", *[f"append /a {letters(4096)}"] * (kilobytes // 4)]


def put_over(kind: str, sectors: int, blocks: int, steps: int) -> Cost:
    """A put of 4 KB in place of 4 KB."""
    ask = f"put /a {letters(4094)}{{number:04}}"
    return Cost(f"a put of 4 KB over an old file, blocks of {sectors}", kind, sectors,
                ["mkfs", f"put /a {letters(4096)}"], ask, blocks, 4, steps)


# By the documents ("How a change is made", "What a call costs"). Over inodes a put changes the inode of the directory,
# a new one and the new bytes; so does an append, whose last block is a new one. Over chains it changes the cluster of
# the entry and the new ones, and an append the last one alone. Of the tables a change has the bitmap, a sector of
# counts, and those of the slots of its pointers, which lie side by side: 64 in a sector.
# What goes is reclaimed by a step for each block, or for each 16 pointers from it: of an old file its inode and its
# blocks, or its clusters; of an old inode whose blocks are shared its pointers, and the last block, which isn't.
COSTS = (
    Cost("a put of 100 bytes", INODE, 1, ["mkfs"], f"put /f{{number}} {letters(100)}", 3, 3, 0),
    Cost("a put of 100 bytes", CHAIN, 1, ["mkfs"], f"put /f{{number}} {letters(100)}", 2, 3, 0),
    Cost("a put of 4 KB", INODE, 8, ["mkfs"], f"put /f{{number}} {letters(4096)}", 3, 3, 0),
    Cost("a put of 4 KB", CHAIN, 8, ["mkfs"], f"put /f{{number}} {letters(4096)}", 3, 3, 0),
    put_over(INODE, 8, 3, 2),
    put_over(CHAIN, 8, 3, 2),
    put_over(INODE, 1, 10, 9),
    put_over(CHAIN, 1, 10, 9),
    *(Cost(f"an append of a byte to {size} KB", INODE, 8, long_file(size), "append /a 61", 3, 3 + parts(size // 4, 64),
           parts(size // 4 + 1, 16) + 1) for size in (128, 256, 512)),
    *(Cost(f"an append of a byte to {size} KB", CHAIN, 8, long_file(size), "append /a 61", 1, 0, 0)
      for size in (128, 256, 512)),
    Cost("a new directory", INODE, 8, ["mkfs"], "mkdir /d{number}", 2, 3, 0),
    Cost("a copy", INODE, 8, ["mkfs", "put /a 61"], "cp /a /f{number}", 2, 3, 0),
)


def cost_results(context: Context, program: Program) -> Iterator[Result]:
    """How often asks sync."""
    try:
        recorder = Recorder(context.program, context.compiler or "cc", context.folder)
    except NoRecorder as no_recorder:
        yield skipped("what asks cost", str(no_recorder))
        return
    for cost in COSTS:
        yield cost_result(recorder, program, context.folder / "costs.img", cost)


def cost_result(recorder: Recorder, program: Program, image: Path, cost: Cost) -> Result:
    """At most so many syncs, beside those of a run that does nothing."""
    image.unlink(missing_ok=True)
    program.run([image, "fresh", "1024", str(cost.sectors), R, W, "near"], b"")
    shell = ["shell", cost.kind, "0", W, "near"]
    program.run([image, *shell], text_of(cost.lines))
    idle = sum(event.kind == SYNC for event in recorder.run(image, shell, b"").events)
    asks = [cost.ask.format(number=number) for number in range(ASKS)]
    recording = recorder.run(image, shell, text_of(asks))
    syncs = sum(event.kind == SYNC for event in recording.events) - idle
    most = cost.most_syncs()
    name = f"{cost.name} ({cost.kind}): {syncs / ASKS:g} syncs of {most / ASKS:g}"
    return compared(name, (text_of(OK * ASKS), True), (recording.out, syncs <= most))


# --- how often asks read ---

SECTOR = 512
# Of a disk of 64 blocks of one sector: the sectors of counts, bits and slots follow sector 133, then come the blocks.
FIRST_OF_BLOCKS = 134 + 1 + 1 + 4
# Blocks are taken from the lowest on: so file N has block N, and then every second block is free from 3 on. No block
# that is read lies behind the one that was read before it, so that nothing is read ahead, and each read is one call.
TAKEN = ["mkfs", *[f"put /g{number:02} -" for number in range(1, 15)]]
SCATTERED = [*TAKEN, *[f"rm /g{number:02}" for number in range(3, 14, 2)], f"put /a {letters(3 * 480)}", "put /b 62",
             "rm /g01"]
NAMES = "a b g02 g04 g06 g08 g10 g12 g14"


class Reading(NamedTuple):
    """Asks over a layout: with each its answer, and which blocks are read for it."""

    kind: str
    asks: Sequence[Tuple[str, str, Sequence[int]]]


# By the documents: over inodes mounting reads each inode once, by their names, and `ls` of nine names takes ten walks;
# each part of a file reads the way to its inode, that, and the blocks of the part. Over chains a pass over the
# directory has all its names, and one more has none; a file's clusters are read for its size, and for the part that it
# is. Either looks at the size of a file first. What mounting reads comes before the first answer: over chains the
# directory's one cluster three times and those of files twice, in an order that the documents don't tell.
FILES_OF_CHAINS = (2, 4, 6, 8, 10, 12, 14, 3, 5, 7, 9)
READINGS = (
    Reading(INODE, (
        ("df", "free 50", [0, 3, 11, 2, 4, 6, 8, 10, 12, 14]),
        ("cat /a", f"data {letters(1440)}", [0, 3, 0, 3, 5, 7, 9]),
        ("ls /", f"names {NAMES}", [0] * 10),
        ("cat /b", "data 62", [0, 11, 0, 11, 13]),
        ("cat /c", "no no-entry", [0]),
        ("df", "free 50", []),
    )),
    Reading(CHAIN, (
        ("cat /c", "no no-entry", sorted([0, *[0] * 3, *FILES_OF_CHAINS * 2])),
        ("cat /a", f"data {letters(1440)}", [0, 3, 5, 7, 0, 3, 5, 7]),
        ("ls /", f"names {NAMES}", [0] * 2),
        ("cat /b", "data 62", [0, 9, 0, 9]),
        ("cat /c", "no no-entry", [0]),
        ("df", "free 52", []),
    )),
)


def read_blocks(recording: Recording) -> List[List[int]]:
    """For each line that was sent, the blocks that were read since the one before."""
    blocks: List[List[int]] = [[]]
    for event in recording.events:
        if event.kind == READ and event.offset >= SECTOR * FIRST_OF_BLOCKS:
            blocks[-1].append(event.offset // SECTOR - FIRST_OF_BLOCKS)
        elif event.kind == PUT and event.data.endswith(b"\n"):
            blocks.append([])
    return blocks


def read_results(context: Context, program: Program) -> Iterator[Result]:
    """Which blocks asks read, each as often as the documents say."""
    try:
        recorder = Recorder(context.program, context.compiler or "cc", context.folder)
    except NoRecorder as no_recorder:
        yield skipped("which blocks asks read", str(no_recorder))
        return
    image = context.folder / "reads.img"
    for reading in READINGS:
        image.unlink(missing_ok=True)
        program.run([image, "fresh", "64", "1", R, W, "low"], b"")
        shell = ["shell", reading.kind, "0", W, "low"]
        program.run([image, *shell], text_of(SCATTERED))
        recording = recorder.run(image, shell, text_of([ask for ask, _, _ in reading.asks]))
        answers = text_of([answer for _, answer, _ in reading.asks])
        yield compared(f"what asks over blocks that lie apart answer ({reading.kind})", answers, recording.out)
        mounting, *others = read_blocks(recording)
        read = [sorted(mounting) if reading.kind == CHAIN else mounting, *others]
        wanted = [list(blocks) for _, _, blocks in reading.asks] + [[]]
        yield compared(f"which blocks asks read ({reading.kind})", wanted, read)


def last_write(medium: Medium, sector: int) -> Choice:
    """What a loose sector was last given."""
    return written(medium, sector, len(medium.loose[sector]) - 1)


def file_of(data: bytes) -> object:
    """The bytes of /docs/a in an image; what is wrong where there are none."""
    world = read_image(data)
    if isinstance(world, Fault):
        return world.line
    tree = read_tree(world, INODE, 0)
    found = None if tree is None else plain(tree)
    return found.get(b"docs", {}).get(b"a") if isinstance(found, dict) else found


def run(context: Context) -> Iterator[Result]:
    """All of it, where the program has a shell."""
    program = Program(context.program)
    image = context.folder / "rows.img"
    if program.run(["-", "shell", INODE, "0", W, "near"], b"").status == USAGE:
        yield skipped("worked sessions of the shell", "the program has no shell")
        return
    for session in SESSIONS:
        yield result_of(session, program, image)
    yield little_stack_result(program, image)
    yield from disk_results(program, image)
    yield from largest_results(program, image)
    for kind in (INODE, CHAIN):
        yield shared_result(program, image, kind)
    yield other_kind_result(program, image)
    yield from again_results(program, image)
    if context.compiler is None:
        yield skipped("a put that is stopped", "no C compiler was found")
    else:
        yield from stopped_results(context, program)
        yield from cost_results(context, program)
        yield from read_results(context, program)

"""The command `files`: the asks of the shell as frames, and the three that no line spells. Worked sessions over both
layouts, answer by answer; bodies that ask nothing, behind each of which stands one that is answered; frames that come
in pieces, and inputs that end inside one; the same asks as lines and as frames; and random asks over a real file.

What must be answered is written down here from docs/FILES.md, and nothing of it was made by the program.
"""

from __future__ import annotations

from pathlib import Path
from typing import Iterator, List, Sequence, Tuple

from file_drawing import FRAMES, LINES, WEIGHTS, FileDrawer, line_of
from file_model import FileModel
from file_rows import SCATTERED, USAGE, R, W, read_blocks, text_of
from file_text import CHAIN, INODE, Ask, ask_body, frame_of, name_field, path_field
from files import SEED, ShellCase, random_result, told
from parts import Context, Result, compared, failed, passed, skipped
from program import Program, Run
from recording import NoRecorder, Recorder

NAME = "file_frames"
TRUNCATED, DENIED = 9, 10
TRUNCATED_TEXT = b"tsd: input ends inside a frame\n"
CASES, SAME_CASES = 60, 20
SIZES = (1, 7)
BAD = "no bad-request"
MOST_DATA, MOST_NAME, MOST_NAMES = 4096, 28, 16
A, B, DOCS = (b"a",), (b"b",), (b"docs",)
LONG = bytes(at % 251 for at in range(MOST_DATA + 904))
LAST_START, LAST_COUNT = 2 ** 64 - 1, 2 ** 32 - 1
Rows = Sequence[Tuple[Ask, str]]


def data(text: bytes) -> str:
    """An answer that has these bytes."""
    return f"data {text.hex() or '-'}"


# Over 40 blocks of 512 bytes. A file of 5,000 bytes takes an inode and 10 blocks, one of 4,096 bytes 8.
INODES: Rows = (
    (Ask("size"), "no not-this-fs"), (Ask("read", A, count=1), "no not-this-fs"), (Ask("next"), "no not-this-fs"),
    (Ask("df"), "free 39"), (Ask("mkfs"), "ok"),
    (Ask("size"), "dir"), (Ask("next"), "names -"), (Ask("ls"), "names -"), (Ask("size", A), "no no-entry"),
    (Ask("put", A, LONG[:MOST_DATA]), "ok"), (Ask("append", A, LONG[MOST_DATA:]), "ok"), (Ask("df"), "free 28"),
    (Ask("size", A), "file 5000"), (Ask("cat", A), data(LONG)),
    (Ask("read", A, start=0, count=3), data(LONG[:3])), (Ask("read", A, start=0, count=0), "data -"),
    (Ask("read", A, start=510, count=4), data(LONG[510:514])),
    (Ask("read", A, start=0, count=LAST_COUNT), data(LONG[:MOST_DATA])),
    (Ask("read", A, start=1, count=MOST_DATA), data(LONG[1:MOST_DATA + 1])),
    (Ask("read", A, start=4090, count=MOST_DATA), data(LONG[4090:])),
    (Ask("read", A, start=4999, count=2), data(LONG[4999:])), (Ask("read", A, start=5000, count=1), "data -"),
    (Ask("read", A, start=LAST_START, count=LAST_COUNT), "data -"),
    (Ask("mkdir", DOCS), "ok"), (Ask("size", DOCS), "dir"), (Ask("read", DOCS, count=1), "no is-dir"),
    (Ask("read", (), count=1), "no is-dir"), (Ask("next", DOCS), "names -"),
    (Ask("cp", A, new_path=DOCS + B), "ok"), (Ask("size", DOCS + B), "file 5000"),
    (Ask("put", DOCS + A), "ok"), (Ask("size", DOCS + A), "file 0"), (Ask("read", DOCS + A, count=9), "data -"),
    (Ask("mkdir", DOCS + (b"B",)), "ok"), (Ask("ls", DOCS), "names B a b"),
    (Ask("next", DOCS), "next B dir"), (Ask("next", DOCS, after=b"B"), "next a file 0"),
    (Ask("next", DOCS, after=b"Z" * MOST_NAME), "next a file 0"), (Ask("next", DOCS, after=b"a"), "next b file 5000"),
    (Ask("next", DOCS, after=b"aa"), "next b file 5000"), (Ask("next", DOCS, after=b"b"), "names -"),
    (Ask("next", DOCS, after=b"z"), "names -"), (Ask("next", (), after=b"a"), "next docs dir"),
    (Ask("next", A), "no not-dir"), (Ask("next", A + B), "no not-dir"), (Ask("next", (b"c",)), "no no-entry"),
    (Ask("size", A + B), "no not-dir"), (Ask("read", A + B, count=1), "no not-dir"),
    (Ask("size", (b"c", b"d")), "no no-entry"), (Ask("read", (b"c",), count=1), "no no-entry"),
    (Ask("rm", DOCS), "no not-empty"), (Ask("rm", DOCS + A), "ok"),
    (Ask("next", DOCS, after=b"B"), "next b file 5000"),
    (Ask("put", (b"c",), bytes(MOST_DATA)), "ok"), (Ask("put", (b"d",), bytes(MOST_DATA)), "ok"),
    (Ask("df"), "free 7"), (Ask("put", (b"e",), bytes(MOST_DATA)), "no full 7 9"),
)
# A cluster has 496 bytes: a file of 5,000 bytes takes 11 of them.
CHAINS: Rows = (
    (Ask("size"), "no not-this-fs"), (Ask("next"), "no not-this-fs"), (Ask("mkdir", DOCS), BAD),
    (Ask("mkfs"), "ok"), (Ask("size"), "dir"), (Ask("next"), "names -"),
    (Ask("put", B, LONG[:MOST_DATA]), "ok"), (Ask("append", B, LONG[MOST_DATA:]), "ok"), (Ask("df"), "free 28"),
    (Ask("put", A), "ok"), (Ask("size", A), "file 0"), (Ask("size", B), "file 5000"), (Ask("cat", B), data(LONG)),
    (Ask("read", B, start=494, count=4), data(LONG[494:498])), (Ask("read", A, start=0, count=4), "data -"),
    (Ask("read", B, start=3, count=LAST_COUNT), data(LONG[3:MOST_DATA + 3])),
    (Ask("read", B, start=4990, count=MOST_DATA), data(LONG[4990:])), (Ask("read", B, start=5000, count=9), "data -"),
    (Ask("read", B, start=LAST_START, count=LAST_COUNT), "data -"), (Ask("ls"), "names a b"),
    (Ask("next"), "next a file 0"), (Ask("next", (), after=b"a"), "next b file 5000"),
    (Ask("next", (), after=b"a-"), "next b file 5000"), (Ask("next", (), after=b"b"), "names -"),
    (Ask("next", A), "no not-dir"), (Ask("next", DOCS), "no no-entry"), (Ask("size", DOCS), "no no-entry"),
    (Ask("size", A + B), "no not-dir"), (Ask("read", (), count=1), "no is-dir"),
    (Ask("mkdir", DOCS), BAD), (Ask("cp", A, new_path=DOCS), BAD), (Ask("rm", B), "ok"),
    (Ask("size", B), "no no-entry"), (Ask("next", (), after=b"a"), "names -"), (Ask("df"), "free 38"),
    (Ask("rm"), "no is-dir"),
)
WORKED = {INODE: INODES, CHAIN: CHAINS}


def no_asks(kind: str) -> List[bytes]:
    """Bodies that ask nothing: none, other codes, each ask cut short or gone on, names and paths that are none, and
    bytes of which there are too many."""
    whole = [
        Ask("mkfs"), Ask("cat", A), Ask("ls", DOCS + A), Ask("rm", A), Ask("df"), Ask("size", A),
        Ask("read", A, start=1, count=1), Ask("next", A, after=B[0]),
        *([Ask("mkdir", A), Ask("cp", A, new_path=B)] if kind == INODE else []),
    ]
    bodies = [b""] + [bytes([code]) + path_field(A) for code in (0, 10, 11, 15, 19, 20, 64, 128, 255)]
    for body in map(ask_body, whole):
        bodies += [body + b"\0", body + body] + [body[:end] for end in range(1, len(body))]
    bodies += [bytes([code]) for code in (2, 3)] + [bytes([code]) + path_field(A)[:-1] for code in (2, 3)]
    bodies += [ask_body(Ask(name, A, bytes(count))) for name in ("put", "append") for count in (4097, 5000, 65000)]
    for name in (b"", b".", b"..", b"-", b"/", b"a b", b"a\0", b"\xc3\xa4", b"x" * 29, b"x" * 255):
        bodies += [bytes([code]) + path_field((name,)) for code in (2, 3, 4, 5, 7, 16)]
        bodies += [b"\x11" + path_field((b"a", name)) + bytes(12)]
        bodies += [b"\x12\0" + name_field(name)] if name else []
    many = path_field(A * (MOST_NAMES + 1))
    bodies += [b"\4" + many, b"\x10" + many, b"\x12" + many + b"\0", b"\x11" + many + bytes(12)]
    bodies += [b"\4" + bytes([255]) + many[1:], b"\4\1\xffa", bytes(65535), b"\4" + bytes(65534)]
    if kind == CHAIN:
        bodies += [ask_body(Ask("mkdir", A)), ask_body(Ask("cp", A, new_path=B))]
    return bodies


class Disk:
    """Fresh disks of 40 blocks in a file, and runs of the command over them."""

    def __init__(self, program: Program, image: Path) -> None:
        self.program = program
        self.image = image

    def words(self, kind: str, command: str = "files") -> List[object]:
        """The words that open it."""
        return [self.image, command, kind, "0", W, "near"]

    def fresh(self) -> None:
        """A new disk."""
        self.image.unlink(missing_ok=True)
        self.program.run([self.image, "fresh", "40", "1", R, W, "near"], b"")

    def run(self, kind: str, text: bytes) -> Run:
        """This input, on a new disk."""
        self.fresh()
        return self.program.run(self.words(kind), text)


def input_of(bodies: Sequence[bytes]) -> bytes:
    """Bodies as an input."""
    return b"".join(map(frame_of, bodies))


def model_results() -> Iterator[Result]:
    """The model of tests/ against what is written down."""
    for kind, rows in WORKED.items():
        model = FileModel(kind, 512, 39, 0, 160)
        found = [model.answer_body(ask_body(ask)) for ask, _ in rows]
        yield compared(f"a worked session by frames ({kind}), by the model",
                       [text_of([answer]) for _, answer in rows], found)
        good = [body.hex()[:40] for body in no_asks(kind) if model.answer_body(body) != text_of([BAD])]
        yield compared(f"bodies that ask nothing ({kind}), by the model", [], good)


def worked_results(disk: Disk) -> Iterator[Result]:
    """The worked sessions, in one piece and in pieces; those of the lines among them also as lines."""
    for kind, rows in WORKED.items():
        bodies, answers = [ask_body(ask) for ask, _ in rows], text_of([answer for _, answer in rows])
        run = disk.run(kind, input_of(bodies))
        name = f"a worked session by frames ({kind})"
        if tuple(run) == (0, answers, b""):
            yield passed(name)
        else:
            said = told([repr(ask).encode() for ask, _ in rows], answers.splitlines(keepends=True), run.out)
            yield failed(name, f"status {run.status}, {run.error!r}, {said}"[:2000])
        for size in SIZES:
            disk.fresh()
            run = disk.program.run_in_pieces(disk.words(kind), input_of(bodies), [size])
            yield compared(f"{name}, in pieces of {size} bytes", (0, answers, b""), tuple(run))


def bad_results(disk: Disk) -> Iterator[Result]:
    """Each body that asks nothing, alone; all of them in one run, and in pieces."""
    good = ask_body(Ask("size"))
    for kind in (INODE, CHAIN):
        start, bodies = [ask_body(Ask("mkfs"))], no_asks(kind)
        everything = start + [each for body in bodies for each in (body, good)]
        answers = text_of(["ok", *[BAD, "dir"] * len(bodies)])
        run = disk.run(kind, input_of(everything))
        yield compared(f"{len(bodies)} bodies that ask nothing ({kind})", (0, answers, b""), tuple(run))
        if run.out == answers:
            continue
        for body in bodies:
            run = disk.run(kind, input_of([*start, body, good]))
            yield compared(f"a body of {len(body)} bytes, {body[:20].hex() or 'none'} ({kind})",
                           (0, text_of(["ok", BAD, "dir"]), b""), tuple(run))


def limit_results(disk: Disk) -> Iterator[Result]:
    """What is just short enough: names of 28 bytes, paths of 16 names, 4,096 bytes; all of them together."""
    name = b"x" * MOST_NAME
    deep = [(name,) * depth for depth in range(1, MOST_NAMES + 1)]
    rows = [(Ask("mkfs"), "ok"), *((Ask("mkdir", path), "ok") for path in deep[:-1]),
            (Ask("put", deep[-1], LONG[:MOST_DATA]), "ok"), (Ask("size", deep[-1]), f"file {MOST_DATA}"),
            (Ask("read", deep[-1], start=4000, count=MOST_DATA), data(LONG[4000:MOST_DATA])),
            (Ask("next", deep[-2]), f"next {name.decode()} file {MOST_DATA}"),
            (Ask("next", deep[-2], after=name), "names -"), (Ask("size", deep[-2]), "dir")]
    run = disk.run(INODE, input_of([ask_body(ask) for ask, _ in rows]))
    yield compared("the longest names, paths and bytes", (0, text_of([answer for _, answer in rows]), b""), tuple(run))
    run = disk.program.run(disk.words(INODE, "shell"), line_of(Ask("cat", deep[-1])))
    yield compared("a path of 16 names, by the shell", (0, text_of([data(LONG[:MOST_DATA])]), b""), tuple(run))


def end_results(disk: Disk) -> Iterator[Result]:
    """Inputs that end inside a frame: that frame asks nothing, and every whole one before it was answered."""
    first = input_of([ask_body(Ask("mkfs")), ask_body(Ask("put", A, b"hi"))])
    for kind in (INODE, CHAIN):
        for rest in (b"\1", b"\0", b"\1\0", b"\5\0\4", frame_of(ask_body(Ask("rm", A)))[:-1], b"\xff\xff",
                     b"\xff\xff" + bytes(65534)):
            run = disk.run(kind, first + rest)
            again = disk.program.run(disk.words(kind), input_of([ask_body(Ask("cat", A))]))
            right = ((TRUNCATED, b"ok\nok\n", TRUNCATED_TEXT), (0, b"data 6869\n", b""))
            yield compared(f"an input that ends in {len(rest)} bytes of a frame, {rest[:6].hex()} ({kind})", right,
                           (tuple(run), tuple(again)))
        yield compared(f"an input of no frame ({kind})", (0, b"", b""), tuple(disk.run(kind, b"")))
        yield compared(f"a frame of no bytes ({kind})", (0, text_of([BAD]), b""), tuple(disk.run(kind, b"\0\0")))


def denied_results(disk: Disk) -> Iterator[Result]:
    """Roots that aren't primary, and capabilities that attain less than write; and a mount that is refused."""
    disk.fresh()
    for root, cap, level in (("0", R, "read"), ("0", "cc" * 16, "none"), ("1", W, "none")):
        run = disk.program.run([disk.image, "files", INODE, root, cap, "near"], input_of([ask_body(Ask("mkfs"))]))
        expected = (DENIED, b"", f"tsd: root denied, {level} attained\n".encode())
        yield compared(f"root {root} by {cap[:2]}: {level} attained", expected, tuple(run))
    disk.program.run(disk.words(INODE), input_of([ask_body(ask) for ask in (Ask("mkfs"), Ask("put", A, b"hi"))]))
    before = disk.image.read_bytes()
    looks = [Ask("size"), Ask("next"), Ask("read", A, count=1), Ask("rm", A), Ask("df")]
    run = disk.program.run(disk.words(CHAIN), input_of([ask_body(ask) for ask in looks]))
    right = (0, b"no not-this-fs\n" * 4 + b"free 37\n", b"")
    yield compared("a tree of the other kind, which stays", (right, True),
                   (tuple(run), disk.image.read_bytes() == before))


# By the documents ("Asks as frames"), over the blocks of `file_rows`: what `size` and `read` read is the way and, over
# inodes, the inode and the blocks of a part from START on, over chains the clusters up to the end of the file or of the
# part. `next` reads what the first name of `ls` takes, and what a `size` does. Mounting reads before the first answer.
READINGS = {
    INODE: ((Ask("size", A), [0, 3]), (Ask("read", A, count=1), [0, 3, 5, 7, 9]),
            (Ask("read", A, start=600, count=1), [0, 3, 7, 9]), (Ask("read", A, start=1439, count=9), [0, 3, 9]),
            (Ask("size", (b"c",)), [0]), (Ask("next"), [0, 0, 3]), (Ask("next", (), after=b"z"), [0]), (Ask("df"), [])),
    CHAIN: ((Ask("size", A), [0, 3, 5, 7]), (Ask("read", A, count=1), [0, 3, 5, 7]), (Ask("size", B), [0, 9]),
            (Ask("read", B, count=1), [0, 9]), (Ask("size", (b"c",)), [0]), (Ask("next"), [0, 0, 3, 5, 7]),
            (Ask("next", (), after=b"z"), [0]), (Ask("df"), [])),
}


def read_results(context: Context, program: Program) -> Iterator[Result]:
    """Which blocks the asks read that only look, each as often as the documents say."""
    try:
        recorder = Recorder(context.program, context.compiler or "cc", context.folder)
    except NoRecorder as no_recorder:
        yield skipped("which blocks looks read", str(no_recorder))
        return
    image = context.folder / "reads.img"
    for kind, rows in READINGS.items():
        image.unlink(missing_ok=True)
        program.run([image, "fresh", "64", "1", R, W, "low"])
        program.run([image, "shell", kind, "0", W, "low"], text_of(SCATTERED))
        asks = [Ask("df"), *(ask for ask, _ in rows)]
        recording = recorder.run(image, ["files", kind, "0", W, "low"], input_of([ask_body(ask) for ask in asks]))
        wanted = [list(blocks) for _, blocks in rows] + [[]]
        yield compared(f"which blocks looks read ({kind})", wanted, read_blocks(recording)[1:])


def same_result(number: int, context: Context, program: Program) -> Result:
    """The same asks as lines and as frames: the same answers, and the same image."""
    rng = context.random(f"lines and frames {number}")
    case = ShellCase(rng)
    drawer, asks = FileDrawer(rng, case.model()), []
    for _ in range(80):
        asks.append(drawer.ask(WEIGHTS))
        drawer.model.carry_out(asks[-1] if case.kind == INODE or asks[-1].name not in ("mkdir", "cp") else None)
    found = []
    for way in (LINES, FRAMES):
        image = context.folder / f"{way.command}.img"
        image.unlink(missing_ok=True)
        program.run([image, *case.words()])
        run = program.run([image, *case.shell("near", way)], b"".join(way.sent(way.spelled(ask)) for ask in asks))
        found.append((tuple(run), image.read_bytes()))
    name = f"the same asks as lines and as frames: {number} of seed {context.seed} ({case.kind})"
    if found[0][0] != found[1][0]:
        return compared(name, found[0][0], found[1][0])
    return passed(name) if found[0] == found[1] else failed(name, "the images aren't the same")


def run(context: Context) -> Iterator[Result]:
    """The model's results, and the program's where it has the command."""
    yield from model_results()
    program = Program(context.program)
    disk = Disk(program, context.folder / "frames.img")
    if program.run(["-", "files", INODE, "0", W, "near"]).status == USAGE:
        yield skipped("the command files", "the program has none")
        return
    yield from worked_results(disk)
    yield from bad_results(disk)
    yield from limit_results(disk)
    yield from end_results(disk)
    yield from denied_results(disk)
    if context.compiler is None:
        yield skipped("which blocks looks read", "no C compiler was found")
    else:
        yield from read_results(context, program)
    for number in range(SAME_CASES):
        yield same_result(number, context, program)
    for number in range(CASES):
        yield random_result(number, context, program, FRAMES)

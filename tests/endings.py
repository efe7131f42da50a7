"""Each way in which a run ends: its status, and its text on standard error, by README ("Commands and statuses") and
docs/FORMAT.md ("Words and statuses"); and that a reply is sent before more input is taken."""

from __future__ import annotations

import os
import resource
import signal
import subprocess
import threading
from pathlib import Path
from typing import Callable, Iterator, List, Sequence, Union

from disk_model import Disk, parse_line, reply_line
from image_reader import read_image
from parts import Context, Result, compared, failed, passed, skipped
from program import MOST_SECONDS, Program, Run, write_image

R, W = "aa" * 16, "bb" * 16
SEED = "00" * 32
FRESH = ["fresh", "8", "1", R, W, "near"]
OPENING: Sequence[List[str]] = (["run", "near"], ["serve", "near"], ["check"], ["load", SEED, "1", "near"], ["upgrade"],
                                   ["audit"], ["verify"], ["files", "inode", "0", W, "near"],
                                   ["copyfs", "inode", "0", W, "chain", "0", W, "near"])
# These take frames; of those of either `\7` is no more than a code.
FRAMED = ("serve", "files")
FULL = Path("/dev/full")
# Enough for the program and its libraries, and too little for the tables of the largest disk.
LITTLE_MEMORY = 64 * 2**20
# A program that was built with this checker takes far more room than it is given.
SANITIZER = b"__asan_init"

Word = Union[str, bytes]

USAGES: Sequence[List[Word]] = (
    ["run"], ["run", "nearest"], ["run", "Near"], ["run", ""], ["run", "near", "x"], ["serve"], ["serve", "1"],
    ["check", "x"], ["Check"], ["check "], ["upgrade", "2"], ["audit", "1"], ["verify", "-"], ["open"], [""],
    ["run near"], [b"\xff"], ["run", b"\xff"],
    ["fresh", "7", "1", R, W, "near"], ["fresh", "1048577", "1", R, W, "near"], ["fresh", "8", "0", R, W, "near"],
    ["fresh", "8", "3", R, W, "near"], ["fresh", "8", "16", R, W, "near"], ["fresh", "+8", "1", R, W, "near"],
    ["fresh", "00000000008", "1", R, W, "near"], ["fresh", "4294967304", "1", R, W, "near"],
    ["fresh", "8", "1", R[1:], W, "near"], ["fresh", "8", "1", R + "a", W, "near"], ["fresh", "8", "1", "-", W, "near"],
    ["fresh", "8", "1", R, W[:-1] + "g", "near"], ["fresh", "8", "1", R, W, "far"], ["fresh", "8", "1", R, W],
    ["fresh", "8", "1", R, W, "near", "near"], ["format", "8", "1", "32", "1"], ["format", "8", "1", "0", "1", SEED],
    ["format", "8", "1", "4194305", "1", SEED], ["format", "8", "1", "32", "0", SEED],
    ["format", "64", "1", "32", "17", SEED], ["format", "8", "1", "32", "8", SEED],
    ["format", "7", "1", "32", "1", SEED], ["format", "8", "5", "32", "1", SEED],
    ["format", "8", "1", "32", "1", SEED[1:]],
    ["format", "8", "1", "32", "1", SEED + "0"], ["format", "8", "1", "32", "1", "-"],
    ["format", "8", "1", "32", "1", SEED, "x"], ["load", SEED, "0", "near"], ["load", SEED, "200001", "near"],
    ["load", SEED, "-", "near"], ["load", SEED, "1"], ["load", SEED[2:], "1", "near"], ["load", SEED, "1", "nowhere"],
    ["files"], ["files", "near"], ["files", "inode", "0", W], ["files", "inodes", "0", W, "near"],
    ["files", "inode", "4294967296", W, "near"], ["files", "chain", "0", W[1:], "near"],
    ["files", "chain", "0", W, "far"], ["files", "chain", "0", W, "near", "near"], ["Files", "chain", "0", W, "near"],
    ["copyfs"], ["copyfs", "inode", "0", W, "near"], ["copyfs", "inode", "0", W, "chain", "1", W],
    ["copyfs", "inode", "0", W, "chain", "1", W, "far"], ["copyfs", "inode", "0", W, "chains", "1", W, "near"],
    ["copyfs", "inode", "4294967296", W, "chain", "1", W, "near"], ["copyfs", "inode", "0", W, "chain", "", W, "near"],
    ["copyfs", "inode", "0", "-", "chain", "1", W, "near"], ["copyfs", "inode", "0", W, "chain", "1", W[1:], "near"],
    ["copyfs", "inode", "0", W, "chain", "1", W, "near", "near"], ["CopyFs", "inode", "0", W, "chain", "1", W, "near"],
)


def is_checked(program: Program) -> bool:
    """Whether the program was built with a checker of memory."""
    return SANITIZER in program.path.read_bytes()


def first_line(run: Run) -> bytes:
    """The status's line; another one may stand behind it."""
    return run.error.partition(b"\n")[0]


def ends(name: str, status: int, text: str, run: Run, out: bytes = b"") -> Result:
    """A run with this status, the text's line on standard error, and this output."""
    return compared(name, (status, out, text.encode()), (run.status, run.out, first_line(run)))


def usage_results(context: Context, program: Program) -> Iterator[Result]:
    """Words that are no command; the image isn't made."""
    image = context.folder / "usage.img"
    yield ends("no words", 2, "tsd: usage", program.run([]))
    yield ends("an image alone", 2, "tsd: usage", program.run([image]))
    for words in USAGES:
        run = program.run([image, *words], b"open 1\n")
        found = ends(f"words {words}", 2, "tsd: usage", run)
        yield failed(found.name, "the image was made") if image.exists() else found
    words = ["fresh", "0000000008", "01", R.upper(), W, "zone"]
    yield ends("numbers with zeros before them", 0, "", program.run([image, *words], b"open 1\n"), b"ok\n")


def image_results(context: Context, program: Program) -> Iterator[Result]:
    """Files that are no images; the tables of damaged images have the rest."""
    text = "tsd: not an image: not-formatted"
    files = {"an empty file": b"", "a file of zeros": bytes(100000), "a text": b"hello\n" * 1000}
    for name, content in files.items():
        image = context.folder / "other.img"
        write_image(image, content)
        for words in OPENING:
            out = b"not-formatted\n" if words == ["check"] else b""
            found = ends(f"{name}: {words[0]}", 3, text, program.run([image, *words]), out)
            yield found if image.read_bytes() == content else failed(found.name, "the file was changed")
    yield ends("the disk in memory that nobody made", 3, text, program.run(["-", "run", "near"]))


def device_results(context: Context, program: Program) -> Iterator[Result]:
    """Files that can't be opened; a second line says why."""
    missing = context.folder / "missing.img"
    paths = {"a missing file": missing, "a folder": context.folder, "a missing folder": context.folder / "no" / "x"}
    for name, path in paths.items():
        for words in OPENING:
            run = program.run([path, *words])
            found = ends(f"{name}: {words[0]}", 4, "tsd: device fault", run)
            if not found.text and len(run.error.splitlines()) < 2:
                found = failed(found.name, "no second line says why")
            yield found
    yield compared("a missing file isn't made by a command that opens it", False, missing.exists())
    for words in (FRESH, ["format", "8", "1", "32", "1", SEED]):
        run = program.run([context.folder / "no" / "x", *words])
        yield ends(f"a missing folder: {words[0]}", 4, "tsd: device fault", run)
    yield small_file_result(context, program)


def no_larger(size: int) -> Callable[[], None]:
    """For a child: no file may become larger than this."""

    def limit() -> None:
        signal.signal(signal.SIGXFSZ, signal.SIG_IGN)
        resource.setrlimit(resource.RLIMIT_FSIZE, (size, size))

    return limit


def small_file_result(context: Context, program: Program) -> Result:
    """A file that may not grow: writes past its end fail in mid-run, and each answer that was sent holds."""
    name = "a file that may not grow"
    image = context.folder / "small.img"
    program.run([image, "fresh", "64", "1", R, W, "low"])
    lines = [b"open 1"] + [b"alloc 1 0 %s - 1" % W.encode() for _ in range(60)]
    size = image.stat().st_size + 10 * 512
    run = program.run([image, "run", "low"], b"\n".join(lines), no_larger(size))
    ended = ends(name, 4, "tsd: device fault", run, run.out)
    if ended.text:
        return ended
    disk = Disk.fresh(64, 1, bytes.fromhex(R), bytes.fromhex(W), "low")
    answered = run.out.count(b"\n")
    replies = b"".join(reply_line(disk.apply(parse_line(line))) for line in lines[:answered])
    worlds = [disk.world()]
    if answered < len(lines):
        disk.apply(parse_line(lines[answered]))
        worlds.append(disk.world())
    if replies != run.out or read_image(image.read_bytes()) not in worlds:
        return failed(name, f"{answered} answers were sent, and the image doesn't hold what they tell")
    return passed(name)


def port_results(context: Context, program: Program) -> Iterator[Result]:
    """An input that can't be read, and an output that can't be written."""
    image = context.folder / "port.img"
    program.run([image, *FRESH])
    for words in (["run", "near"], ["serve", "near"], FRESH):
        opened = os.open(context.folder, os.O_RDONLY)
        run = started(program, [image, *words], opened)
        os.close(opened)
        yield ends(f"a folder as the input: {words[0]}", 5, "tsd: input fault", run)
    if not FULL.exists():
        yield skipped("an output that is full", "there is no /dev/full")
        return
    alone = (["--help"], ["--version"], ["help"])
    for words in (*OPENING, FRESH, ["format", "8", "1", "32", "1", SEED], *alone):
        with FULL.open("wb") as full:
            given = words if words in alone else [image, *words]
            run = started(program, given, subprocess.PIPE, full.fileno())
        yield ends(f"an output that is full: {words[0]}", 6, "tsd: output fault", run)
    yield closed_pipe_result(image, program)


def started(program: Program, words: Sequence[object], source: int, sink: int = subprocess.PIPE) -> Run:
    """A run whose input or output is a descriptor; where the input is none, it is one request."""
    text = None if source != subprocess.PIPE else b"\1\0\7" if words[1:] and words[1] in FRAMED else b"open 1\n"
    with subprocess.Popen([str(program.path), *map(str, words)], stdin=source, stdout=sink,
                          stderr=subprocess.PIPE) as child:
        out, error = child.communicate(text, timeout=MOST_SECONDS)
        return Run(child.returncode, out or b"", error)


def closed_pipe_result(image: Path, program: Program) -> Result:
    """A pipe that nobody reads any more."""
    reading, writing = os.pipe()
    os.close(reading)
    run = started(program, [image, "run", "near"], subprocess.PIPE, writing)
    os.close(writing)
    return ends("an output that nobody reads", 6, "tsd: output fault", run)


def memory_results(context: Context, program: Program) -> Iterator[Result]:
    """The largest disk in too little memory: no request is carried out, and the image stays as it is."""
    name = "the largest disk in 64 MB"
    if is_checked(program):
        yield skipped(name, "this program was built with a checker of memory")
        return
    image = context.folder / "memory.img"
    run = program.run([image, "format", "1048576", "8", "4194304", "16", SEED], before=little_memory)
    yield compared(f"{name}: format", (0, 16, b""), (run.status, run.out.count(b"\n"), run.error))
    before = image.read_bytes()
    for words in OPENING:
        run = program.run([image, *words], b"open 1\n", little_memory)
        found = ends(f"{name}: {words[0]}", 8, "tsd: no memory", run)
        yield found if image.read_bytes() == before else failed(found.name, "the image was changed")
    yield compared("the largest disk: check", (0, b"clean 16 1048560 0\n", b""), tuple(program.run([image, "check"])))
    image.unlink()


def little_memory() -> None:
    """For a child: it gets no more memory than this."""
    resource.setrlimit(resource.RLIMIT_AS, (LITTLE_MEMORY, LITTLE_MEMORY))


def turn_result(context: Context, program: Program) -> Result:
    """A client that waits for each answer before it sends the next request is served."""
    exchange = [(b"open 1\n", b"ok\n"), (b"free\n", b"free 7\n"), (b"nothing\n", b"no bad-request\n"),
                (f"alloc 1 0 {W} - 2\n".encode(), b"blocks 1 2\n"), (b"read 1 2 -\n", b"data -\n")]
    found = []
    with subprocess.Popen([str(program.path), str(context.folder / "turns.img"), *FRESH], stdin=subprocess.PIPE,
                          stdout=subprocess.PIPE, bufsize=0) as child:
        assert child.stdin is not None and child.stdout is not None
        late = threading.Timer(MOST_SECONDS, child.kill)
        late.start()
        for request, _ in exchange:
            child.stdin.write(request)
            found.append(child.stdout.readline())
        child.stdin.close()
        found.append(child.stdout.read())
        late.cancel()
    return compared("a client that waits for each answer", [reply for _, reply in exchange] + [b""], found)


def word_results(program: Program) -> Iterator[Result]:
    """The words that need no image."""
    for words, begins in (("--help", b"tsd: "), ("--version", b"tsd "), ("help run", b"tsd IMAGE run PLACE\n")):
        run = program.run(words.split())
        yield compared(words, (0, True, b""), (run.status, run.out.startswith(begins), run.error))


def results(context: Context, program: Program) -> Iterator[Result]:
    """A result for each ending."""
    yield from usage_results(context, program)
    yield from image_results(context, program)
    yield from device_results(context, program)
    yield from port_results(context, program)
    yield from memory_results(context, program)
    yield turn_result(context, program)
    yield from word_results(program)
    yield skipped("status 7", "it takes an input of more than 2^40 bytes")

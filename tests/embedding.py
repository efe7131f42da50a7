"""The disk in a program's own process: the library libtsd.a and the files in clients/embed, compiled without a warning.

The cases of clients/cases.txt over it, in one call, a call for each request, and as one batch; the same images and
replies as the program makes; what is refused; who has the image meanwhile; a host killed in mid-run a hundred times;
crashes at each moment of a host (embedded_crashes); each sync failing; the example of the client for Rust, and the
tests of Python's (python/tests/test_embedded.py); and, where the tools are there, all in C under valgrind and the
address sanitizer."""

from __future__ import annotations

import os
import re
import shutil
import signal
import subprocess
import time
from pathlib import Path
from typing import Iterator, List, NamedTuple, Tuple

import clients
import embedded_crashes
from c_client import WORKED
from case_table import SEED, Table, make_disk, read_table, written_out
from disk_requests import cut_frames, frame, parse_line, parse_reply_body, reply_line, request_body
from parts import Context, Result, compared, failed, passed, skipped

NAME = "embedding"
FLAGS = ("-std=c11", "-Wall", "-Wextra", "-pedantic", "-g", "-pthread")
SIZE = ["16", "1", "64", "1"]
KILLS = 100
MOST_SYNCS = 40
MOST_SECONDS = 300
DONE = "done, done\n"
REFUSED = """no disk: a pointer is NULL
no frames: a pointer is NULL
no room: a pointer is NULL
nowhere to tell: a pointer is NULL
one memory: two memories overlap
too short: too little room for the replies
a part of a frame: not whole frames
a byte: not whole frames
a second opening: the image is in use
no path: a pointer is NULL
untouched: 1
a child: opened by another process
a child's closing: opened by another process
a second thread: another thread is inside a call
then: done
answered: 7
closing, while a child lives: done
nothing: done
"""


class Host(NamedTuple):
    """The compiled host, and the words before it."""

    context: Context
    path: Path
    before: List[str]
    name: str

    def run(self, *words: object, given: bytes = b"") -> Tuple[bytes, str]:
        """What it puts out, and what it says."""
        command = [*self.before, str(self.path), *map(str, words)]
        done = subprocess.run(command, input=given, capture_output=True, timeout=MOST_SECONDS)
        return done.stdout, done.stderr.decode()


def library(context: Context) -> str:
    """Where the library of these sources is, or nothing."""
    words = [str(context.top / "tools/embed"), "--no-build"]
    return subprocess.run(words, capture_output=True, text=True, timeout=MOST_SECONDS).stdout.strip()


def build(context: Context, archive: str, name: str, *options: str) -> str:
    """Compiles the host; what the compiler says."""
    folder = context.top / "clients/embed"
    sources = [str(folder / "tests/run_embed.c"), str(folder / "tsd_embed.c"), archive]
    command = [str(context.compiler), *FLAGS, *options, "-o", str(context.folder / name), *sources]
    done = subprocess.run(command, capture_output=True, text=True, timeout=MOST_SECONDS)
    return done.stderr + (f"status {done.returncode}" if done.returncode else "")


def frames_of(steps: List[Tuple[str, str]], caps: List[str]) -> bytes:
    """The requests of a case as frames."""
    found = b""
    for request, _ in steps:
        parsed = parse_line(written_out(request, caps).encode())
        found += frame(b"" if parsed is None else request_body(parsed))
    return found


def lines_of(replies: bytes) -> List[str]:
    """Reply frames as lines."""
    bodies, rest = cut_frames(replies)
    found = [parse_reply_body(body) for body in bodies]
    lines = ["no reply" if one is None else reply_line(one).decode().strip() for one in found]
    return lines + (["part of a frame"] if rest else [])


def shortened_data(line: str) -> str:
    """A line of bytes as the table has it: BYTE*COUNT where more than 16 are all the same."""
    match = re.fullmatch(r"data (([0-9a-f]{2})\2{16,})", line)
    return f"data {match[2]}*{len(match[1]) // 2}" if match else line


def tried_cases(host: Host, table: Table) -> Iterator[Result]:
    """Each case in three ways; and in each the image is the one that the program makes of the same frames."""
    context, image, other = host.context, host.context.folder / "disk.img", host.context.folder / "other.img"
    for case in table.cases:
        expected = [reply for _, reply in case.steps]
        for way in ("apply", "each", "batch"):
            label = f"{host.name}{case.name}, {way}"
            caps = make_disk(context.program, image, case.size)
            frames = frames_of(case.steps, caps)
            replies, said = host.run(way, image, given=frames)
            yield compared(label, (expected, DONE), ([shortened_data(line) for line in lines_of(replies)], said))
            if host.before:
                continue
            make_disk(context.program, other, case.size)
            command = [str(context.program), str(other), "group" if way == "batch" else "serve", "near"]
            ran = subprocess.run(command, input=frames, capture_output=True, timeout=MOST_SECONDS)
            yield compared(f"{label}, by the program", ran.stdout, replies)
            yield compared(f"{label}, both images", told(context, other), told(context, image))


def told(context: Context, image: Path) -> str:
    """What the program tells of an image: what `check` says, and each byte of the tables and blocks."""
    command = [str(context.program), str(image), "check"]
    done = subprocess.run(command, capture_output=True, text=True, timeout=MOST_SECONDS)
    info = subprocess.run([*command[:2], "audit"], capture_output=True, text=True, timeout=MOST_SECONDS)
    return f"{done.returncode} {done.stdout}{info.stdout}"


def tried_format(host: Host) -> Iterator[Result]:
    """A disk made by the library is the one that the program makes, and it is made over nothing else."""
    context, image, other = host.context, host.context.folder / "made.img", host.context.folder / "by-program.img"
    for size in (SIZE, ["64", "8", "256", "2"], ["8", "1", "1", "7"]):
        image.unlink(missing_ok=True)
        lines, said = host.run("format", image, *size)
        other.unlink(missing_ok=True)
        command = [str(context.program), str(other), "format", *size, SEED.hex()]
        done = subprocess.run(command, capture_output=True, timeout=MOST_SECONDS)
        label = f"{host.name}a disk of {' '.join(size)} is made"
        yield compared(label, (done.stdout, "done\n"), (lines, said))
        found = image.read_bytes()
        yield compared(f"{label}, the same", other.read_bytes().ljust(len(found), b"\0"), found)
        yield compared(f"{label}, for its owner alone", 0o600, image.stat().st_mode & 0o777)
    yield compared(f"{host.name}nothing is overwritten", (b"", "the file isn't empty\n"),
                   host.run("format", image, *SIZE))
    image.unlink()
    yield compared(f"{host.name}no disk of 7 blocks", (b"", "no disk has this size\n"),
                   host.run("format", image, "7", *SIZE[1:]))
    yield compared(f"{host.name}no file is made for it", False, image.exists())


def tried_refusals(host: Host) -> Iterator[Result]:
    """What is refused, and that two have no image at a time."""
    context, image = host.context, host.context.folder / "disk.img"
    make_disk(context.program, image, SIZE)
    found, said = host.run("refused", image)
    yield compared(f"{host.name}what is refused", (REFUSED, ""), (found.decode(), said))
    if host.before:
        return
    missing = context.folder / "missing.img"
    yield compared("no file", (b"", "open: a call of the system failed: No such file or directory\n"),
                   host.run("apply", missing))
    missing.write_bytes(b"x" * 8192)
    yield compared("no image", (b"", "open: not an image of a disk\n"), host.run("apply", missing))
    yield compared("no image is as it was", b"x" * 8192, missing.read_bytes())
    program = subprocess.Popen([str(context.program), str(image), "serve", "near"], stdin=subprocess.PIPE,
                               stdout=subprocess.PIPE)
    assert program.stdin and program.stdout
    program.stdin.write(frame(bytes([7])))
    program.stdin.flush()
    program.stdout.read(7)
    yield compared("the program has the image", (b"", "open: the image is in use\n"), host.run("apply", image))
    program.communicate()
    with held(host, image, make_disk(context.program, context.folder / "like.img", SIZE)[1]) as _:
        done = subprocess.run([str(context.program), str(image), "check"], capture_output=True, text=True,
                              timeout=MOST_SECONDS)
        yield compared("the library has the image", (4, True), (done.returncode, "in use" in done.stderr))


class held:  # noqa: N801, it reads as a statement does
    """A host that writes until it is killed."""

    def __init__(self, host: Host, image: Path, cap: str, few: int = 1) -> None:
        self.command = [str(host.path), "counts", str(image), cap, str(few)]

    def __enter__(self) -> subprocess.Popen:
        self.process = subprocess.Popen(self.command, stdout=subprocess.PIPE)
        assert self.process.stdout
        self.first = self.process.stdout.readline()
        return self.process

    def __exit__(self, *_: object) -> None:
        self.process.kill()
        self.process.communicate()


def tried_kills(host: Host) -> Iterator[Result]:
    """A host killed in mid-run: the image is clean, and holds each answered write and at most a call's more."""
    context, image, numbers = host.context, host.context.folder / "killed.img", host.context.random("embedding")
    cap = make_disk(context.program, image, SIZE)
    read = b"open 1\nread 1 0 " + cap[0].encode() + b"\n"
    for few in (1, 8):
        lost, unclean, late = [], [], []
        for kill in range(KILLS // 2):
            with held(host, image, cap[1], few) as process:
                time.sleep(numbers.uniform(0.0, 0.02))
                process.send_signal(signal.SIGKILL)
                assert process.stdout
                lines = [line for line in process.stdout.read().splitlines() if line.isdigit()]
            answered = int(lines[-1]) if lines else 0
            check = subprocess.run([str(context.program), str(image), "check"], capture_output=True, text=True,
                                   timeout=MOST_SECONDS)
            if check.returncode != 0:
                unclean.append((kill, check.stdout + check.stderr))
            ran = subprocess.run([str(context.program), str(image), "run", "near"], input=read, capture_output=True,
                                 timeout=MOST_SECONDS)
            words = ran.stdout.split()[-1]
            found = int.from_bytes(bytes.fromhex(words.decode()), "little") if words != b"-" else 0
            if found < answered:
                lost.append((kill, answered, found))
            if found > max(answered, few) + few:
                late.append((kill, answered, found))
        name = f"{host.name}{KILLS // 2} kills of a host that writes {few} in a call"
        yield passed(name) if not (lost or unclean or late) else failed(name, f"{lost} {unclean} {late}")


def tried_signals(host: Host) -> Iterator[Result]:
    """Signals in mid-call, whose handler ends each wait and calls the disk: each write is answered and stays."""
    context, image, count = host.context, host.context.folder / "signals.img", 2000
    cap = make_disk(context.program, image, SIZE)
    found, said = host.run("signals", image, cap[1], count)
    wanted = f"closed: done\nwritten: {count}\nrefused to a handler: many\n"
    yield compared(f"{host.name}signals during calls", (wanted, ""), (found.decode(), said))
    read = b"open 1\nread 1 0 " + cap[0].encode() + b"\n"
    ran = subprocess.run([str(context.program), str(image), "run", "near"], input=read, capture_output=True,
                         timeout=MOST_SECONDS)
    yield compared(f"{host.name}the last write between signals stays", count - 1,
                   int.from_bytes(bytes.fromhex(ran.stdout.split()[-1].decode()), "little"))


def tried_failures(context: Context, archive: str, table: Table) -> Iterator[Result]:
    """Each sync failing in turn, and all after it: the host is told, has the replies to the requests before, and the
    image is clean."""
    wrapped = str(context.top / "clients/embed/tests/failing_syncs.c")
    said = build(context, archive, "failing", "-O1", "-Wl,--wrap=msync", wrapped)
    yield compared("compiled with syncs that fail", "", said)
    case = max(table.cases, key=lambda one: sum("write" in step for step, _ in one.steps))
    image = context.folder / "failing.img"
    for way in ("apply", "each", "batch"):
        whole, wrong, failures = b"", [], 0
        for syncs in [MOST_SYNCS * 100, *range(MOST_SYNCS)]:
            frames = frames_of(case.steps, make_disk(context.program, image, case.size))
            host = Host(context, context.folder / "failing", ["env", f"SYNCS={syncs}"], "")
            replies, told_by = host.run(way, image, given=frames)
            whole = whole or replies
            has_failed = "a sync of the image failed" in told_by
            failures += has_failed
            check = subprocess.run([str(context.program), str(image), "check"], capture_output=True, text=True,
                                   timeout=MOST_SECONDS)
            is_whole = (replies, told_by) == (whole, DONE)
            if not (check.returncode == 0 and whole.startswith(replies) and (has_failed or is_whole)):
                wrong.append((syncs, replies, told_by, check.stdout))
        name = f"each sync failing in turn, {way}"
        yield passed(name) if not wrong and failures > 1 else failed(name, f"{failures} {wrong}")


def tried_rust(context: Context, archive: str) -> Iterator[Result]:
    """The client's example, by the library."""
    if shutil.which("cargo") is None:
        yield skipped("the client for Rust", "there is no cargo")
        return
    image, cap = context.folder / "disk.img", context.folder / "cap"
    cap.write_text(make_disk(context.program, image, SIZE)[1] + "\n")
    environment = {**os.environ, "CARGO_TARGET_DIR": str(context.folder / "target"), "CARGO_NET_OFFLINE": "true",
                   "TSD_LIBRARY": archive}
    command = ["cargo", "run", "--quiet", "--offline", "--locked", "--features", "embedded", "--example", "worked"]
    for words, wanted in ((["--embed", str(image), str(cap)], WORKED), (["--embed", "none", str(cap)], "No such file")):
        done = subprocess.run([*command, "--", *words], cwd=context.top / "clients/rust", env=environment,
                              capture_output=True, text=True, timeout=MOST_SECONDS)
        found = done.stdout + done.stderr
        is_so = found == wanted if done.returncode == 0 else wanted != WORKED and wanted in found
        label = f"the client for Rust, over {words[1]}"
        yield passed(label) if is_so else failed(label, found)


def run(context: Context) -> Iterator[Result]:
    """Tries the library."""
    archive = library(context)
    if context.compiler is None or not archive:
        why = "there is no C compiler" if archive else "tools/embed has no library of these sources"
        yield skipped("the library", why)
        return
    yield compared("compiled without a warning", "", build(context, archive, "host", "-O2"))
    host = Host(context, context.folder / "host", [], "")
    table = read_table(context.top)
    for tried in (tried_refusals(host), tried_format(host), tried_cases(host, table), tried_kills(host),
                  tried_signals(host),
                  embedded_crashes.results(context, archive, FLAGS), tried_failures(context, archive, table),
                  tried_rust(context, archive), clients.results_of(context, clients.EMBEDDED)):
        yield from tried
    checked = []
    if shutil.which("valgrind"):
        # A child of a fork keeps what the library holds of the disk until it ends, so nothing is said of a child.
        words = ["valgrind", "--quiet", "--fair-sched=try", "--error-exitcode=99", "--leak-check=full",
                 "--child-silent-after-fork=yes"]
        checked.append(Host(context, context.folder / "host", words, "under valgrind, "))
    else:
        yield skipped("under valgrind", "it isn't installed")
    if build(context, archive, "sanitized", "-O1", "-fsanitize=address,undefined", "-fno-sanitize-recover") == "":
        checked.append(Host(context, context.folder / "sanitized", ["env"], "under the address sanitizer, "))
    else:
        yield skipped("under the address sanitizer", "the compiler has none")
    for one in checked:
        for tried in (tried_refusals(one), tried_format(one), tried_cases(one, table)):
            yield from tried


os.environ.setdefault("LC_ALL", "C")

"""Slips of the hand, of which none may lose anything: an output that goes into the image, a new disk over something
else, images that are given the wrong way round, images that can't be written, names that mislead. Expected values come
from `tsd --help`, `tsd help mirror` and the man page."""

from __future__ import annotations

import os
import pty
import select
import stat
import subprocess
import sys
import time
from pathlib import Path
from typing import Iterator, List, NamedTuple, Sequence

from parts import Context, Result, compared, failed, passed, skipped
from recording import READ, SYNC, WRITE, NoRecorder, Recorder

NAME = "slips"
R, W = "aa" * 16, "bb" * 16
FRESH = ["fresh", "8", "1", R, W, "near"]
FORMAT = ["format", "8", "1", "32", "1", "00" * 32]
WRITE_ONE = f"open 1\nwrite 1 0 {W} 01\n".encode()
WRITE_TWO = f"open 1\nwrite 1 0 {W} 02\n".encode()
READ_ONE = f"open 1\nread 1 0 {R}\n".encode()
ALLOC = f"open 1\nalloc 1 0 {W} - 3\n".encode()
SECTOR = 512
TOTAL = 145
MARK = ".went-on-alone"
MOST_SECONDS = 240
NO_DISK = ("it holds something that is no disk; nothing was written; "
           "--overwrite before the image lets it be lost")


class Ended(NamedTuple):
    """How a run ended."""

    status: int
    out: bytes
    error: bytes

    def lines(self) -> List[str]:
        return self.error.decode().splitlines()


class Tries:
    """A program, and a folder of its own for what is tried."""

    def __init__(self, program: Path, folder: Path) -> None:
        self.program, self.folder = program, folder
        folder.mkdir()

    def run(self, words: Sequence[object], text: bytes = b"", **how) -> Ended:
        """A run; an output that isn't given is caught."""
        how.setdefault("stdout", subprocess.PIPE)
        how.setdefault("stderr", subprocess.PIPE)
        done = subprocess.run([os.fsencode(word) if isinstance(word, (str, Path)) else word
                               for word in (self.program, *words)], input=text, timeout=MOST_SECONDS, **how)
        return Ended(done.returncode, done.stdout or b"", done.stderr or b"")

    def disk(self, name: str, text: bytes = WRITE_ONE) -> Path:
        """An image with a disk that got these requests."""
        path = self.folder / name
        self.run([path, *FRESH], text)
        return path


# --- an output into an image ---

def output_results(tries: Tries) -> Iterator[Result]:
    """Standard output or standard error, or both, go into the image: nothing is written, whatever the command."""
    for name, mode in (("> o.img", "wb"), ("1<> o.img", "r+b"), (">> o.img", "ab")):
        for words in (FRESH, FORMAT, ["run", "near"], ["check"], ["audit"], ["upgrade"]):
            image = tries.disk("o.img")
            with open(image, mode) as out:
                before = image.read_bytes()
                run = tries.run([image, *words], READ_ONE, stdout=out)
            wanted = (4, ["tsd: device fault", f"tsd: {image}: standard output goes into it; nothing was written"])
            yield compared(f"{words[0]} {name}", wanted, (run.status, run.lines()))
            yield compared(f"{words[0]} {name} leaves it", before, image.read_bytes())
            image.unlink()
    for name, words in (("fresh", FRESH), ("run", ["run", "near"]), ("a word that is none", ["ran"]),
                        ("a word in no file", ["run", "@/nowhere"])):
        image = tries.disk("e.img")
        before = image.read_bytes()
        with open(image, "r+b") as errors:
            run = tries.run([image, *words], READ_ONE, stderr=errors)
        wanted = (2 if words[-1] in ("ran", "@/nowhere") else 4, b"")
        yield compared(f"{name} 2<> e.img", wanted, (run.status, run.out))
        yield compared(f"{name} 2<> e.img leaves it", before, image.read_bytes())
        image.unlink()
    one, two = tries.disk("one.img"), tries.folder / "two.img"
    run_near = ["run", "near"]
    for name, target, words in (("first", one, run_near), ("second", two, run_near), ("second", two, FRESH)):
        two.write_bytes(one.read_bytes())
        with open(target, "r+b") as out:
            before = one.read_bytes(), two.read_bytes()
            run = tries.run(["mirror", one, two, *words], WRITE_TWO, stdout=out)
        yield compared(f"{words[0]} of a mirror into the {name} image", 4, run.status)
        yield compared(f"{words[0]} into the {name} image leaves both", before, (one.read_bytes(), two.read_bytes()))
    link = tries.folder / "link.img"
    link.symlink_to(one)
    with open(link, "r+b") as out:
        yield compared("into the file of a link", 4, tries.run([one, "check"], stdout=out).status)
    with open(tries.folder / "other", "wb") as out:
        yield compared("into another file", 0, tries.run([one, "check"], stdout=out, stderr=subprocess.STDOUT).status)


# --- something else in the place of a disk ---

TEXT = b"A thesis.\n" * 300


def overwriting_results(tries: Tries) -> Iterator[Result]:
    """A new disk, and a copy, over a file that is no disk: refused, unless --overwrite stands first."""
    one = tries.disk("good.img")
    late = bytes(SECTOR * (TOTAL - 1)) + b"at the end of the image"
    for name, content in (("a text", TEXT), ("a text behind zeros", bytes(70000) + TEXT), ("one byte", b"x"),
                          ("bytes at the end of the image", late), ("the magic in lower case", b"tsdisk01" + TEXT)):
        thesis = tries.folder / "thesis.txt"
        for words in ([thesis, *FRESH], [thesis, *FORMAT], ["mirror", one, thesis, "run", "near"],
                      ["mirror", thesis, tries.folder / "new.img", *FRESH],
                      ["mirror", tries.folder / "new.img", thesis, *FRESH]):
            thesis.write_bytes(content)
            run = tries.run(words, READ_ONE)
            told = f"{words[3] + ' of a mirror' if words[0] == 'mirror' else words[1]} over {name}"
            wanted = (4, b"", ["tsd: device fault", f"tsd: {thesis}: {NO_DISK}"])
            yield compared(told, wanted, (run.status, run.out, run.lines()))
            yield compared(f"{told}: it is left", content, thesis.read_bytes())
        yield compared(f"beside {name} nothing is made", False, (tries.folder / "new.img").exists())
        run = tries.run(["--overwrite", thesis, *FRESH], b"free\n")
        yield compared(f"fresh over {name}, asked for", (0, b"free 7\n"), (run.status, run.out))
        thesis.write_bytes(content)
        run = tries.run(["--overwrite", "mirror", one, thesis, "run", "near"], READ_ONE)
        yield compared(f"a copy over {name}, asked for", (0, b"ok\ndata 01\n"), (run.status, run.out))
    for name, content in (("an empty file", b""), ("zeros", bytes(300)),
                          ("zeros of a whole image", bytes(SECTOR * TOTAL)),
                          ("zeros, and bytes behind the image", bytes(SECTOR * TOTAL) + TEXT),
                          ("a disk", one.read_bytes()), ("a damaged disk", one.read_bytes()[:700] + TEXT)):
        for words in (FRESH, FORMAT):
            place = tries.folder / "place.img"
            place.write_bytes(content)
            place.chmod(0o600)
            run = tries.run([place, *words])
            yield compared(f"{words[0]} over {name}", (0, b""), (run.status, run.error))
    for name, content in (("zeros", bytes(3000)), ("a longer disk", one.read_bytes() + TEXT)):
        place.write_bytes(content)
        run = tries.run(["mirror", one, place, "run", "near"], READ_ONE)
        yield compared(f"a copy over {name}", (0, b"ok\ndata 01\n"), (run.status, run.out))
    dangling = tries.folder / "dangling.img"
    dangling.symlink_to(tries.folder / "nothing.img")
    run = tries.run([dangling, *FRESH])
    wanted = (4, ["tsd: device fault", f"tsd: {dangling}: it is a link to a file that isn't there"])
    yield compared("fresh over a link to nothing", wanted, (run.status, run.lines()))
    yield compared("and nothing is made there", False, (tries.folder / "nothing.img").exists())


class Talk:
    """A run at a terminal, to which a person writes."""

    def __init__(self, tries: Tries, words: Sequence[object]) -> None:
        self.ours, theirs = pty.openpty()
        command = [str(word) for word in (tries.program, *words)]
        self.process = subprocess.Popen(command, stdin=theirs, stderr=theirs, stdout=subprocess.PIPE)
        os.close(theirs)
        self.text = b""

    def wait_for(self, words: bytes) -> bool:
        """Reads until these words came, or the run has ended."""
        end = time.monotonic() + MOST_SECONDS
        while words not in self.text and time.monotonic() < end:
            if not select.select([self.ours], [], [], 0.2)[0]:
                if self.process.poll() is not None:
                    return words in self.text
                continue
            try:
                self.text += os.read(self.ours, 4096)
            except OSError:
                break
        return words in self.text

    def end(self, text: bytes) -> Ended:
        """Writes a line and the end of the input, and waits."""
        os.write(self.ours, text)
        os.write(self.ours, b"\x04")
        out, _ = self.process.communicate(timeout=MOST_SECONDS)
        self.wait_for(b"\0 the end \0")
        os.close(self.ours)
        return Ended(self.process.returncode, out, self.text)


def asking_results(tries: Tries) -> Iterator[Result]:
    """At a terminal a disk with more than its primary blocks is asked for; elsewhere it isn't."""
    question = b"it holds a disk with 4 live blocks"
    for answer, is_made in ((b"no\n", False), (b"\n", False), (b"yesterday\n", False), (b"yes\n", True)):
        image = tries.disk("asked.img", ALLOC)
        before = image.read_bytes()
        talk = Talk(tries, [image, *FRESH])
        yield compared(f"it is asked, before {answer!r}", True, talk.wait_for(question))
        run = talk.end(answer)
        found = (run.status, image.read_bytes() == before)
        yield compared(f"after {answer!r}", (0, False) if is_made else (4, True), found)
        if not is_made:
            yield compared(f"told after {answer!r}", True, b"it was left as it is" in run.error)
    image = tries.disk("asked.img", b"")
    talk = Talk(tries, [image, *FORMAT])
    run = talk.end(b"")
    found = (run.status, b"live blocks" in run.error)
    yield compared("a disk with its primary block alone isn't asked for", (0, False), found)
    image = tries.disk("asked.img", ALLOC)
    talk = Talk(tries, ["--overwrite", image, *FORMAT])
    run = talk.end(b"")
    yield compared("behind --overwrite nothing is asked", (0, False), (run.status, b"live blocks" in run.error))
    image = tries.disk("asked.img", ALLOC)
    run = tries.run([image, *FORMAT])
    yield compared("without a terminal nothing is asked", (0, b""), (run.status, run.error))


# --- marks ---

def marks(tries: Tries) -> List[str]:
    """The marks that stand in the folder."""
    return sorted(path.name for path in tries.folder.iterdir() if path.name.endswith(MARK))


def mark_results(tries: Tries, recorder: Recorder) -> Iterator[Result]:
    """One image goes on alone: it is marked, and never overwritten by the other one."""
    a, b = tries.disk("a.img"), tries.folder / "b.img"
    run = tries.run(["mirror", a, b, "run", "near"], b"free\n")
    count = sum(a.read_bytes()[at:at + SECTOR].strip(b"\0") != b"" for at in range(0, a.stat().st_size, SECTOR))
    told = [f"tsd: {b}: {count} sectors were copied to it from {a}"]
    yield compared("how many sectors were copied is told", (0, told), (run.status, run.lines()))
    run = tries.run(["mirror", a, b, "run", "near"], b"free\n")
    yield compared("where nothing differs nothing is told", (0, []), (run.status, run.lines()))
    yield compared("and nothing is marked", [], marks(tries))
    command = [str(word) for word in (recorder.program, "mirror", a, b, "run", "near")]
    done = subprocess.run(command, input=WRITE_TWO, capture_output=True, timeout=MOST_SECONDS,
                          env=recorder.environment(a, ["write:1+:EIO"]))
    yield compared("the first image fails", (11, b"ok\nok\n"), (done.returncode, done.stdout))
    yield compared("the second one is marked", ["b.img" + MARK], marks(tries))
    before = a.read_bytes(), b.read_bytes()
    for words in (["run", "near"], ["check"], ["serve", "near"], ["audit"]):
        run = tries.run(["mirror", a, b, *words], READ_ONE)
        yield compared(f"{words[0]} the wrong way round is refused", (4, b""), (run.status, run.out))
        wanted = [
            "tsd: device fault",
            f"tsd: {b}: it went on alone when the other image failed, and has later answers; nothing was written",
            f"tsd: {b}: give it first, as in tsd mirror {b} {a} check; its mark is {b}{MARK}",
        ]
        yield compared(f"{words[0]} the wrong way round tells which to give first", wanted, run.lines())
    yield compared("nothing was written", before, (a.read_bytes(), b.read_bytes()))
    run = tries.run(["--overwrite", "mirror", a, b, "run", "near"], READ_ONE)
    yield compared("--overwrite doesn't help", 4, run.status)
    link = tries.folder / "link.img"
    link.symlink_to(b)
    yield compared("nor does a link", 4, tries.run(["mirror", a, link, "run", "near"], READ_ONE).status)
    run = tries.run(["mirror", b, a, "run", "near"], READ_ONE)
    yield compared("the right way round", (0, b"ok\ndata 02\n"), (run.status, run.out))
    yield compared("takes the mark away", [], marks(tries))
    run = tries.run(["mirror", a, b, "run", "near"], READ_ONE)
    yield compared("then both orders are right", (0, b"ok\ndata 02\n", []), (run.status, run.out, run.lines()))
    b.unlink()
    b.mkdir()
    run = tries.run(["mirror", a, b, "run", "near"], WRITE_ONE)
    yield compared("a second image that can't be opened", (11, b"ok\nok\n"), (run.status, run.out))
    yield compared("marks the first one", ["a.img" + MARK], marks(tries))
    b.rmdir()
    run = tries.run([a, *FRESH])
    yield compared("a new disk takes its mark away", (0, []), (run.status, marks(tries)))


def failing_results(tries: Tries, recorder: Recorder) -> Iterator[Result]:
    """One image fails at each of its calls in turn: what was answered after that is in the marked one alone, and the
    wrong way round is refused; the right way round has it on both, without a mark."""
    words = {READ: "read", WRITE: "write", SYNC: "sync"}
    first, second = tries.folder / "c.img", tries.folder / "d.img"
    content = tries.disk("base.img", WRITE_ONE).read_bytes()

    def run(side: int, *faults: str):
        for path in (first, second):
            path.write_bytes(content)
            path.chmod(0o600)
        for mark in marks(tries):
            (tries.folder / mark).unlink()
        target = (first, second)[side]
        command = [str(word) for word in (recorder.program, "mirror", first, second, "run", "near")]
        done = subprocess.run(command, input=WRITE_TWO, env=recorder.environment(target, faults), capture_output=True,
                              timeout=MOST_SECONDS)
        return Ended(done.returncode, done.stdout, done.stderr), recorder.events()

    for side, name in enumerate(("first", "second")):
        _, events = run(side)
        calls = [event.kind for event in events if event.kind in words]
        wrong, tried, lost = [], 0, 0
        for at, kind in enumerate(calls):
            number = calls[:at + 1].count(kind)
            if len(calls) - at > 45 and at % 19 > 1:
                continue
            tried += 1
            fault = f"{words[kind]}:{number}+:EIO"
            ended, _ = run(side, fault)
            if ended.status == 4:
                if marks(tries):
                    wrong.append(f"{fault}: a device fault, and marks {marks(tries)}")
                continue
            if ended.status != 11:
                wrong.append(f"{fault}: {ended}")
                continue
            lost += 1
            good, bad = ((second, first), (first, second))[side]
            if marks(tries) != [good.name + MARK]:
                wrong.append(f"{fault}: marks {marks(tries)}")
            back = tries.run(["mirror", bad, good, "run", "near"], READ_ONE)
            if (back.status, back.out) != (4, b""):
                wrong.append(f"{fault}: the wrong way round: {back}")
            back = tries.run(["mirror", good, bad, "run", "near"], READ_ONE)
            if (back.status, back.out, marks(tries)) != (0, b"ok\ndata 02\n", []):
                wrong.append(f"{fault}: the right way round: {back}, {marks(tries)}")
        told = f"each call of the {name} image fails, and it isn't taken for the good one"
        if wrong or lost < 10:
            yield failed(told, f"{lost} of {tried} lost\n" + "\n".join(wrong[:5]))
        else:
            yield passed(f"{told}: {tried}")


def unmarked_results(tries: Tries, recorder: Recorder) -> Iterator[Result]:
    """Where the mark can't be made nothing more is answered."""
    a, b = tries.disk("u.img"), tries.folder / "v.img"
    tries.run(["mirror", a, b, "run", "near"])
    (tries.folder / ("v.img" + MARK + ".new")).mkdir()
    command = [str(word) for word in (recorder.program, "mirror", a, b, "run", "near")]
    state = tries.folder / "state"
    done = subprocess.run(command, input=WRITE_TWO, capture_output=True, timeout=MOST_SECONDS,
                          env={**recorder.environment(a, ["write:1+:EIO"]), "TSD_STATE": str(state)})
    yield compared("no mark beside the image", (11, b"ok\nok\n"), (done.returncode, done.stdout))
    yield compared("it stands in the folder of state", [str(b).replace("/", "!") + MARK],
                   [path.name for path in state.iterdir()])
    os.environ["TSD_STATE"] = str(state)
    run = tries.run(["mirror", a, b, "run", "near"], READ_ONE)
    yield compared("and counts there", (4, b""), (run.status, run.out))
    run = tries.run(["mirror", b, a, "run", "near"], READ_ONE)
    yield compared("and is taken away", (0, b"ok\ndata 02\n", []), (run.status, run.out, list(state.iterdir())))
    os.environ["TSD_STATE"] = "/dev/null"
    done = subprocess.run(command, input=WRITE_TWO, capture_output=True, timeout=MOST_SECONDS,
                          env=recorder.environment(a, ["write:1+:EIO"]))
    yield compared("the second image can't be marked", (4, b"ok\n"), (done.returncode, done.stdout))
    yield compared("that is told", True, b"the mark that it went on alone: Is a directory" in done.stderr)
    (tries.folder / ("u.img" + MARK + ".new")).mkdir()
    syncs = sum(event.kind == SYNC for event in events_of(recorder, a, b))
    wrong = []
    for number in range(2, syncs + 1):
        done = subprocess.run(command, input=WRITE_TWO, capture_output=True, timeout=MOST_SECONDS,
                              env=recorder.environment(b, [f"sync:{number}+:EIO"]))
        # A loss behind the last answer needs no mark: what was answered is on both.
        has_all = tries.run([b, "run", "near"], READ_ONE).out == b"ok\ndata 02\n"
        if done.returncode not in (0, 4, 6, 11) or done.stdout == b"ok\nok\n" and not has_all:
            wrong.append(f"sync {number}: {done}")
    del os.environ["TSD_STATE"]
    yield compared("an answer without a mark isn't sent", [], wrong[:3])


def events_of(recorder: Recorder, a: Path, b: Path):
    """The calls on the second image of a run."""
    command = [str(word) for word in (recorder.program, "mirror", a, b, "run", "near")]
    subprocess.run(command, input=WRITE_TWO, capture_output=True, timeout=MOST_SECONDS, env=recorder.environment(b))
    return recorder.events()


# --- images that can't be written ---

def read_only_results(tries: Tries, context: Context) -> Iterator[Result]:
    """What has to write nothing is served over an image that can't be written."""
    if not context.is_root:
        yield skipped("images that can't be written", "another user is tried by root alone")
        return

    def as_nobody() -> None:
        os.setgroups([])
        os.setgid(65534)
        os.setuid(65534)

    for folder in (tries.folder, tries.folder.parent):
        folder.chmod(0o755)
    program = tries.folder / "tsd"
    program.write_bytes(tries.program.read_bytes())
    program.chmod(0o755)
    image = tries.disk("read.img", ALLOC)
    certificate = tries.run([image, "audit"]).out
    image.chmod(0o444)

    def run(words: Sequence[object], text: bytes = b"") -> Ended:
        done = subprocess.run([str(word) for word in (program, *words)], input=text, capture_output=True,
                              preexec_fn=as_nobody, timeout=MOST_SECONDS)
        return Ended(done.returncode, done.stdout, done.stderr)

    try:
        run(["--version"])
    except (OSError, subprocess.SubprocessError) as error:
        yield skipped("images that can't be written", f"another user can't run the program here: {error}")
        return
    for words, text, out in ((["check"], b"", b"clean 4 4 3\n"), (["audit"], b"", certificate),
                             (["verify"], certificate, b"yes 4\n")):
        ended = run([image, *words], text)
        yield compared(f"{words[0]} of an image that can't be written", (0, out, b""), tuple(ended))
    ended = run([image, "run", "near"], b"free\n")
    wanted = (4, b"", ["tsd: device fault", f"tsd: {image}: Permission denied (os error 13)"])
    yield compared("run of it", wanted, (ended.status, ended.out, ended.lines()))
    yield compared("check of it twice at once", [0, 0], both_at_once(program, image, as_nobody))
    image.chmod(0o600)
    command = [str(tries.program), str(image), "run", "near"]
    child = subprocess.Popen(command, stdin=subprocess.PIPE, stdout=subprocess.PIPE)
    child.stdin.write(WRITE_TWO)
    child.stdin.flush()
    child.stdout.readline(), child.stdout.readline()
    child.kill()
    child.communicate()
    image.chmod(0o444)
    before = image.read_bytes()
    for words in (["check"], ["audit"], ["verify"]):
        ended = run([image, *words])
        wanted = (4, b"", ["tsd: device fault", f"tsd: {image}: it needs a recovery, and is opened to be read alone"])
        yield compared(f"{words[0]} of one that was killed", wanted, (ended.status, ended.out, ended.lines()))
    yield compared("it is left as it is", before, image.read_bytes())


INFO = b"""version %d
sectors 1
blocks 8
primaries 1
slots 32
live 4
free 4
pointers 3
size 74240
"""


def info_results(tries: Tries) -> Iterator[Result]:
    """What an image says of itself, without a call that could write."""
    image = tries.disk("info.img", ALLOC)
    before = image.read_bytes()
    yield compared("info", (0, INFO % 1, b""), tuple(tries.run([image, "info"])))
    yield compared("info leaves the image", before, image.read_bytes())
    run = tries.run(["mirror", image, tries.folder / "copy.img", "info"])
    yield compared("info of a mirror", (0, INFO % 1), (run.status, run.out))
    tries.run([image, "upgrade"])
    yield compared("info of an upgraded image", (0, INFO % 2, b""), tuple(tries.run([image, "info"])))
    large = tries.folder / "large.img"
    tries.run([large, "format", "1048576", "8", "4194304", "16", "00" * 32])
    wanted = [b"version 1", b"sectors 8", b"blocks 1048576", b"primaries 16", b"slots 4194304", b"live 16",
              b"free 1048560", b"pointers 0", b"size 4332915712"]
    yield compared("info of the largest disk", wanted, tries.run([large, "info"]).out.splitlines())
    large.unlink()
    image.write_bytes(before[:SECTOR * 135])
    run = tries.run([image, "info"])
    yield compared("info of a damaged image", (3, b"damaged primary 0\n"), (run.status, run.out))
    child = subprocess.Popen([str(tries.program), str(image), *FRESH], stdin=subprocess.PIPE, stdout=subprocess.PIPE)
    child.stdin.write(WRITE_TWO)
    child.stdin.flush()
    child.stdout.readline(), child.stdout.readline()
    child.kill()
    child.communicate()
    before = image.read_bytes()
    run = tries.run([image, "info"])
    wanted = (4, b"", ["tsd: device fault", f"tsd: {image}: it needs a recovery, and is opened to be read alone"])
    yield compared("info of one that was killed", wanted, (run.status, run.out, run.lines()))
    yield compared("info leaves that too", before, image.read_bytes())


def both_at_once(program: Path, image: Path, before) -> List[int]:
    """The statuses of two runs that have an image open at once."""
    how = {"stdin": subprocess.PIPE, "stdout": subprocess.PIPE, "preexec_fn": before}
    first = subprocess.Popen([str(program), str(image), "verify"], **how)
    time.sleep(0.5)
    second = subprocess.run([str(program), str(image), "check"], stdin=subprocess.DEVNULL, capture_output=True,
                            preexec_fn=before)
    first.communicate(b"")
    return [first.returncode, second.returncode]


# --- words ---

def in_folder(folder: str, text: str) -> str:
    """A name, as it is shown or quoted, with that of a folder before it."""
    quotes = 2 if text.startswith("$'") else 1 if text.startswith("'") else 0
    return text[:quotes] + folder + text[quotes:]


def word_results(tries: Tries, recorder: Recorder) -> Iterator[Result]:
    """Names and words by which a person could be misled."""
    for name, shown, word in (
        ("a b.img", "a b.img", "'a b.img'"),
        ("x;echo $(id)", "x;echo $(id)", "'x;echo $(id)'"),
        ("it's.img", "it's.img", "'it'\\''s.img'"),
        ("two\ntsd: done", "$'two\\ntsd: done'", "$'two\\ntsd: done'"),
        ("esc\x1b[2J", "$'esc\\x1b[2J'", "$'esc\\x1b[2J'"),
        ("plain-1.img", "plain-1.img", "plain-1.img"),
    ):
        folder = str(tries.folder) + "/"
        shown, word = in_folder(folder, shown), in_folder(folder, word)
        image = tries.disk(name)
        done = subprocess.run([str(recorder.program), str(image), "run", "near"], input=WRITE_TWO, capture_output=True,
                              env=recorder.environment(image, ["write:1:EIO"]), timeout=MOST_SECONDS)
        lines = done.stderr.decode().split("\n")
        yield compared(f"lines for {name!r}", 4, len(lines))
        yield compared(f"{name!r} in a line", f"tsd: {shown}: Input/output error (os error 5)", lines[1])
        yield compared(f"{name!r} in a command", True, f"dd if={word} iflag=nocache count=0," in lines[2])
        asked = subprocess.run(["bash", "-c", f"printf %s {word}"], capture_output=True)
        yield compared(f"{name!r} to a shell", os.fsencode(image), asked.stdout)
    run = tries.run(["/dev/null", *FRESH])
    yield compared("no advice for /dev/null", (4, False), (run.status, b"nocache" in run.error))
    pipe = tries.folder / "pipe"
    os.mkfifo(pipe)
    run = tries.run([pipe, "check"])
    yield compared("no advice for a pipe", (4, False), (run.status, b"nocache" in run.error))
    image = tries.disk("cut.img", ALLOC)
    os.truncate(image, 135 * SECTOR)
    run = tries.run([image, "check"])
    less = TOTAL * SECTOR - 135 * SECTOR
    wanted = f"tsd: {image}: the file is {less} bytes shorter than its header says: " \
             f"it has {135 * SECTOR} of {TOTAL * SECTOR}"
    yield compared("an image that was cut off", (3, wanted), (run.status, run.lines()[-1]))
    for word, other in (("-h", "--help"), ("-V", "--version")):
        yield compared(f"{word} as {other}", tuple(tries.run([other])), tuple(tries.run([word])))
    run = tries.run(["-", "fresh", "8", "1", R, R, "near"], b"free\n")
    wanted = (0, b"free 7\n", ["tsd: READCAP and WRITECAP are one: who may read block 0 may write it too"])
    yield compared("equal capabilities are told", wanted, (run.status, run.out, run.lines()))
    run = tries.run([b"disk\xff\n.img", "check"])
    wanted = (2, ["tsd: usage", "tsd: word 1 isn't UTF-8, as a name has to be; it is disk\\xff\\n.img"])
    yield compared("a name that isn't UTF-8", wanted, (run.status, run.lines()))
    run = tries.run(["disk.img", "shell", "inode", "0", b"aaaaaaaaaaaa\xff", "near"])
    yield compared("a secret that isn't UTF-8", (2, ["tsd: usage", "tsd: word 5 isn't UTF-8, as a name has to be"]),
                   (run.status, run.lines()))
    run = tries.run(["mirror", "run", "near"])
    yield compared("an image called mirror", True, run.lines()[-1].endswith("an image of that name is ./mirror"))


def run(context: Context) -> Iterator[Result]:
    """A result for each thing that was tried."""
    for results in (output_results, overwriting_results, asking_results, info_results):
        yield from results(Tries(context.program, context.folder / results.__name__))
    yield from read_only_results(Tries(context.program, context.folder / "read_only"), context)
    if context.compiler is None:
        yield skipped("marks", "no C compiler was found")
        return
    try:
        recorder = Recorder(context.program, context.compiler, context.folder)
        recorder.refuse_blindness(context.folder / "seen.img")
    except NoRecorder as no_recorder:
        yield skipped("marks", str(no_recorder))
        return
    for results in (mark_results, failing_results, unmarked_results, word_results):
        yield from results(Tries(context.program, context.folder / results.__name__), recorder)

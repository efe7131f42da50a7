"""A tree of files as a folder (python/tsd/mount, contrib/mount). Drawn calls of a file system are carried out over both
layouts and in a folder of this machine, with several files open at once: answers, errors and what is left are the same.
Then what the layouts can't hold, a full disk, reading alone, and a program that ends. Where FUSE is there the folder is
mounted: everyday programs work in it, faults are told in a line, and after kill -9 in mid-write the tree is whole."""

from __future__ import annotations

import contextlib
import errno
import io
import logging
import os
import shutil
import signal
import stat
import subprocess
import sys
import time
from pathlib import Path
from random import Random
from typing import Any, Callable, Dict, Iterator, List, Optional, Tuple, Union

from parts import Context, Result, compared, failed, passed, skipped

NAME = "mounts"
MOST_SECONDS = 60
LIMIT = 60.0
CALLS = 400
KILLS = 5
# Blocks of the disk, and sectors of a block.
SIZES = {"inode": (4000, 8), "chain": (4000, 1)}
NAMES = ("a", "b.txt", "c-1", "d_2", "E")
WRITE, READ = "b" * 32, "a" * 32
Answer = Union[int, bytes, str, List[str], None]


def made_disk(context: Context, name: str, kind: str, blocks: int, sectors: int) -> Path:
    """A disk with an empty tree, and the file `cap` with the capability to write its root."""
    image, cap = context.folder / f"{name}.img", context.folder / "cap"
    cap.write_text(WRITE)
    subprocess.run([context.program, image, "fresh", str(blocks), str(sectors), READ, WRITE, "near"],
                   stdin=subprocess.DEVNULL, check=True, timeout=MOST_SECONDS)
    subprocess.run([context.program, image, "shell", kind, "0", f"@{cap}", "near"], input=b"mkfs\n", check=True,
                   stdout=subprocess.DEVNULL, timeout=MOST_SECONDS)
    return image


def check(context: Context, image: Path) -> str:
    """The first word that `check` has of an image, once nobody has it in use: a program whose user was killed ends only
    then."""
    deadline = time.monotonic() + MOST_SECONDS
    while True:
        done = subprocess.run([context.program, image, "check"], capture_output=True, text=True)
        if "in use" not in done.stderr or time.monotonic() > deadline:
            return done.stdout.split(" ")[0]
        time.sleep(0.01)


class Tree:
    """The calls over a disk, without FUSE."""

    def __init__(self, context: Context, image: Path, kind: str, **more: bool) -> None:
        from tsd.image_header import geometry_of
        from tsd.mount.main import options, tell_unfinished
        from tsd.mount.operations import Operations
        from tsd.shell.files import Files
        from tsd.shell.main import capability, opened
        from tsd.shell.refusals import Limits

        given = options([str(image), kind, "0", "-", "--cap-file", str(context.folder / "cap"), "--program",
                         str(context.program)])
        self.stack = contextlib.ExitStack()
        self.program = self.stack.enter_context(opened(given, capability(given.cap_file)))
        geometry = geometry_of(image)
        files = Files(self.program, Limits(kind, geometry.block_length))
        self.call, told = Operations(files, geometry.blocks, **more), io.StringIO()
        with contextlib.redirect_stderr(told):
            tell_unfinished(self.call.puts, False)
        self.told = told.getvalue()

    def close(self) -> None:
        """Ends the program."""
        self.call("destroy", "/")
        self.stack.close()


class Both:
    """A tree of a disk and a folder of this machine, to which the same is done."""

    def __init__(self, tree: Tree, folder: Path, rng: Random, has_directories: bool) -> None:
        self.call, self.folder, self.rng, self.has_directories = tree.call, folder, rng, has_directories
        self.open: List[Tuple[str, int, int]] = []
        self.log: List[str] = []

    def path(self) -> str:
        """A path that may be there or not, of up to three names."""
        depth = self.rng.choice((1, 2, 2, 3)) if self.has_directories else 1
        return "/" + "/".join(self.rng.choice(NAMES) for _ in range(depth))

    def here(self, path: str) -> str:
        """Its path in the folder."""
        return str(self.folder) + path

    def same(self, what: str, on_disk: Callable[[], Answer], here: Callable[[], Answer]) -> Answer:
        """Does both; AssertionError where the answers aren't equal."""
        self.log.append(what)
        answers = [answer_of(on_disk), answer_of(here)]
        told = f"{what}: here {answers[1]!r}, on the disk {answers[0]!r}; before: {self.log[-8:]}"
        assert answers[0] == answers[1], told
        return answers[0]

    def step(self) -> None:
        """A drawn call."""
        calls = [self.make_file] * 3 + [self.write] * 6 + [self.read] * 3 + [self.open_file] * 3 + [self.close] * 4
        calls += [self.rename] * 3 + [self.unlink, self.cut, self.cut_open, self.look, self.look, self.sync]
        self.rng.choice(calls + [self.make_directory, self.list, self.remove] * (2 if self.has_directories else 0))()

    def make_file(self) -> None:
        """A new file that stays open; one that is there is left to `open_file`."""
        path = self.path()
        if len(self.open) > 6 or os.path.exists(self.here(path)):
            return
        handles: List[int] = []
        flags = os.O_CREAT | os.O_EXCL | os.O_RDWR
        found = self.same(f"create {path}", lambda: handles.append(self.call("create", path, 0o644)),
                          lambda: handles.append(os.open(self.here(path), flags, 0o644)))
        if found is None:
            self.open.append((path, *handles))

    def open_file(self) -> None:
        """A file that is there, or isn't; at times emptied."""
        path, handles = self.path(), []
        if len(self.open) > 6 or os.path.isdir(self.here(path)):
            return
        flags = os.O_RDWR | self.rng.choice((0, 0, os.O_TRUNC))
        found = self.same(f"open {path} {flags:o}", lambda: handles.append(self.call("open", path, flags)),
                          lambda: handles.append(os.open(self.here(path), flags)))
        if found is None:
            self.open.append((path, *handles))

    def drawn(self) -> Optional[Tuple[str, int, int]]:
        """An open file."""
        return self.rng.choice(self.open) if self.open else None

    def write(self) -> None:
        """Bytes into an open file, at its end or anywhere."""
        opened = self.drawn()
        if opened is None:
            return
        _, there, here = opened
        size = os.fstat(here).st_size
        at = size if self.rng.random() < 0.5 else self.rng.randrange(size + 2000)
        data = self.rng.randbytes(self.rng.choice((1, 10, 600, 5000)))
        self.same(f"write {opened[0]} {at} {len(data)}", lambda: self.call("write", None, data, at, there),
                  lambda: os.pwrite(here, data, at))

    def read(self) -> None:
        """Bytes of an open file."""
        opened = self.drawn()
        if opened is not None:
            at, count = self.rng.randrange(9000), self.rng.choice((1, 700, 9000))
            self.same(f"read {opened[0]} {at} {count}", lambda: self.call("read", None, count, at, opened[1]),
                      lambda: os.pread(opened[2], count, at))

    def cut_open(self) -> None:
        """An open file to a size."""
        opened, size = self.drawn(), self.rng.randrange(7000)
        if opened is not None:
            self.same(f"ftruncate {opened[0]} {size}", lambda: self.call("truncate", None, size, opened[1]),
                      lambda: os.ftruncate(opened[2], size))

    def cut(self) -> None:
        """A file to a size, by its path."""
        path, size = self.path(), self.rng.randrange(7000)
        self.same(f"truncate {path} {size}", lambda: self.call("truncate", path, size),
                  lambda: os.truncate(self.here(path), size))

    def sync(self) -> None:
        """An open file to the disk."""
        opened = self.drawn()
        if opened is not None:
            self.same(f"fsync {opened[0]}", lambda: self.call("fsync", None, 0, opened[1]), lambda: os.fsync(opened[2]))

    def close(self) -> None:
        """An open file."""
        if not self.open:
            return
        path, there, here = self.open.pop(self.rng.randrange(len(self.open)))
        self.same(f"close {path}", lambda: self.call("flush", None, there), lambda: None)
        self.same(f"release {path}", lambda: self.call("release", None, there), lambda: os.close(here))

    def rename(self) -> None:
        """A file or a directory to a path that may be taken."""
        old, new = self.path(), self.path()
        self.same(f"rename {old} {new}", lambda: self.call("rename", old, new),
                  lambda: os.rename(self.here(old), self.here(new)))

    def unlink(self) -> None:
        """A file goes, open or not."""
        path = self.path()
        self.same(f"unlink {path}", lambda: self.call("unlink", path), lambda: os.unlink(self.here(path)))

    def make_directory(self) -> None:
        """A directory."""
        path = self.path()
        self.same(f"mkdir {path}", lambda: self.call("mkdir", path, 0o755), lambda: os.mkdir(self.here(path)))

    def remove(self) -> None:
        """A directory goes."""
        path = self.path()
        self.same(f"rmdir {path}", lambda: self.call("rmdir", path), lambda: os.rmdir(self.here(path)))

    def list(self) -> None:
        """The names in a directory."""
        path = self.path()
        self.same(f"readdir {path}", lambda: sorted(self.call("readdir", path, 0))[2:],
                  lambda: sorted(os.listdir(self.here(path))))

    def look(self) -> None:
        """What is there, and its size."""
        path = self.path()

        def there() -> str:
            found = self.call("getattr", path)
            return f"{stat.S_IFMT(found['st_mode']):o} {found['st_size'] if stat.S_ISREG(found['st_mode']) else ''}"

        def here() -> str:
            found = os.stat(self.here(path))
            return f"{stat.S_IFMT(found.st_mode):o} {found.st_size if stat.S_ISREG(found.st_mode) else ''}"

        self.same(f"getattr {path}", there, here)


def answer_of(action: Callable[[], Answer]) -> Answer:
    """What a call answers; of an error its name."""
    try:
        return action()
    except OSError as error:
        return errno.errorcode.get(error.errno or 0, "?")


def whole(call: Any, path: str = "/") -> Dict[str, Optional[bytes]]:
    """All that a tree has: its files with their bytes, and its directories."""
    found: Dict[str, Optional[bytes]] = {}
    for name in list(call("readdir", path, 0))[2:]:
        inner = f"{path.rstrip('/')}/{name}"
        about = call("getattr", inner)
        if stat.S_ISDIR(about["st_mode"]):
            found[inner] = None
            found.update(whole(call, inner))
        else:
            handle = call("open", inner, os.O_RDONLY)
            found[inner] = call("read", inner, about["st_size"] + 1, 0, handle)
            call("release", inner, handle)
    return found


def whole_here(folder: Path) -> Dict[str, Optional[bytes]]:
    """The same of a folder."""
    return {"/" + path.relative_to(folder).as_posix(): None if path.is_dir() else path.read_bytes()
            for path in folder.rglob("*")}


def tried_calls(context: Context, kind: str) -> Iterator[Result]:
    """Drawn calls in a tree and in a folder."""
    image = made_disk(context, kind, kind, *SIZES[kind])
    folder = context.folder / f"{kind} here"
    folder.mkdir()
    tree = Tree(context, image, kind)
    both = Both(tree, folder, context.random(f"mounts {kind}"), kind == "inode")
    name = f"{CALLS} calls over {kind}s"
    try:
        for _ in range(CALLS):
            both.step()
        while both.open:
            both.close()
    except AssertionError as error:
        yield failed(name, str(error))
        return
    yield passed(name)
    yield compared(f"{kind}: the tree is the folder's", whole_here(folder), whole(tree.call))
    tree.close()
    again = Tree(context, image, kind)
    yield compared(f"{kind}: and is so when it is opened again", whole_here(folder), whole(again.call))
    for path, content in sorted(whole(again.call).items(), reverse=True):
        again.call("rmdir" if content is None else "unlink", path)
    free = again.call("statfs", "/")["f_bfree"]
    again.close()
    # The root alone is taken; a directory of chains may keep a cluster that it has grown by.
    yield compared(f"{kind}: all blocks come back", True, free >= SIZES[kind][0] - 2)
    yield compared(f"{kind}: the image is sound", "clean", check(context, image))


class Lines(logging.Handler):
    """The log's lines."""

    def __init__(self) -> None:
        super().__init__()
        self.lines: List[str] = []

    def emit(self, record: logging.LogRecord) -> None:
        self.lines.append(record.getMessage())


@contextlib.contextmanager
def logged() -> Iterator[List[str]]:
    """What is logged meanwhile."""
    handler, log = Lines(), logging.getLogger("tsd.mount")
    log.addHandler(handler)
    log.propagate = False
    try:
        yield handler.lines
    finally:
        log.removeHandler(handler)


def written(call: Any, path: str, data: bytes) -> str:
    """Puts bytes in place of a file's, as cp does: the first call that fails, and its error."""
    handle = None
    for name in ("open", "write", "flush"):
        try:
            if name == "open" and call("getattr", path):
                handle = call("open", path, os.O_WRONLY | os.O_TRUNC)
            elif name == "write":
                for at in range(0, len(data), 1 << 17):
                    call("write", path, data[at:at + (1 << 17)], at, handle)
            else:
                call("flush", path, handle)
        except OSError as error:
            told = f"{name} {errno.errorcode[error.errno or 0]}"
            if handle is not None:
                with contextlib.suppress(OSError):
                    call("release", path, handle)
            return told
    call("release", path, handle)
    return "done"


def tried_limits(context: Context) -> Iterator[Result]:
    """What the layouts can't hold is refused by the system's number; the old file stays."""
    for kind, room, number in (("inode", 124 * 512, "write EFBIG"), ("chain", 300 * 496, "write ENOSPC")):
        tree = Tree(context, made_disk(context, f"small {kind}", kind, 300, 1), kind)
        call = tree.call
        with logged() as lines:
            call("release", "/a", call("create", "/a", 0o644))
            yield compared(f"{kind}: a file", "done", written(call, "/a", b"old" * 100))
            yield compared(f"{kind}: one that is too big", number, written(call, "/a", bytes(room + 512)))
            yield compared(f"{kind}: is told", True, bool(lines) and all("/a" in line for line in lines))
            yield compared(f"{kind}: the old one stays", {"/a": b"old" * 100}, whole(call))
            rows = (("/" + "n" * 29, "ENAMETOOLONG"), ("/a b", "EINVAL"), ("/~", "EINVAL"), ("/-", "EINVAL"),
                    ("/n\xe9", "EINVAL"), ("/" + "n" * 28, None))
            found = [(path, answer_of(lambda: call("release", path, call("create", path, 0o644)))) for path, _ in rows]
            yield compared(f"{kind}: names", list(rows), found)
            there = answer_of(lambda: call("getattr", "/~"))
            yield compared(f"{kind}: what has no such name isn't there", "ENOENT", there)
        deep = answer_of(lambda: call("mkdir", "/d", 0o755))
        yield compared(f"{kind}: directories", None if kind == "inode" else "EPERM", deep)
        links = [answer_of(lambda: call(name, "/l", "/a")) for name in ("symlink", "link")]
        yield compared(f"{kind}: no links", ["EPERM", "EPERM"], links)
        modes = [answer_of(lambda: call("chmod", "/a", mode)) for mode in (0o644, 0o600)]
        yield compared(f"{kind}: one mode", [None, "EPERM"], modes)
        tree.close()
    yield from tried_full(context)


def tried_full(context: Context) -> Iterator[Result]:
    """A disk that fills up: the write that has no room is refused, what was there stays, and the disk goes on."""
    image = made_disk(context, "full", "inode", 300, 1)
    tree, told = Tree(context, image, "inode"), {}
    with logged() as lines:
        for number in range(5):
            path = f"/f{number}"
            tree.call("release", path, tree.call("create", path, 0o644))
            told[path] = written(tree.call, path, bytes([number + 1]) * 40000)
    fits = [path for path, words in told.items() if words == "done"]
    yield compared("full: three files have room, and others none", ["/f0", "/f1", "/f2"], fits)
    yield compared("full: why", {"write ENOSPC"}, {words for words in told.values() if words != "done"})
    yield compared("full: with lines", True, bool(lines) and all("no room" in line for line in lines))
    wanted = {path: bytes([at + 1]) * 40000 if path in fits else b"" for at, path in enumerate(told)}
    yield compared("full: what was there stays", wanted, whole(tree.call))
    tree.call("unlink", "/f0")
    yield compared("full: once a file is gone there is room", "done", written(tree.call, "/f3", b"x" * 40000))
    tree.close()
    yield compared("full: the image is sound", "clean", check(context, image))


def tried_reading(context: Context) -> Iterator[Result]:
    """For reading alone; and a program that ends."""
    image = made_disk(context, "reading", "inode", 300, 1)
    tree = Tree(context, image, "inode")
    tree.call("release", "/a", tree.call("create", "/a", 0o644))
    written(tree.call, "/a", b"old")
    tree.close()
    before = image.read_bytes()
    tree = Tree(context, image, "inode", is_read_only=True)
    calls = (("open", "/a", os.O_RDWR), ("open", "/a", os.O_WRONLY | os.O_TRUNC), ("create", "/b", 0o644),
             ("mkdir", "/d", 0o755), ("unlink", "/a"), ("rename", "/a", "/b"), ("truncate", "/a", 0),
             ("utimens", "/a", None), ("chmod", "/a", 0o600), ("chown", "/a", 0, 0))
    told = {call: answer_of(lambda: tree.call(*call)) for call in calls}
    yield compared("reading alone refuses each change", {call: "EROFS" for call in calls}, told)
    yield compared("and reads", {"/a": b"old"}, whole(tree.call))
    tree.close()
    changed = sum(before[at:at + 512] != image.read_bytes()[at:at + 512] for at in range(512 * 134, len(before), 512))
    yield compared("the tree's sectors are as they were", 0, changed)
    tree = Tree(context, image, "inode")
    os.kill(tree.program._peer.process, signal.SIGKILL)
    with logged() as lines:
        yield compared("a program that ended", "EIO", answer_of(lambda: tree.call("mkdir", "/d", 0o755)))
        yield compared("is told", True, any("ended with status -9" in line for line in lines))
    tree.program.abandon()


# --- mounted ---

def why_no_fuse(python: str) -> str:
    """Why a folder can't be mounted with this Python, in words; nothing where it can."""
    code = "import importlib.util as u, sys; sys.exit(not (u.find_spec('fusepy') or u.find_spec('fuse')))"
    if not os.path.exists(python) or subprocess.run([python, "-c", code], stderr=subprocess.DEVNULL).returncode:
        return f"there is no fusepy for {python}"
    missing = next((tool for tool in ("fusermount", "bash", "ps") if shutil.which(tool) is None), None)
    if missing is not None:
        return f"there is no {missing}"
    return "" if os.access("/dev/fuse", os.R_OK | os.W_OK) else "there is no /dev/fuse to open"


class Mounted:
    """A tsd-mount that runs, and its folder."""

    def __init__(self, context: Context, python: str, image: Path, kind: str, *more: str) -> None:
        self.folder, self.log = context.folder / "mounted", context.folder / "mount.log"
        self.folder.mkdir(exist_ok=True)
        command = [python, str(context.top / "contrib/mount/tsd-mount"), str(image), kind, "0", str(self.folder),
                   "--cap-file", str(context.folder / "cap"), "--program", str(context.program), *more]
        with open(self.log, "wb") as log:
            self.process = subprocess.Popen(command, stdin=subprocess.DEVNULL, stdout=log, stderr=log)
        end = time.monotonic() + MOST_SECONDS
        while not os.path.ismount(self.folder) and self.process.poll() is None and time.monotonic() < end:
            time.sleep(0.02)

    def words(self) -> str:
        """What it has told."""
        return self.log.read_text()

    def end(self) -> int:
        """Unmounts it; its status."""
        for more in ([], ["-z"]):
            if self.process.poll() is None or os.path.ismount(self.folder):
                subprocess.run(["fusermount", "-u", *more, str(self.folder)], stderr=subprocess.DEVNULL)
        return self.process.wait(MOST_SECONDS)

    def kill(self) -> None:
        """Kills it and its program, and takes the dead folder away."""
        found = subprocess.run(["ps", "-o", "pid=", "--ppid", str(self.process.pid)], capture_output=True, text=True)
        for process in (self.process.pid, *map(int, found.stdout.split())):
            with contextlib.suppress(ProcessLookupError):
                os.kill(process, signal.SIGKILL)
        self.process.wait(MOST_SECONDS)
        subprocess.run(["fusermount", "-u", "-z", str(self.folder)], stderr=subprocess.DEVNULL)


@contextlib.contextmanager
def mounted(context: Context, python: str, image: Path, kind: str, *more: str) -> Iterator[Mounted]:
    """A folder, to the end of the block."""
    found = Mounted(context, python, image, kind, *more)
    try:
        yield found
    finally:
        found.end()


EVERYDAY = (
    ("cp there and back", "cp $H/tree/big . && cmp big $H/tree/big && cp big $H/back && cmp $H/back $H/tree/big"),
    ("a folder", "cp -r $H/tree t && diff -r t $H/tree"),
    ("tar", "mkdir u && tar -C $H/tree -cf - . | tar -xf - -C u && diff -r u $H/tree && tar -cf $H/u.tar u"),
    ("cat and append", "echo one > l; echo two >> l; echo three >> l; printf 'one\\ntwo\\nthree\\n' | cmp - l"),
    ("sed in place", "sed -i s/two/2/ l && grep -qx 2 l && test -z \"$(ls | grep sed)\""),
    ("a write in the middle", "printf XY | dd of=l bs=1 seek=1 conv=notrunc status=none && head -n 1 l | grep -qx oXY"),
    ("mv over a file", "cp l m && mv m l && ! test -e m"),
    ("mv of a folder", "mv t/deep v && diff -r v $H/tree/deep && ! test -e t/deep"),
    ("a file that is open and gone", "exec 3<>l; rm l; echo more >&3; ! test -e l; exec 3>&-"),
    ("truncate", "cp $H/tree/big w && truncate -s 1000 w && cmp -n 1000 w big && test $(stat -c %s w) = 1000"),
    ("rm", "rm -r u v t w && test \"$(ls)\" = big"),
    ("df", "df . | grep -q $(stat -f -c %b .) || true; test $(stat -f -c %l .) = 28"),
)


def tried_everyday(context: Context, python: str) -> Iterator[Result]:
    """Programs that people use, in the folder."""
    tree = context.folder / "tree"
    (tree / "deep/er").mkdir(parents=True)
    (tree / "big").write_bytes(context.random("mounts big").randbytes(150_000))
    for number in range(12):
        (tree / f"deep/er/{number}").write_text(f"{number}\n" * number)
    image = made_disk(context, "everyday", "inode", 4000, 8)
    environment = {**os.environ, "H": str(context.folder)}
    with mounted(context, python, image, "inode") as folder:
        for name, script in EVERYDAY:
            done = subprocess.run(["bash", "-c", f"set -e; {script}"], cwd=folder.folder, env=environment,
                                  capture_output=True, text=True, timeout=MOST_SECONDS)
            yield passed(name) if done.returncode == 0 else failed(name, done.stdout + done.stderr + folder.words())
        status = folder.end()
    yield compared("it ends with status 0, and told nothing", (0, ""), (status, folder.words()))
    yield compared("everyday: the image is sound", "clean", check(context, image))
    with mounted(context, python, image, "inode", "--read-only") as folder:
        changes = (lambda: (folder.folder / "x").write_text(""), lambda: os.unlink(folder.folder / "big"))
        told = [answer_of(change) for change in changes]
        yield compared("reading alone", ["EROFS", "EROFS"], told)
        yield compared("and what is there", (tree / "big").read_bytes(), (folder.folder / "big").read_bytes())


def tried_kills(context: Context, python: str) -> Iterator[Result]:
    """Killed in mid-write: each file is one of those that were written, whole."""
    for kind in ("inode", "chain"):
        image, turn = made_disk(context, f"kills {kind}", kind, 4000, 8), 0
        script = "while :; do i=$((i+1)); head -c 30000 /dev/zero | tr '\\0' $(($1*3+i%3)) > long; echo $i > s; done"
        wrong: List[str] = []
        for turn in range(KILLS):
            folder = Mounted(context, python, image, kind)
            try:
                writer = subprocess.Popen(["bash", "-c", script, "-", str(turn % 3)], cwd=folder.folder,
                                          stderr=subprocess.DEVNULL)
                time.sleep(0.4 + 0.13 * turn)
                folder.kill()
                writer.kill()
                writer.wait(MOST_SECONDS)
            finally:
                folder.end()
            wrong += [f"turn {turn}: check: {check(context, image)}"] if check(context, image) != "clean" else []
            tree = Tree(context, image, kind)
            found = {path: data for path, data in whole(tree.call).items() if not path.startswith("/put-")}
            tree.close()
            long = found.get("/long")
            is_told = "only its first bytes" in tree.told and "/long" in tree.told
            is_whole = long is not None and (len(long) in (0, 30000) or is_told) and len(set(long)) <= 1
            if not is_whole or set(found) - {"/long", "/s"}:
                wrong.append(f"turn {turn}: {[(path, len(data or b'')) for path, data in found.items()]} {tree.told}")
        yield compared(f"{kind}: after {KILLS} kills in mid-write each file is whole, or told of", [], wrong)


def tried_faults(context: Context, python: str) -> Iterator[Result]:
    """What is wrong is told in one line, and nothing is mounted."""
    image = made_disk(context, "faults", "inode", 300, 1)
    blank, absent = context.folder / "blank.img", context.folder / "absent"
    words = [context.program, blank, "fresh", "300", "1", READ, WRITE, "near"]
    subprocess.run(words, stdin=subprocess.DEVNULL, check=True)
    (context.folder / "wrong").write_text("0" * 32)
    (context.folder / "short").write_text("0")
    folder, cap = context.folder / "mounted", context.folder / "cap"
    folder.mkdir(exist_ok=True)
    rows = (
        ("a wrong capability", (image, "inode", 0, folder, context.folder / "wrong"), 10, "status 10"),
        ("a capability that is none", (image, "inode", 0, folder, context.folder / "short"), 2, "32 hexadecimal"),
        ("no capability's file", (image, "inode", 0, folder, absent), 1, "No such file"),
        ("a block that isn't there", (image, "inode", 4000, folder, cap), 10, "root denied"),
        ("an image that is none", (cap, "inode", 0, folder, cap), 3, "not an image"),
        ("no image", (absent, "inode", 0, folder, cap), 4, "status 4"),
        ("no folder", (image, "inode", 0, absent, cap), 2, "no folder is there"),
        ("no tree", (blank, "inode", 0, folder, cap), 1, "mkfs begins an empty tree"),
        ("the other layout", (image, "chain", 0, folder, cap), 1, "has a tree of inodes"),
    )
    for name, words, status, wanted in rows:
        command = [python, context.top / "contrib/mount/tsd-mount", *words[:4], "--cap-file", words[4], "--program",
                   context.program]
        done = subprocess.run([*map(str, command)], capture_output=True, text=True, stdin=subprocess.DEVNULL,
                              timeout=MOST_SECONDS)
        lines = done.stderr.splitlines()
        is_told = done.returncode == status and len(lines) == 1 and wanted in lines[0] and done.stdout == ""
        yield passed(name) if is_told else failed(name, f"wanted {status} {wanted}\n{done.returncode} {done.stderr}")
    with mounted(context, python, image, "inode") as found:
        (found.folder / "a").write_text("old")
        told = answer_of(lambda: (found.folder / "a").write_bytes(bytes(200_000)))
        yield compared("mounted: a file that is too big", "EFBIG", told)
        yield compared("mounted: with lines", True, "too big" in found.words() and "the old file" in found.words())
        yield compared("mounted: the old one stays", "old", (found.folder / "a").read_text())


def run(context: Context) -> Iterator[Result]:
    """The calls; and the folder where FUSE is there."""
    sys.path.insert(0, str(context.top / "python"))
    os.environ["TSD_PROGRAM"] = str(context.program)
    for kind in SIZES:
        yield from tried_calls(context, kind)
    yield from tried_limits(context)
    yield from tried_reading(context)
    python = next((python for python in (sys.executable, "/usr/bin/python3") if not why_no_fuse(python)), None)
    if python is None:
        yield skipped("a mounted folder", why_no_fuse("/usr/bin/python3"))
        return
    for part in (tried_everyday, tried_kills, tried_faults):
        yield from part(context, python)

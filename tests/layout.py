"""What the folders of the sources may hold: no symbolic link, which the gate's tools would follow or lose; no file of
Rattle (.rt, .antt) outside crates/, which would be neither proved nor told; in python/, for a wheel to take along, the
licences that stand at the top; and wrong bodies that apply, in both of their places. Folders that are built aren't
looked into."""

from __future__ import annotations

import os
import shutil
import subprocess
import sys
from pathlib import Path
from typing import Iterator, List, Tuple

from parts import Context, Result, compared

NAME = "layout"
BUILT = frozenset({".git", "out", "target", "__pycache__"})
PROVED = (".rt", ".antt")
LICENSES = ("LICENSE", "LICENSE-APACHE", "LICENSE-MIT")
WRONG_BODIES = "tools/wrong-bodies"
# Of a small repository: a source, and edits of it with what is told of each; nothing is told of one that applies.
SOURCE = "fn one() -> u32 {\n    1\n}\n\nfn two() -> u32 {\n    2\n}\n"
FILE = "file: src/lib.rt\n"
ONE = FILE + "old:     1\n"
EDITS = (
    ("crates/one/must-fail/gone.edit", FILE + "old: 7\nnew: 8\n", "this stands 0 times in src/lib.rt: 7"),
    ("crates/one/must-fail/right.edit", ONE + "new:     2\n", ""),
    ("crates/one/must-fail/twice.edit", FILE + "old: u32\nnew: u64\n", "this stands 2 times in src/lib.rt: u32"),
    ("tests/wrong_bodies/one/in_two.edit", ONE + "new:     7\nold:     7\nnew:\n", ""),
    ("tests/wrong_bodies/one/name.txt", ONE + "new:     2\n", "it is no file NAME.edit"),
    ("tests/wrong_bodies/one/no_file.edit", "file: src/a.rt\n", "src/a.rt is no file of the crate's sources"),
    ("tests/wrong_bodies/one/open.edit", ONE, "it ends without a `new:`"),
    ("tests/wrong_bodies/one/right.edit", ONE + "new:     3\n", "the gate has one of this name"),
    ("tests/wrong_bodies/one/same.edit", ONE + "new:     1\n", "it changes nothing:     1"),
    ("tests/wrong_bodies/one/text.edit", ONE + "new: 2\n3\n",
     "a line begins with none of `file: `, `old: ` and `new: `: 3"),
    ("tests/wrong_bodies/two/right.edit", ONE + "new:     2\n", "two is no crate of crates.txt"),
)


def paths(top: Path) -> Iterator[Path]:
    """Each file and each link of the sources, and no link is followed."""
    for folder, inner, names in os.walk(top):
        links = [name for name in inner if os.path.islink(os.path.join(folder, name))]
        inner[:] = [name for name in inner if name not in BUILT]
        for name in [*links, *names]:
            yield Path(folder, name).relative_to(top)


def found_in(top: Path) -> List[List[str]]:
    """The links, and the files of Rattle outside crates/."""
    links, outside = [], []
    for path in paths(top):
        if (top / path).is_symlink():
            links.append(str(path))
        elif path.suffix in PROVED and path.parts[0] != "crates":
            outside.append(str(path))
    return [sorted(links), sorted(outside)]


def slips(top: Path) -> Tuple[int, List[str]]:
    """What the tool tells of the wrong bodies of this repository, and its status."""
    words = [sys.executable, str(top / WRONG_BODIES), "--check"]
    done = subprocess.run(words, capture_output=True, text=True)
    return done.returncode, done.stderr.splitlines()


def planted_edits(top: Path, folder: Path) -> Result:
    """Of wrong bodies in a small repository those that don't apply are told."""
    files = [("crates/one/src/lib.rt", SOURCE), *((name, text) for name, text, _ in EDITS)]
    for name, text in files:
        (folder / name).parent.mkdir(parents=True, exist_ok=True)
        (folder / name).write_text(text)
    (folder / "crates.txt").write_text("# The crates\none: two\n")
    (folder / WRONG_BODIES).parent.mkdir()
    shutil.copy(top / WRONG_BODIES, folder / WRONG_BODIES)
    told = [f"{WRONG_BODIES}: {name}: {slip}" for name, _, slip in EDITS if slip]
    return compared("wrong bodies that don't apply are found", (1, told), slips(folder))


def run(context: Context) -> Iterator[Result]:
    """A result for each rule; and that one of each kind would be found."""
    links, outside = found_in(context.top)
    yield compared("no symbolic link", [], links)
    yield compared("no file of Rattle outside crates/", [], outside)
    for name in LICENSES:
        same = (context.top / name).read_bytes() == (context.top / "python" / name).read_bytes()
        yield compared(f"python/{name} is the top's", True, same)
    yield compared("each wrong body applies", (0, []), slips(context.top))
    (context.folder / "docs/crates").mkdir(parents=True)
    (context.folder / "crates/one/src").mkdir(parents=True)
    for name in ("docs/a.rt", "docs/crates/b.antt", "crates/one/src/c.rt"):
        (context.folder / name).touch()
    (context.folder / "docs/d").symlink_to("a.rt")
    (context.folder / "e").symlink_to("docs")
    expected = [["docs/d", "e"], ["docs/a.rt", "docs/crates/b.antt"]]
    yield compared("what is looked for is found", expected, found_in(context.folder))
    yield planted_edits(context.top, context.folder / "small")

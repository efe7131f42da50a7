"""What the documents offer to try, pasted into a shell as it stands, in a fresh folder with a `tsd` that runs the
program."""

from __future__ import annotations

import re
import shutil
import subprocess
from typing import Iterable, Iterator, List, NamedTuple

from mounts import why_no_fuse
from parts import Context, Result, compared, failed, skipped

NAME = "tour"
MOST_SECONDS = 120
# Pages, and the section of each that has such blocks.
SECTIONS = (
    ("docs/STORAGE.md", "By storage"),
    ("README.md", "A tour"), ("docs/FILES.md", "Try it"), ("docs/FILES.md", "Asks as frames"),
    ("docs/AUDIT.md", "Try it"), ("clients/README.md", "Try it"), ("docs/VIRTUAL_DISKS.md", "Try it"),
    ("docs/MOUNT.md", "Try it"),
)
# What the blocks use beside the program, and what those of some pages use besides.
TOOLS = ("bash", "timeout", "yes", "tail", "od", "awk")
MORE_TOOLS = {
    "clients/README.md": ("cc", "cut"),
    "docs/VIRTUAL_DISKS.md": ("nbdkit", "nbdcopy", "python3", "cmp"),
    "docs/MOUNT.md": ("python3", "mountpoint", "tar", "sed"),
}
# The page that has its folder by FUSE, with Debian's Python.
MOUNT = "docs/MOUNT.md"
# What of the clone such pages name.
FOLDERS = ("clients", "contrib", "python")
# A block and the one below it, which has what it prints.
BLOCKS = re.compile(r"^```sh\n(?P<text>.*?)^```\n\s*^```\n(?P<printed>.*?)^```$", re.MULTILINE | re.DOTALL)


class Block(NamedTuple):
    """What is pasted, and what the page says that it prints."""

    line: int
    text: str
    printed: str


def blocks_of(page: str, section: str) -> List[Block]:
    """The blocks of a section, in order."""
    start = page.index(f"\n## {section}\n")
    end = page.find("\n## ", start + 1)
    return [Block(page.count("\n", 0, start + found.start()) + 1, found["text"], found["printed"])
            for found in BLOCKS.finditer(page[start:end])]


def pasted(blocks: List[Block]) -> str:
    """One script of all blocks, with a mark after what each prints; they share their variables and their files."""
    return "".join(f"{block.text}printf '\\n%s\\n' '{mark(block)}'\n" for block in blocks)


def mark(block: Block) -> str:
    """The line that is printed after a block."""
    return f"-- end of the block in line {block.line} --"


def tried(context: Context, page: str, section: str) -> Iterator[Result]:
    """A result for each block of a section."""
    blocks = blocks_of((context.top / page).read_text(), section)
    if not blocks:
        yield failed(page, f"no block of *{section}* was found")
        return
    missing = absent(MORE_TOOLS.get(page, ())) or (page == MOUNT and why_no_fuse("/usr/bin/python3"))
    if missing:
        yield skipped(page, missing)
        return
    folder = context.folder / f"{page} {section}".replace("/", "-").replace(" ", "-")
    folder.mkdir()
    for name in FOLDERS if page in MORE_TOOLS else ():
        (folder / name).symlink_to(context.top / name)
    (folder / "tsd").symlink_to(context.program)
    done = subprocess.run(["bash", "-c", pasted(blocks)], cwd=folder, stdin=subprocess.DEVNULL,
                          stdout=subprocess.PIPE, stderr=subprocess.PIPE, timeout=MOST_SECONDS)
    rest = done.stdout.decode(errors="replace")
    for block in blocks:
        printed, _, rest = rest.partition(f"\n{mark(block)}\n")
        first = block.text.strip().splitlines()[-1]
        yield compared(f"{page}, line {block.line}: {first}", block.printed, printed)


def absent(tools: Iterable[str]) -> str:
    """Which of these aren't installed, in words; nothing where all are."""
    missing = [tool for tool in tools if shutil.which(tool) is None]
    return f"there is no {', no '.join(missing)}" if missing else ""


def run(context: Context) -> Iterator[Result]:
    """A result for each block of each page."""
    missing = absent(TOOLS)
    if missing:
        yield skipped("the pages", missing)
        return
    for page, section in SECTIONS:
        yield from tried(context, page, section)

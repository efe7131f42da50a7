"""The command `tsd-mount`: a tree of files of a disk as a folder, by FUSE."""

from __future__ import annotations

import argparse
import importlib
import logging
import os
import sys
from typing import Any, List, Optional

from tsd.errors import LinkError, ProgramEnded
from tsd.image_header import geometry_of
from tsd.mount.operations import LOG, Operations
from tsd.plain import plain_lines
from tsd.programs import PLACES
from tsd.shell.files import FILE, Files
from tsd.shell.main import FAILED, LIMIT, USAGE, capability, is_mounted, limit, opened
from tsd.shell.paths import CHAIN, INODE
from tsd.shell.puts import CutOff, Left, Puts, State
from tsd.shell.refusals import Limits, ShellRefused
from tsd.shell.root import what_is_there

# Debian's python3-fusepy, and the name that the same has elsewhere.
MODULES = ("fusepy", "fuse")
NO_FUSE = "there is no fusepy for this Python: install python3-fusepy, and start tsd-mount by /usr/bin/python3"


def options(words: Optional[List[str]] = None) -> argparse.Namespace:
    """The options of the command line."""
    parser = argparse.ArgumentParser(
        prog="tsd-mount", description="Files on a disk as a folder, until `fusermount -u FOLDER` or Ctrl-C ends it.",
        epilog="The capability to write the root is asked for without echo where no file has it. What the folder can't "
               "do stands in docs/MOUNT.md.")
    parser.add_argument("image", help="the image of the disk")
    parser.add_argument("kind", choices=(INODE, CHAIN), help="the file system: inodes, or chains of clusters")
    parser.add_argument("root", type=int, help="the primary block that the files hang from")
    parser.add_argument("folder", help="an empty folder, where the files are then")
    parser.add_argument("place", nargs="?", choices=PLACES, default="near",
                        help="which free block is taken first (near)")
    parser.add_argument("--cap-file", metavar="FILE", help="a file whose first word is the capability")
    parser.add_argument("--read-only", action="store_true", help="refuse every change")
    parser.add_argument("--take-modes", action="store_true",
                        help="let chmod and chown say that they did what the disk can't")
    parser.add_argument("--limit", type=limit, default=LIMIT, help="seconds without an answer that are too many (60)")
    parser.add_argument("--program", help="the program tsd")
    return parser.parse_args(words)


def complain(text: str) -> None:
    """A line on standard error."""
    print(f"tsd-mount: {plain_lines('; '.join(text.splitlines()))}", file=sys.stderr, flush=True)


class Told(logging.Handler):
    """The log's lines on standard error."""

    def emit(self, record: logging.LogRecord) -> None:
        complain(record.getMessage())


def fuse() -> Any:
    """The module that speaks to the system; ValueError where there is none."""
    for name in MODULES:
        try:
            module = importlib.import_module(name)
        except (ImportError, OSError):
            continue
        if hasattr(module, "FUSE") and hasattr(module, "Operations"):
            return module
    raise ValueError(NO_FUSE)


def tell_unfinished(puts: Puts, is_read_only: bool) -> None:
    """What was cut off when files were last written. A new file that is whole comes to its place where that harms
    nothing; all else stays, and is told."""
    for left in puts.left():
        if not is_read_only and may_finish(puts, left):
            try:
                puts.finish(left)
                complain(f"{left.target}: an earlier write was cut off, and is done now")
                continue
            except CutOff as error:
                complain(str(error))
        complain(f"{left}; tsd-shell's `finish` or `discard` ends that")


def may_finish(puts: Puts, left: Left) -> bool:
    """Whether a new file is whole, and in its place is nothing, or a front of it, as a stop leaves over chains."""
    if left.state is not State.WHOLE or left.target is None:
        return False
    try:
        found = puts.files.look(left.target)
        if found != FILE or puts.files.kind == INODE:
            return found is None
        there = b"".join(puts.files.get(left.target))
        return front(puts.files, left.stage.new, len(there)) == there
    except ShellRefused:
        return False


def front(files: Files, path: str, count: int) -> bytes:
    """So many bytes of a file's beginning."""
    taken = bytearray()
    for piece in files.get(path):
        taken += piece[:count - len(taken)]
    return bytes(taken)


def serve(given: argparse.Namespace, files: Files, blocks: int, module: Any) -> None:
    """Mounts the files, and answers the system until the folder is unmounted."""
    operations = Operations(files, blocks, given.read_only, given.take_modes)
    tell_unfinished(operations.puts, given.read_only)
    words = {"ro": True} if given.read_only else {"big_writes": True, "atomic_o_trunc": True}
    # A path's bytes as they are: what isn't ASCII is no name of the disk.
    module.FUSE(operations, given.folder, foreground=True, nothreads=True, encoding="latin-1", hard_remove=True,
                fsname=os.path.basename(given.image).replace(",", "_") or "tsd", subtype="tsd", **words)


def run(given: argparse.Namespace) -> int:
    """tsd-mount, with its program."""
    module = fuse()
    if not os.path.isdir(given.folder):
        raise ValueError(f"{given.folder}: no folder is there")
    cap, geometry = capability(given.cap_file), geometry_of(given.image)
    limits = Limits(given.kind, geometry.block_length if geometry else None)
    with opened(given, cap) as program:
        files = Files(program, limits)
        if is_mounted(files):
            serve(given, files, geometry.blocks if geometry else 0, module)
            return 0
    complain(what_is_there(given, cap))
    return FAILED


def main(words: Optional[List[str]] = None) -> int:
    """The command; its exit status."""
    given = options(words)
    LOG.addHandler(Told())
    LOG.propagate = False
    # What fusepy tells of a call that failed is told here already.
    logging.getLogger("fuse").setLevel(logging.CRITICAL)
    try:
        return run(given)
    except ProgramEnded as ended:
        complain(str(ended))
        return ended.status if ended.status > 0 else FAILED
    except RuntimeError as error:
        complain(f"{given.folder}: the folder can't be mounted (status {error} of FUSE)")
        return FAILED
    except (LinkError, OSError, ValueError) as error:
        complain(str(error))
        return USAGE if isinstance(error, ValueError) else FAILED
    except (EOFError, KeyboardInterrupt):
        return FAILED

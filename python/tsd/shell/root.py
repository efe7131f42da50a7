"""What stands at the root where no tree of files is mounted. A damaged tree is told from none: only where the block is
blank, and no pointer leads from it, is anybody told to begin a new one."""

from __future__ import annotations

import argparse

from tsd.capability import Capability
from tsd.disk import open_disk
from tsd.errors import TsdError
from tsd.shell.commands import NOTHING_HERE
from tsd.shell.paths import CHAIN, INODE

MAGIC = {INODE: b"TSDINOD1", CHAIN: b"TSDCHAN1"}
UNTOUCHED = "nothing of it was changed; make a copy of the image before you do more"


def what_is_there(given: argparse.Namespace, cap: Capability) -> str:
    """A sentence on what the root has, of the words of tsd-shell's command line."""
    try:
        with open_disk(given.image, given.place, program=given.program, limit=given.limit, group=False) as disk, \
                disk.session() as session:
            content = session.read(given.root, cap)
            is_led_from = next(session.list(given.root, cap), None) is not None
    except (TsdError, OSError) as error:
        return f"no tree of {given.kind}s is under block {given.root}, and it couldn't be looked at: {error}"
    return sentence(given.kind, given.root, content, is_led_from)


def sentence(kind: str, root: int, content: bytes, is_led_from: bool) -> str:
    """The sentence for a block that has these bytes, and whether pointers lead from it."""
    other = CHAIN if kind == INODE else INODE
    if content.startswith(MAGIC[kind]):
        return f"the tree of {kind}s under block {root} is damaged; {UNTOUCHED}"
    if content.startswith(MAGIC[other]):
        return f"block {root} has a tree of {other}s, not of {kind}s: start tsd-shell with {other}"
    if any(content):
        return f"block {root} has bytes that are no tree of {kind}s: a damaged one, or something else; {UNTOUCHED}"
    if is_led_from:
        return f"block {root} is blank, but pointers lead from it: a damaged tree, or something else; {UNTOUCHED}"
    return NOTHING_HERE

#!/usr/bin/env python3
"""A capability has leaked; its owner ends it, with all that came along from it: revocation.md tells more."""

from __future__ import annotations

import sys
import tempfile
from pathlib import Path
from typing import Dict, List

sys.path.insert(0, str(Path(__file__).resolve().parent.parent / "python"))

import tsd  # noqa: E402

TEAM, GUESTS = 0, 1


def readable(session: tsd.Session, blocks: Dict[str, int]) -> str:
    """Which of the blocks a session may read, showing nothing."""
    names: List[str] = []
    for name, block in blocks.items():
        try:
            session.read(block)
            names.append(name)
        except tsd.Denied:
            pass
    return ", ".join(names) or "nothing"


def fill(owner: tsd.Session, team: tsd.Pair, guests: tsd.Pair) -> Dict[str, int]:
    """The team's block leads to plans and from there to drafts; the team's and the guests' both to the agenda."""
    [plans] = owner.alloc(TEAM, 1, team.write)
    [drafts] = owner.alloc(plans)
    [agenda] = owner.alloc(TEAM, 1, team.write)
    owner.create(GUESTS, agenda, guests.write)
    return {"plans": plans, "drafts": drafts, "agenda": agenda}


def main(image: Path) -> None:
    """A leak, and its end."""
    team, guests = tsd.format_disk(image, blocks=64, primaries=2)
    with tsd.open(image) as disk, disk.session() as owner, disk.session() as thief, disk.session() as guest:
        blocks = fill(owner, team, guests)
        guest.read(GUESTS, guests.read)
        print(f"the guest reads {readable(guest, blocks)}")
        thief.read(TEAM, team.read)
        print(f"the thief, with a leaked capability, reads {readable(thief, blocks)}")
        new = tsd.Pair(tsd.Capability.new(), tsd.Capability.new())
        owner.set_capabilities(TEAM, new.read, new.write, team.write)
        print("the owner gives the team's block new capabilities")
        print(f"the thief reads {readable(thief, blocks)}")
        try:
            thief.read(TEAM, team.read)
        except tsd.Denied as denied:
            print(f"the thief shows the leaked capability: {denied}")
        print(f"the guest reads {readable(guest, blocks)}")
        owner.read(TEAM, new.read)
        print(f"the owner, with the new one, reads {readable(owner, blocks)}")


if __name__ == "__main__":
    with tempfile.TemporaryDirectory() as name:
        main(Path(name) / "disk.img")

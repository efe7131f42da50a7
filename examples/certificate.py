#!/usr/bin/env python3
"""A certificate of what can be reached, made by the owner and verified over a copy of the image: certificate.md tells more."""

from __future__ import annotations

import shutil
import subprocess
import sys
import tempfile
from pathlib import Path

sys.path.insert(0, str(Path(__file__).resolve().parent.parent / "python"))

import tsd  # noqa: E402
from tsd.programs import program_words  # noqa: E402


def command(image: Path, word: str, text: bytes = b"") -> bytes:
    """What a command of the program puts."""
    return subprocess.run([*program_words(), str(image), word], input=text, stdout=subprocess.PIPE, check=True).stdout


def main(folder: Path) -> None:
    """A plan that two folders share; a certificate, verified by an auditor; and what a forged one shows."""
    image, copy = folder / "disk.img", folder / "copy.img"
    [root] = tsd.format_disk(image, blocks=64)
    with tsd.open(image, place="low") as disk, disk.session() as owner:
        team, guests = owner.alloc(0, 2, root.write)
        [plan] = owner.alloc(team)
        [draft] = owner.alloc(plan)
        owner.create(guests, plan)
    certificate = command(image, "audit")
    print(certificate.decode(), end="")
    shutil.copyfile(image, copy)
    print("the auditor, over a copy:", command(copy, "verify", certificate).decode().strip())
    hidden = b"".join(line for line in certificate.splitlines(True) if not line.startswith(b"block %d " % draft))
    print("with the draft left out:", command(copy, "verify", hidden).decode().strip())
    invented = certificate + b"block 9 depth 2 parent %d\n" % guests
    print("with a block that nothing points to:", command(copy, "verify", invented).decode().strip())


if __name__ == "__main__":
    with tempfile.TemporaryDirectory() as name:
        main(Path(name))

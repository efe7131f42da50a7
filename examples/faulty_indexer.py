#!/usr/bin/env python3
"""An appliance keeps documents on a disk, and an indexer that is faulty reads them: faulty_indexer.md tells more."""

from __future__ import annotations

import random
import subprocess
import sys
import tempfile
import time
from collections import Counter
from pathlib import Path
from typing import Callable, Dict, List

HERE = Path(__file__).resolve().parent
sys.path.insert(0, str(HERE.parent / "python"))

import tsd  # noqa: E402
from tsd import requests  # noqa: E402

DOCUMENTS = {
    "minutes": "the heating is to be mended before winter",
    "recipe": "the dough rests for a night before it is baked",
    "letter": "we hope to see you before the winter is over",
}
FAULTS = 300


def fill(session: tsd.Session, write: tsd.Capability) -> Dict[str, int]:
    """Writes each document to a block of its own, which block 0 points to."""
    blocks = session.alloc(0, len(DOCUMENTS), write)
    for block, text in zip(blocks, DOCUMENTS.values()):
        session.write(block, text.encode())
    return dict(zip(DOCUMENTS, blocks))


def faults(disk: tsd.Disk, read: tsd.Capability, rng: random.Random) -> List[Callable[[], object]]:
    """What the indexer does where it goes wrong: on any block, as any session, with all that it knows."""
    block, other, session = rng.randrange(8), rng.randrange(8), rng.randrange(1, 65)
    cap = rng.choice([None, read])
    asked = [
        requests.Write(block, b"rubbish", cap), requests.Delete(block, other, cap), requests.Alloc(block, 1, cap),
        requests.Create(block, other, cap), requests.SetCapabilities(block, read, read, cap), requests.Sweep(cap),
    ]
    return [lambda request=request: disk.ask(request, session).result() for request in asked]


def index(path: str, read: tsd.Capability) -> None:
    """The indexer: a process of its own, with a read capability alone."""
    rng = random.Random(7)
    words: Dict[str, List[int]] = {}
    outcomes: Counter = Counter()
    with tsd.connect(path) as disk, disk.session() as session:
        for block in session.list(0, read):
            for word in session.read(block).rstrip(b"\0").decode().split():
                words.setdefault(word, []).append(block)
        for _ in range(FAULTS):
            try:
                rng.choice(faults(disk, read, rng))()
                outcomes["granted"] += 1
            except tsd.Refused:
                outcomes["refused"] += 1
    print(f"indexer: 'before' is in {len(words['before'])} documents, 'winter' in {len(words['winter'])}")
    print(f"indexer: {outcomes['granted']} of {FAULTS} faulty requests were granted", flush=True)


def appliance(folder: Path) -> None:
    """Makes the disk, starts the hub and the indexer, and looks at its documents afterwards."""
    image, path = folder / "disk.img", folder / "disk.sock"
    [pair] = tsd.format_disk(image, blocks=64)
    hub = subprocess.Popen([sys.executable, str(HERE.parent / "python/bin/tsd-hub"), str(image), "near", "--socket",
                            str(path)], stderr=subprocess.DEVNULL)
    try:
        while not path.exists():
            time.sleep(0.01)
        with tsd.connect(path) as disk, disk.session() as session:
            blocks = fill(session, pair.write)
            print(f"appliance: {len(blocks)} documents, {disk.free()} blocks are free", flush=True)
            indexer = [sys.executable, __file__, str(path)]
            subprocess.run(indexer, input=pair.read.reveal().hex(), text=True, check=True)
            intact = [name for name, block in blocks.items()
                      if session.read(block).rstrip(b"\0").decode() == DOCUMENTS[name]]
            print(f"appliance: {len(intact)} documents are as they were, {disk.free()} blocks are free")
    finally:
        hub.terminate()
        hub.wait()


if __name__ == "__main__":
    if len(sys.argv) > 1:
        index(sys.argv[1], tsd.Capability.from_hex(sys.stdin.read().strip()))
    else:
        with tempfile.TemporaryDirectory() as name:
            appliance(Path(name))

"""A request in the host's own process, by the library, against the program by two pipes, LMDB and SQLite, in the same
run, with the data in memory and on the disk: microseconds of a READ, a FREE and a durable WRITE of 512 bytes. And the
same from Python, by the package and by bare calls. Medians of five rounds, in each of which all ways take turns."""

from __future__ import annotations

import os
import shutil
import subprocess
import sys
from pathlib import Path
from statistics import median
from typing import Dict, List, NamedTuple

from trials import PROGRAM, TOP, Place, Row, Rows, call, left_out

ROUNDS = 5
COUNT = 20_000
# On the disk, and from Python.
SHARE_ON_DISK, SHARE_OF_PYTHON = 20, 4
SEED = "00" * 31 + "07"
STORES = (("LMDB", "lmdb", "-DWITH_LMDB", "-llmdb"), ("SQLite", "sqlite", "-DWITH_SQLITE", "-lsqlite3"))
WAYS = (
    ("read 1", "READ of 512 bytes by the library, a call for each"),
    ("read 100", "READ of 512 bytes by the library, 100 in a call"),
    ("free 1", "FREE by the library, a call for each"),
    ("free 100", "FREE by the library, 100 in a call"),
    ("write 1", "durable WRITE of 512 bytes by the library"),
    ("write batch", "durable WRITE of 512 bytes by the library, 100 in a batch, the opening counted in"),
)
PYTHON = (
    ("library", "from Python by the library"),
    ("program", "from Python by the program"),
    ("library-frames", "from Python by the library, bare calls"),
    ("program-frames", "from Python by the program, bare calls"),
)

Times = Dict[str, float]


class Tools(NamedTuple):
    """What was compiled: the folder of the programs, the stores that they know, and the library for Python."""

    folder: Path
    stores: List[str]
    shared: Path


def built(path: Path, *words: object) -> bool:
    """Compiles C; whether that went."""
    command = ["cc", "-O2", "-pthread", "-o", str(path), *map(str, words)]
    return subprocess.run(command, stderr=subprocess.DEVNULL).returncode == 0


def micros(tools: Tools, *words: object) -> Times:
    """The numbers that a program prints, by their names."""
    environment = {**os.environ, "TSD_EMBED_LIBRARY": str(tools.shared), "TSD_PROGRAM": str(PROGRAM)}
    told = subprocess.run(list(map(str, words)), stdout=subprocess.PIPE, check=True, text=True, env=environment).stdout
    return {line.rpartition(" ")[0]: float(line.rpartition(" ")[2]) for line in told.splitlines()}


def store_times(tools: Tools, folder: Path, store: str, count: int) -> Times:
    """A store's times; what it wrote goes."""
    path = folder / f"records-{store}"
    if store == "lmdb":
        path.mkdir()
    found = micros(tools, tools.folder / "stores", store, path, count)
    for each in folder.glob(f"records-{store}*"):
        shutil.rmtree(each) if each.is_dir() else each.unlink()
    return found


def one_round(tools: Tools, folder: Path, count: int) -> Dict[str, Times]:
    """The times of each way once, over data in one folder."""
    image = folder / "embedded.img"
    cap = call([image, "format", 1000, 1, 1000, 1, SEED]).split()[3].decode()
    found = {"library": micros(tools, tools.folder / "host", "time", image, cap, count),
             "pipe": micros(tools, tools.folder / "stores", "pipe", PROGRAM, image, cap, count)}
    found.update({store: store_times(tools, folder, store, count) for store in tools.stores})
    script = TOP / "bench/python_requests.py"
    for way, _ in PYTHON:
        found[f"python {way}"] = micros(tools, sys.executable, script, way, image, cap, count // SHARE_OF_PYTHON)
    image.unlink()
    return found


def rows_at(folder: Path, tools: Tools, where: str) -> Rows:
    """All ways over data in one folder."""
    count = COUNT if where == "in memory" else COUNT // SHARE_ON_DISK
    rounds = [one_round(tools, folder, count) for _ in range(ROUNDS)]

    def told(name: str, way: str, key: str) -> Row:
        return Row(f"{name}, {where}, µs", f"{median(each[way][key] for each in rounds):.2f}")

    for key, name in WAYS:
        yield told(name, "library", key)
    for key, name in (("read", "READ of 512 bytes"), ("free", "FREE"), ("write", "durable WRITE of 512 bytes")):
        yield told(f"{name} by the program and two pipes", "pipe", key)
    for name, store, _, _ in STORES:
        if store in tools.stores:
            yield told(f"a get of 512 bytes by {name}", store, "read")
            yield told(f"a durable put of 512 bytes by {name}", store, "write")
    for way, name in PYTHON:
        yield told(f"READ of 512 bytes {name}", f"python {way}", "read")
        yield told(f"durable WRITE of 512 bytes {name}", f"python {way}", "write")


def compiled(folder: Path) -> Tools:
    """All that is measured, and the stores that can be compiled against; no library where that can't be."""
    tools = Tools(folder, [], folder / "libtsd_embed.so")
    found = subprocess.run([TOP / "tools/embed", "--no-build"], capture_output=True, text=True).stdout.strip()
    host, stores = TOP / "clients/embed", TOP / "bench/stores.c"
    if found and built(folder / "host", host / "tests/run_embed.c", host / "tsd_embed.c", found):
        built(tools.shared, "-shared", "-fPIC", host / "tsd_embed.c", found)
    flags: List[str] = []
    for _, store, flag, library in STORES:
        if built(folder / "stores", flag, stores, library):
            tools.stores.append(store)
            flags += [flag, library]
    built(folder / "stores", stores, *flags)
    return tools


def rows(place: Place) -> Rows:
    """In memory and on the disk."""
    tools = compiled(place.memory)
    if not tools.shared.exists():
        yield left_out("requests by the library", "it isn't built, or there is no C compiler")
        return
    for name, store, _, _ in STORES:
        if store not in tools.stores:
            yield left_out(f"requests by {name}", "what is needed to compile against it isn't installed")
    yield from rows_at(place.memory, tools, "in memory")
    yield from rows_at(place.disk, tools, "on the disk")

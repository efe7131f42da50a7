"""./test itself: its options, the parts in their order, a line of progress for each, and the closing line."""

from __future__ import annotations

import argparse
import importlib
import os
import random
import re
import shutil
import subprocess
import sys
import tempfile
import time
import traceback
from collections import Counter
from concurrent.futures import ThreadPoolExecutor, as_completed
from pathlib import Path
from typing import Iterator, List, Optional, Tuple

from parts import FAILED, PASSED, SKIPPED, Context, Result, failed, skipped

PARTS = (
    "layout", "tour", "examples", "disk_rows", "random_runs", "choices", "large", "hubs", "files", "file_rows",
    "file_frames", "file_crashes", "file_batches", "file_faults", "clients", "rust_client", "c_client", "embedding",
    "virtual_disks", "mounts", "moving", "packages", "judge_faults", "crashes", "crash_rows", "failing_calls",
    "kills", "mirror", "audit", "copies", "behind", "groups", "edge", "slips", "completions", "pages",
)
# The parts that take longest.
LONG = ("random_runs", "clients", "failing_calls", "crashes", "embedding", "mirror", "copies", "file_crashes", "edge",
        "large", "hubs", "files", "slips", "audit")
TOP = Path(__file__).resolve().parent.parent
PROGRAMS = (TOP / "dist/x86_64-linux/tsd", TOP / "crates/tsd_cli/out/tsd_cli")
MEMORY_FOLDER = Path("/dev/shm")
REDRAW_SECONDS = 0.1


def options(words: Optional[List[str]] = None) -> argparse.Namespace:
    """The options of the command line."""
    found = next((program for program in PROGRAMS if program.exists()), PROGRAMS[-1])
    text = "Tests the built program; the last line is 'N passed, N failed', and the status 1 where something failed."
    more = f"The parts: {', '.join(PARTS)}. Each is a module of tests/ that says at its head what it tests."
    parser = argparse.ArgumentParser(prog="./test", description=text, epilog=more)
    parser.add_argument("--program", type=Path, default=found, help="the program (as things are: %(default)s)")
    parser.add_argument("--crashes", type=int, default=3000, help="how many crashes are tested (%(default)s)")
    parser.add_argument("--seed", type=int, help="what the random parts are drawn from; printed at the start")
    parser.add_argument("--only", choices=PARTS, action="append", help="this part alone; may be given again")
    parser.add_argument("--jobs", type=int, default=1, help="how many parts run side by side (%(default)s)")
    return parser.parse_args(words)


class Progress:
    """A line for each part: rewritten in place at a terminal, once at its end otherwise. Failures stand above it."""

    def __init__(self) -> None:
        self.counts: Counter = Counter()
        self.part: Counter = Counter()
        self.name = ""
        self.began = self.drawn = 0.0
        self.at_terminal = sys.stdout.isatty()

    def begin(self, name: str) -> None:
        """A part begins."""
        self.name, self.part, self.began, self.drawn = name, Counter(), time.monotonic(), 0.0

    def count(self, result: Result) -> None:
        """A result came."""
        self.part[result.outcome] += 1
        self.counts[result.outcome] += 1
        if result.outcome != PASSED:
            self._wipe()
            print(f"{self.name}: {result.outcome}: {result.name}" + indented(result.text), flush=True)
        if self.at_terminal and time.monotonic() - self.drawn > REDRAW_SECONDS:
            self._wipe()
            print(self._line() + f" ... {result.name}"[:60], end="", flush=True)
            self.drawn = time.monotonic()

    def end(self) -> None:
        """The part has ended."""
        self._wipe()
        print(self._line(), flush=True)

    def _line(self) -> str:
        return f"{self.name}: {closing(self.part)}, {time.monotonic() - self.began:.0f} s"

    def _wipe(self) -> None:
        if self.at_terminal:
            print("\r\033[K", end="")


def indented(text: str) -> str:
    """A text of one line behind a colon; one of several below, indented."""
    if "\n" not in text:
        return f": {text}" if text else ""
    return "\n" + "\n".join("    " + line for line in text.splitlines())


def closing(counts: Counter) -> str:
    """'N passed, N failed', and how many were skipped where any were."""
    text = f"{counts[PASSED]} passed, {counts[FAILED]} failed"
    return text + (f", {counts[SKIPPED]} skipped" if counts[SKIPPED] else "")


def results_of(name: str, context: Context) -> Iterator[Result]:
    """The results of a part; one that isn't there is skipped, one that breaks off has failed."""
    if not (TOP / "tests" / f"{name}.py").exists():
        yield skipped(name, f"tests/{name}.py isn't there")
        return
    try:
        yield from importlib.import_module(name).run(context)
    except Exception:
        yield failed(f"{name} broke off", traceback.format_exc())


def tried(names: List[str], given: argparse.Namespace) -> Counter:
    """Tries the parts, each in a folder of its own: in memory where it can be, since syncs are cheap there."""
    progress = Progress()
    place = MEMORY_FOLDER if os.access(MEMORY_FOLDER, os.W_OK) else None
    compiler = next(filter(None, map(shutil.which, ("cc", "gcc", "clang"))), None)
    for name in names:
        progress.begin(name)
        with tempfile.TemporaryDirectory(prefix=f"tsd-{name}-", dir=place) as folder:
            context = Context(given.program.resolve(), Path(folder), TOP, given.seed, given.crashes, compiler,
                              os.geteuid() == 0)
            for result in results_of(name, context):
                progress.count(result)
        progress.end()
    return progress.counts


def tried_apart(name: str, given: argparse.Namespace) -> Tuple[str, Counter]:
    """Tries a part in a process of its own: what that printed of it, and its counts."""
    words = [sys.executable, str(TOP / "test"), "--program", str(given.program), "--seed", str(given.seed),
             "--crashes", str(given.crashes), "--only", name]
    done = subprocess.run(words, stdout=subprocess.PIPE, stderr=subprocess.STDOUT, text=True, errors="replace")
    *lines, last = done.stdout.splitlines() or [""]
    counts = Counter({word: int(number) for number, word in re.findall(r"(\d+) (passed|failed|skipped)", last)})
    if done.returncode and not counts[FAILED]:
        lines, counts = [*lines, last, f"{name}: ended with status {done.returncode}"], Counter({FAILED: 1})
    # (the first line names the program and the seed)
    return "\n".join(lines[1:]), counts


def tried_side_by_side(names: List[str], given: argparse.Namespace) -> Counter:
    """Tries so many parts at a time, those that take long first. What a part printed is printed when it has ended."""
    counts: Counter = Counter()
    with ThreadPoolExecutor(given.jobs) as pool:
        first = sorted(names, key=lambda name: name not in LONG)
        for done in as_completed([pool.submit(tried_apart, name, given) for name in first]):
            text, found = done.result()
            print(text, flush=True)
            counts += found
    return counts


def main(words: Optional[List[str]] = None) -> int:
    """Runs ./test with these words; its exit status, which is 1 also where nothing at all could be tried."""
    given = options(words)
    if given.seed is None:
        given.seed = random.SystemRandom().randrange(2**32)
    if not os.access(given.program, os.X_OK):
        print(f"{given.program}: no program is there; `make` builds it")
        print("0 passed, 1 failed")
        return 1
    print(f"program {given.program}, seed {given.seed}", flush=True)
    names = given.only or list(PARTS)
    counts = tried_side_by_side(names, given) if given.jobs > 1 else tried(names, given)
    print(closing(counts))
    return 1 if counts[FAILED] or not counts[PASSED] else 0

"""The package in python/ over the program: the client, tsd-hub, tsd-shell, the examples and installations. The tests
are those of python/tests, which also run alone: python3 -m unittest discover -s python/tests. Each file of them has a
process, two at a time; what Python makes of modules they share, outside the tree."""

from __future__ import annotations

import json
import os
import subprocess
import sys
import traceback
import unittest
from concurrent.futures import ThreadPoolExecutor, as_completed
from pathlib import Path
from typing import Any, Iterator, List

from parts import Context, Result, failed, passed, skipped

NAME = "clients"
SIDE_BY_SIDE = 2
# These take longest, and so they go first.
LONGEST = ("test_hub_fair", "test_install", "test_hub", "test_hub_outside", "test_puts", "test_processes", "test_shell")
# It needs the library, so the part `embedding` runs it.
EMBEDDED = "test_embedded"
MOST_SECONDS = 900


class Outcomes(unittest.TestResult):
    """Prints each outcome as a line of JSON; a test with failures in it, as those of subtests, has failed."""

    def tell(self, result: Result) -> None:
        """Prints it."""
        print(json.dumps(result), file=sys.__stdout__, flush=True)

    def addSuccess(self, test: unittest.TestCase) -> None:
        self.tell(passed(name_of(test)))

    def addSkip(self, test: unittest.TestCase, reason: str) -> None:
        self.tell(skipped(name_of(test), reason))

    def addFailure(self, test: unittest.TestCase, err: Any) -> None:
        self.tell(failed(name_of(test), "".join(traceback.format_exception(*err))))

    addError = addFailure

    def addSubTest(self, test: unittest.TestCase, subtest: unittest.TestCase, err: Any) -> None:
        if err is not None:
            self.addFailure(subtest, err)


def name_of(test: unittest.TestCase) -> str:
    """A test without the name of its package."""
    return test.id().replace("unittest.suite._ErrorHolder.", "")


def in_order(folder: Path) -> List[str]:
    """The files of tests, those first that take longest."""
    names = sorted(path.stem for path in folder.glob("test_*.py") if path.stem != EMBEDDED)
    return [name for name in LONGEST if name in names] + [name for name in names if name not in LONGEST]


def results_of(context: Context, name: str) -> List[Result]:
    """The results of one file, in a process of its own."""
    environment = {**os.environ, "TSD_PROGRAM": str(context.program)}
    environment["PYTHONPYCACHEPREFIX"] = str(context.folder / "made")
    environment.pop("PYTHONDONTWRITEBYTECODE", None)
    words = [sys.executable, str(Path(__file__).resolve()), str(context.top / "python" / "tests"), name]
    try:
        done = subprocess.run(words, env=environment, cwd=context.folder, stdin=subprocess.DEVNULL, capture_output=True,
                              text=True, errors="replace", timeout=MOST_SECONDS)
    except subprocess.TimeoutExpired:
        return [failed(name, f"it took more than {MOST_SECONDS} s")]
    found = [Result(*json.loads(line)) for line in done.stdout.splitlines() if line.startswith("[")]
    if done.returncode != 0 or not found:
        found.append(failed(name, f"its process ended with {done.returncode}: {done.stderr}"))
    return found


def run(context: Context) -> Iterator[Result]:
    """A result for each test."""
    with ThreadPoolExecutor(SIDE_BY_SIDE) as pool:
        files = [pool.submit(results_of, context, name) for name in in_order(context.top / "python" / "tests")]
        for each in as_completed(files):
            yield from each.result()


if __name__ == "__main__":
    sys.path.insert(0, sys.argv[1])
    unittest.defaultTestLoader.loadTestsFromName(sys.argv[2]).run(Outcomes())

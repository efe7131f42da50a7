"""The edge of the program: descriptors, folders and modes. The script tests/edge tries them and prints a line for each
thing that it tried, which begins with its outcome; this part hands its lines on."""

from __future__ import annotations

import re
import subprocess
import threading
from typing import Iterator

from parts import FAILED, Context, Result, failed, skipped

NAME = "edge"
MOST_SECONDS = 480
LINE = re.compile(r"(passed|failed|skipped)\s+([^:]*)(?:: (.*))?")


def run(context: Context) -> Iterator[Result]:
    """A result for each line of the script; it has to end with status 1 where one failed, else with 0."""
    script = context.top / "tests" / "edge"
    if not script.exists():
        yield skipped("tests/edge", "the script isn't there")
        return
    command = [str(script), "--program", str(context.program)]
    told = wrong = 0
    with subprocess.Popen(command, cwd=context.folder, stdin=subprocess.DEVNULL, stdout=subprocess.PIPE,
                          stderr=subprocess.STDOUT, text=True, errors="replace") as child:
        late = threading.Timer(MOST_SECONDS, child.kill)
        late.start()
        for line in child.stdout or ():
            found = LINE.fullmatch(line.strip())
            if found:
                told += 1
                wrong += found[1] == FAILED
                yield Result(found[2], found[1], found[3] or "")
        status = child.wait()
        late.cancel()
    if told == 0 or status != (1 if wrong else 0):
        yield failed("tests/edge", f"status {status} after {told} lines")

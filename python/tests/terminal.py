"""A process at a terminal of its own: what is typed, and what is shown."""

from __future__ import annotations

import os
import pty
import re
import select
import subprocess
import sys
import time
from pathlib import Path
from typing import Sequence

from support import MOST_SECONDS

ESCAPES = re.compile(rb"\x1b\[[0-9;?]*[A-Za-z]|\x07")

# Whoever runs these tests may have Ctrl-C ignored, as a shell does for what it runs in the background.
AS_AT_A_TERMINAL = """
import os, signal, sys
signal.signal(signal.SIGINT, signal.SIG_DFL)
os.execv(sys.argv[1], sys.argv[1:])
"""


class Terminal:
    """A process at a terminal of its own."""

    def __init__(self, words: Sequence[str], folder: Path) -> None:
        self.shown = b""
        self._at = 0
        self._terminal, theirs = pty.openpty()
        more = {"TERM": "dumb", "INPUTRC": "/dev/null", "XDG_STATE_HOME": str(folder / "state"), "COLUMNS": "200"}
        # Not pty.fork(): other tests leave threads behind, and a fork beside threads may come to a stop.
        self.process = subprocess.Popen(["setsid", "-c", sys.executable, "-c", AS_AT_A_TERMINAL, *words], cwd=folder,
                                        env={**os.environ, **more}, stdin=theirs, stdout=theirs, stderr=theirs)
        os.close(theirs)

    def wait_for(self, text: str) -> str:
        """What is shown from here on up to this text."""
        end = time.monotonic() + MOST_SECONDS
        while True:
            seen = ESCAPES.sub(b"", self.shown)
            found = seen.find(text.encode(), self._at)
            if found >= 0:
                told, self._at = seen[self._at:found].decode(errors="replace"), found + len(text)
                return told
            if time.monotonic() > end or not self._read(end):
                raise AssertionError(f"{text!r} was not shown, but {seen[self._at:]!r}")

    def type(self, text: str) -> None:
        """Types."""
        os.write(self._terminal, text.encode())

    def ask(self, line: str) -> str:
        """Types a line, and gives what is shown up to the next prompt."""
        self.type(line + "\n")
        return self.wait_for("tsd> ").replace("\r", "").partition("\n")[2]

    def ended(self) -> int:
        """Its status."""
        while self._read(time.monotonic() + MOST_SECONDS):
            pass
        os.close(self._terminal)
        return self.process.wait(MOST_SECONDS)

    def _read(self, end: float) -> bool:
        if not select.select([self._terminal], [], [], max(0.0, end - time.monotonic()))[0]:
            return False
        try:
            piece = os.read(self._terminal, 65536)
        except OSError:
            return False
        self.shown += piece
        return bool(piece)

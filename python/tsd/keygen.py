"""The command `tsd-keygen`: makes capabilities, each in a file of its own that its owner alone may read."""

from __future__ import annotations

import argparse
import os
import sys
from typing import List, Optional

from tsd.capability import Capability

FAILED = 1


def make_file(path: str) -> None:
    """Puts a new capability into a file that isn't there yet, as 32 hexadecimal digits; mode 600."""
    descriptor = os.open(path, os.O_CREAT | os.O_EXCL | os.O_WRONLY | os.O_CLOEXEC, 0o600)
    try:
        os.write(descriptor, Capability.new().reveal().hex().encode() + b"\n")
        os.fsync(descriptor)
    except OSError:
        os.unlink(path)
        raise
    finally:
        os.close(descriptor)


def main(words: Optional[List[str]] = None) -> int:
    """The command; its exit status."""
    parser = argparse.ArgumentParser(
        prog="tsd-keygen", description="Makes a capability that nobody can guess in each file, readable by you alone.",
        epilog="A file that is there already stays as it is. The word @FILE stands for a capability in tsd's commands.")
    parser.add_argument("files", nargs="+", metavar="FILE", help="a file that isn't there yet")
    given = parser.parse_args(words)
    made: List[str] = []
    for path in given.files:
        try:
            make_file(path)
        except OSError as error:
            told = f"; made before: {', '.join(made)}" if made else ""
            why = "it is there already, and stays" if isinstance(error, FileExistsError) else error.strerror
            print(f"tsd-keygen: {path}: {why}{told}", file=sys.stderr)
            return FAILED
        made.append(path)
    return 0

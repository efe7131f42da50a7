"""The command `tsd-hub`."""

from __future__ import annotations

import argparse
import contextlib
import socket
import sys
from typing import List, Optional

import tsd
from tsd.frames import LENGTH_BYTES, frame
from tsd.hub.bodies import STATS_BODY
from tsd.hub.listening import inherited, listening
from tsd.hub.places import SESSIONS
from tsd.hub.serving import serve
from tsd.hub_words import HEAD_BYTES
from tsd.programs import PLACES

FAILED = 1
NO_COMMAND = 2
MOST_SECONDS = 1e9
SECONDS_TO_ANSWER = 60.0
REFUSED = b"\x08\x00"


def mode(text: str) -> int:
    """The mode of a file, in octal digits."""
    value = int(text, 8)
    if not 0 <= value <= 0o777:
        raise ValueError
    return value


def per_user(text: str) -> int:
    """How many sessions a user may have."""
    value = int(text)
    if value not in SESSIONS:
        raise ValueError
    return value


def seconds(text: str) -> float:
    """A number of seconds above 0."""
    value = float(text)
    if not 0 < value <= MOST_SECONDS:
        raise ValueError
    return value


def parser() -> argparse.ArgumentParser:
    """What the words of the command line mean."""
    parser = argparse.ArgumentParser(
        prog="tsd-hub",
        description="Serves one disk to many processes at a Unix socket, each with a session of its own.",
        epilog="Ends with the status of the disk's program, and with 1 where that was killed. Standard error has a "
               "line for each connection and end, but not for more than 10 a second.")
    parser.add_argument("image", nargs="?", help="the image of the disk")
    parser.add_argument("place", nargs="?", choices=PLACES, help="which free block is taken first")
    parser.add_argument("--socket", metavar="PATH",
                        help="the socket's path, of at most 107 bytes; without it the socket is systemd's")
    parser.add_argument("--mode", type=mode, default=0o600, help="the socket's mode in octal digits (600)")
    parser.add_argument("--program", help="the program tsd")
    parser.add_argument("--per-user", type=per_user, default=16, metavar="N",
                        help="how many sessions one user may have at once, 1 to 64 (16)")
    parser.add_argument("--idle", type=seconds, metavar="SECONDS",
                        help="closes a client that asks nothing for so long (never)")
    parser.add_argument("--metrics", metavar="PATH", help="keeps the hub's numbers in this file, in Prometheus's form")
    parser.add_argument("--stop-limit", type=seconds, default=60.0, metavar="SECONDS",
                        help="when it is stopped, kills a disk that doesn't end within this time (60)")
    parser.add_argument("--stats", metavar="SOCKET", help="prints the numbers of the hub at a socket")
    parser.add_argument("--version", action="version", version=f"tsd-hub {tsd.__version__} (Python)")
    return parser


def stats_of(path: str) -> str:
    """The numbers of the hub at a socket; OSError where it has none for this process."""
    with socket.socket(socket.AF_UNIX, socket.SOCK_STREAM) as hub:
        hub.settimeout(SECONDS_TO_ANSWER)
        hub.connect(path)
        # A hub that is full tells that before it takes anything.
        with contextlib.suppress(OSError):
            hub.sendall(frame(STATS_BODY))
        with hub.makefile("rb") as replies:
            body = replies.read(int.from_bytes(replies.read(LENGTH_BYTES), "little"))
    if body.startswith(STATS_BODY):
        return body[len(STATS_BODY):].decode(errors="replace")
    if body == REFUSED:
        raise OSError("this hub tells its numbers to its own user and to root alone, or is an older one")
    raise OSError(body[HEAD_BYTES:].decode(errors="replace") or "the hub has no place left, or ends")


def run(given: argparse.Namespace) -> int:
    """Runs the hub."""
    if given.socket:
        with listening(given.socket, given.mode) as listener:
            return serve(given, listener)
    inherited_one = inherited()
    if inherited_one is None:
        print("tsd-hub: no --socket was given, and none comes from systemd", file=sys.stderr)
        return NO_COMMAND
    with inherited_one as listener:
        return serve(given, listener)


def main(words: Optional[List[str]] = None) -> int:
    """The command; its exit status."""
    wanted = parser()
    given = wanted.parse_args(words)
    if given.stats is None and given.place is None:
        wanted.error("an image and a place are wanted")
    try:
        if given.stats is None:
            return run(given)
        print(stats_of(given.stats), end="")
        return 0
    except OSError as error:
        about = f"{given.stats}: " if given.stats else ""
        print(f"tsd-hub: {about}{error}", file=sys.stderr)
        return FAILED

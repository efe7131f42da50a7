"""The table of cases by which the clients for Python, Rust and C are tried: clients/cases.txt, whose head says how it
is written; and what the tests of all three need: disks, hubs, and other sides that misbehave."""

from __future__ import annotations

import contextlib
import socket
import stat
import subprocess
import sys
import threading
import time
from pathlib import Path
from typing import Iterator, List, NamedTuple, Tuple

SEED = bytes(range(32))
OPEN_FRAME = 7
MOST_SECONDS = 60


class Case(NamedTuple):
    """A case over a disk of its own: its size (blocks, sectors, slots, primaries), and requests with their replies."""

    name: str
    is_alone: bool
    size: List[str]
    steps: List[Tuple[str, str]]


class Link(NamedTuple):
    """What another side sends, and how the link then ends. A program has a status."""

    is_hub: bool
    status: int
    sent: bytes
    end: str


class Table(NamedTuple):
    """All that the file has."""

    cases: List[Case]
    replies: List[Tuple[bytes, str]]
    links: List[Link]


def bytes_of(text: str) -> bytes:
    """The bytes of hexadecimal digits and BYTE*COUNT, parted by spaces; `-` is none."""
    found = b""
    for word in text.split():
        digits, star, count = word.partition("*")
        found += b"" if word == "-" else bytes.fromhex(digits) * (int(count) if star else 1)
    return found


def read_table(top: Path) -> Table:
    """Reads the file."""
    table = Table([], [], [])
    for line in (top / "clients/cases.txt").read_text().splitlines():
        if not line or line.startswith("#"):
            continue
        word, rest = line.split(" ", 1)
        if word == "case":
            table.cases.append(Case(rest, rest.endswith(" alone"), [], []))
        elif word == "disk":
            table.cases[-1].size.extend(rest.split())
        elif word == "reply":
            body, reply = rest.split("> ")
            table.replies.append((bytes_of(body), reply))
        elif word == "link":
            table.links.append(link_of(rest))
        else:
            request, reply = line.split(" > ")
            table.cases[-1].steps.append((request, reply))
    return table


def link_of(rest: str) -> Link:
    """A line of a link, without its first word."""
    words, end = rest.split(" > ")
    sender, words = words.split(" ", 1)
    if sender == "hub":
        return Link(True, 0, bytes_of(words), end)
    status, words = words.split(" ", 1)
    return Link(False, int(status), bytes_of(words), end)


def make_disk(program: Path, image: Path, size: List[str]) -> List[str]:
    """Makes a disk; the digits of its capabilities, R0 and W0 first."""
    command = [str(program), str(image), "format", *size, SEED.hex()]
    done = subprocess.run(command, capture_output=True, text=True, check=True, timeout=MOST_SECONDS)
    return [digits for line in done.stdout.splitlines() for digits in line.split()[2:]]


def written_out(request: str, caps: List[str]) -> str:
    """A request as docs/FORMAT.md spells it: with digits for R0 and W0, and BYTE*COUNT written out."""
    words = []
    for word in request.split(" "):
        if word[0] in "RW":
            word = caps[2 * int(word[1:]) + (word[0] == "W")]
        elif "*" in word:
            word = bytes_of(word).hex()
        words.append(word)
    return " ".join(words)


def until(is_so, what: str) -> None:
    """Waits until something is so; an error after a minute."""
    end = time.monotonic() + MOST_SECONDS
    while not is_so():
        assert time.monotonic() < end, f"it took too long: {what}"
        time.sleep(0.005)


@contextlib.contextmanager
def running_hub(top: Path, program: Path, image: Path) -> Iterator[Path]:
    """A hub over an image: its socket."""
    path = image.with_suffix(".sock")
    words = [sys.executable, str(top / "python/bin/tsd-hub"), str(image), "near", "--socket", str(path)]
    hub = subprocess.Popen(words + ["--program", str(program)], stderr=subprocess.DEVNULL)
    try:
        until(lambda: path.exists() or hub.poll() is not None, "the hub opens its socket")
        yield path
    finally:
        hub.terminate()
        hub.wait(MOST_SECONDS)


def fake_program(path: Path, sent: bytes, end: str) -> Path:
    """A program that takes the frame of an opening, sends bytes, and ends so."""
    escaped = "".join(f"\\{byte:03o}" for byte in sent)
    path.write_text(f"#!/bin/sh\n[ \"$1\" != help ] || exit 2\nhead -c {OPEN_FRAME} >/dev/null\nprintf '{escaped}'\n"
                    f"echo 'tsd: device fault' >&2\n{end}\n")
    path.chmod(path.stat().st_mode | stat.S_IXUSR)
    return path


@contextlib.contextmanager
def fake_hub(path: Path, sent: bytes) -> Iterator[Path]:
    """A hub that does so for one client."""
    listener = socket.socket(socket.AF_UNIX, socket.SOCK_STREAM)
    listener.bind(str(path))
    listener.listen()

    def serve() -> None:
        connection, _ = listener.accept()
        with connection, contextlib.suppress(OSError):
            left = OPEN_FRAME
            while left > 0:
                left -= len(connection.recv(left)) or left
            connection.sendall(sent)

    server = threading.Thread(target=serve, daemon=True)
    server.start()
    try:
        yield path
    finally:
        server.join(MOST_SECONDS)
        listener.close()
        path.unlink()


@contextlib.contextmanager
def other_side(folder: Path, link: Link) -> Iterator[Path]:
    """The other side of a link: a hub's socket, or a program."""
    if link.is_hub:
        with fake_hub(folder / "other.sock", link.sent) as found:
            yield found
    else:
        yield fake_program(folder / "other", link.sent, f"exit {link.status}")


def memory_has(process: int, secret: bytes) -> bool:
    """Whether these bytes, or their hexadecimal digits, stand in what a process can write to."""
    wanted = (secret, secret.hex().encode(), secret.hex().upper().encode())
    with open(f"/proc/{process}/maps") as maps, open(f"/proc/{process}/mem", "rb", 0) as memory:
        for line in maps:
            span, rights = line.split()[:2]
            if not rights.startswith("rw"):
                continue
            start, end = (int(number, 16) for number in span.split("-"))
            with contextlib.suppress(OSError, ValueError):
                memory.seek(start)
                text = memory.read(end - start)
                if any(one in text for one in wanted):
                    return True
    return False


def forgets(words: List[str], secret: bytes) -> Tuple[bool, bool]:
    """Whether a program has a capability in its memory while it holds it, and once it has dropped it: it prints `held`
    and then `dropped`, and waits for a byte after each."""
    with subprocess.Popen(words, stdin=subprocess.PIPE, stdout=subprocess.PIPE) as process:
        try:
            assert process.stdin and process.stdout
            assert process.stdout.readline() == b"held\n"
            held = memory_has(process.pid, secret)
            process.stdin.write(b"\n")
            process.stdin.flush()
            assert process.stdout.readline() == b"dropped\n"
            return held, memory_has(process.pid, secret)
        finally:
            process.kill()

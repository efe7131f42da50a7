"""The cases of clients/cases.txt, which the clients for Rust and C are tried by too: over the program and over a hub,
one request after another and all at once; each body of a reply; links that end."""

from __future__ import annotations

import unittest
from concurrent.futures import Future
from pathlib import Path
from typing import Callable, Dict, List, Optional

from support import MOST_SECONDS, PROGRAM, TOP, InFolder, tsd

from case_table import Case, Link, bytes_of, make_disk, other_side, read_table, running_hub, written_out
from tsd import link, peers, requests
from tsd.hub_words import greeting_of, what_is_told
from tsd.replies import Kind, decode_reply

TABLE = read_table(TOP)
SAME_BYTES = 16
WORDS: Dict[str, str] = {"NoRun": "run"}


def words_of(name: str) -> str:
    """The name of an exception as docs/FORMAT.md spells its rule: BadRequest is `bad-request`."""
    spelled = "".join(f"-{letter.lower()}" if letter.isupper() else letter for letter in name)[1:]
    return WORDS.get(name, spelled)


def data_of(data: bytes) -> str:
    """The bytes of a block, as the table has them."""
    data = data.rstrip(b"\0")
    if len(data) > SAME_BYTES and len(set(data)) == 1:
        return f"data {data[0]:02x}*{len(data)}"
    return f"data {data.hex() or '-'}"


def printed(kind: Kind, value: object) -> str:
    """A reply, as a line of docs/FORMAT.md."""
    if isinstance(value, tsd.Refused):
        return " ".join(["no", words_of(type(value).__name__), *map(str, value.args)])
    if isinstance(value, tsd.NoMemory):
        return "no memory"
    if isinstance(value, bytes):
        return data_of(value)
    if kind in (Kind.BLOCKS, Kind.TARGETS):
        assert isinstance(value, list)
        return " ".join(["blocks" if kind == Kind.BLOCKS else "list", *(map(str, value) if value else "-")])
    return "ok" if value is None else f"{kind.name.lower()} {value}"


def end_of(error: tsd.LinkError) -> str:
    """Why a link ended, as the table has it."""
    name = words_of(type(error).__name__)
    inside = " inside" if getattr(error, "is_cut_off", False) else ""
    if isinstance(error, tsd.ProgramEnded):
        return f"{name} {error.status}{inside}"
    if isinstance(error, tsd.DiskEnded):
        return f"{name} {error.status} {error.words}".strip()
    return f"{name}{inside} {getattr(error, 'words', '')}".strip()


def request_of(line: str) -> "tuple[requests.Request, int]":
    """The request that a line spells, and its session."""
    word, *rest = line.split(" ")
    session = int(rest[0]) if rest else 0

    def cap(at: int) -> Optional[tsd.Capability]:
        return None if rest[at] == "-" else tsd.Capability.from_hex(rest[at])

    def number(at: int) -> int:
        return int(rest[at])

    def hint() -> Optional[int]:
        return None if rest[3] == "-" else number(3)

    made: Dict[str, Callable[[], requests.Request]] = {
        "open": lambda: requests.Begin(),
        "close": lambda: requests.End(),
        "free": lambda: requests.GetFree(),
        "sweep": lambda: requests.Sweep(cap(1)),
        "read": lambda: requests.Read(number(1), cap(2)),
        "write": lambda: requests.Write(number(1), bytes_of(rest[3]), cap(2)),
        "alloc": lambda: requests.Alloc(number(1), number(4), cap(2), hint()),
        "contig": lambda: requests.AllocContiguous(number(1), number(4), cap(2), hint()),
        "create": lambda: requests.Create(number(1), number(3), cap(2)),
        "delete": lambda: requests.Delete(number(1), number(3), cap(2)),
        "setcap": lambda: requests.SetCapabilities(
            number(1), tsd.Capability.from_hex(rest[3]), tsd.Capability.from_hex(rest[4]), cap(2)),
        "list": lambda: requests.List64(number(1), number(3), cap(2)),
    }
    return made[word](), session


def answer_of(request: requests.Request, future: Future) -> str:
    """What came, as the table has it."""
    try:
        return printed(request.KIND, future.result(MOST_SECONDS))
    except (tsd.Refused, tsd.NoMemory) as refused:
        return printed(request.KIND, refused)


class Cases(InFolder):
    """Sessions, and how links end."""

    def try_case(self, case: Case, caps: List[str], disk: tsd.Disk, together: bool) -> None:
        """Carries out a case, and compares each answer."""
        waiting = []
        for line, expected in case.steps:
            request, session = request_of(written_out(line, caps))
            future = disk.ask(request, session)
            if not together:
                self.assertEqual(expected, answer_of(request, future), line)
            waiting.append((line, expected, request, future))
        for line, expected, request, future in waiting:
            self.assertEqual(expected, answer_of(request, future), line)

    def test_each_case_by_the_program(self) -> None:
        for case in TABLE.cases:
            for together in (False, True):
                with self.subTest(case.name, together=together):
                    caps = make_disk(Path(PROGRAM), self.image, case.size)
                    with tsd.open(self.image) as disk:
                        self.try_case(case, caps, disk, together)

    def test_each_case_by_a_hub(self) -> None:
        for case in TABLE.cases:
            for together in (False, True) if not case.is_alone else ():
                with self.subTest(case.name, together=together):
                    caps = make_disk(Path(PROGRAM), self.image, case.size)
                    with running_hub(TOP, Path(PROGRAM), self.image) as path, tsd.connect(path) as disk:
                        self.try_case(case, caps, disk, together)

    def test_each_link_ends_as_it_should(self) -> None:
        for each in TABLE.links:
            with self.subTest(each), other_side(self.folder, each) as path:
                self.assertEqual(each.end, self.found_end(each, path))

    def found_end(self, each: Link, path: Path) -> str:
        """How the link to this other side ends."""
        peer = peers.SocketPeer(str(path), MOST_SECONDS) if each.is_hub else peers.ProgramPeer([str(path), "x"])
        made = link.Link(peer, MOST_SECONDS)
        try:
            made.ask(requests.Begin(), 1).result()
        except tsd.Refused as refused:
            return f"open-refused {words_of(type(refused).__name__)}"
        except tsd.NoMemory:
            return "no-memory"
        except tsd.LinkError:
            pass
        finally:
            made.close()
        assert made.failure is not None
        return end_of(made.failure)


class Bodies(unittest.TestCase):
    """What a body says."""

    def test_each_body_of_a_reply(self) -> None:
        for body, expected in TABLE.replies:
            with self.subTest(body=body[:20].hex()):
                self.assertEqual(expected, self.found(body))

    def found(self, body: bytes) -> str:
        """What it says, as the table has it."""
        told, greeting = what_is_told(body), greeting_of(body)
        if told is not None:
            return end_of(told)
        if greeting is not None:
            return "greeting " + " ".join(map(str, greeting))
        try:
            reply = decode_reply(body)
        except tsd.NoReply:
            return "none"
        return printed(reply.kind, reply.value)

"""The frames of the client: against docs/FORMAT.md, and against the encoder of tests/, which shares no code with it."""

from __future__ import annotations

import copy
import pickle
import random
import re
import unittest
from typing import Any, Dict, List, Optional

from support import TOP, tsd

import disk_requests
from tsd import errors, requests
from tsd.frames import FrameCutter, frame
from tsd.hub_words import DISK_ENDED, FULL, STOPPED, told_body, what_is_told
from tsd.replies import Kind, decode_reply

EXAMPLE = re.compile(r"^\| [^|`]+ \| `([0-9a-f ]+)` \| [^|`]+ \| `([0-9a-f ]+)` \|$", re.MULTILINE)
RULE = re.compile(r"^\| (\d+) \| ([^|]+?) \| ([^|]*?) ?\|$", re.MULTILINE)
CAP = bytes(range(16))
CASES = 400
KINDS = {"open": requests.Begin, "close": requests.End, "read": requests.Read, "write": requests.Write,
         "alloc": requests.Alloc, "contig": requests.AllocContiguous, "free": requests.GetFree,
         "create": requests.Create, "delete": requests.Delete, "setcap": requests.SetCapabilities,
         "sweep": requests.Sweep, "list": requests.List64}
# What the encoder of tests/ calls a field, and what the client calls it.
OTHERS = {"shown": "cap", "read_cap": "read", "write_cap": "write"}
OF_SOURCES = ("alloc", "contig", "create", "delete", "list")


def cap_of(secret: Optional[bytes]) -> Optional[tsd.Capability]:
    """A capability, or nothing shown."""
    return None if secret is None else tsd.Capability(secret)


def drawn(rng: random.Random, name: str) -> disk_requests.Request:
    """A request of this name with random fields."""
    def number() -> int:
        return rng.choice([0, 1, 7, 255, 256, 65536, 2**32 - 1, rng.getrandbits(32)])
    values: Dict[str, Any] = {}
    for field in disk_requests.REQUEST_FIELDS[name]:
        if field in ("shown", "read_cap", "write_cap"):
            secret = rng.getrandbits(128).to_bytes(16, "little")
            values[field] = None if field == "shown" and rng.random() < 0.3 else secret
        elif field == "data":
            values[field] = rng.getrandbits(8 * 40).to_bytes(40, "little")[:rng.randint(0, 40)] * rng.choice([1, 100])
        else:
            values[field] = None if field == "hint" and rng.random() < 0.3 else number()
    return disk_requests.Request(name, **values)


def of_client(one: disk_requests.Request) -> requests.Request[Any]:
    """The same request as the client has it."""
    values = {}
    for field in disk_requests.REQUEST_FIELDS[one.name]:
        value = getattr(one, field)
        if field in OTHERS:
            values[OTHERS[field]] = cap_of(value)
        elif field != "session":
            values["source" if field == "block" and one.name in OF_SOURCES else field] = value
    return KINDS[one.name](**values)


class Requests(unittest.TestCase):
    """From requests to bodies."""

    def test_random_requests_have_the_bodies_of_another_encoder(self) -> None:
        rng = random.Random(1)
        for name in list(KINDS) * (CASES // len(KINDS)):
            one = drawn(rng, name)
            self.assertEqual(disk_requests.request_body(one), of_client(one).encode(one.session), one)

    def test_numbers_that_do_not_fit_are_told(self) -> None:
        for value in (-1, 2**32):
            with self.assertRaises(ValueError):
                requests.Read(value).encode(1)
        with self.assertRaises(ValueError):
            frame(bytes(65536))


class Replies(unittest.TestCase):
    """From bodies to replies."""

    def test_random_replies_are_read_as_by_another_reader(self) -> None:
        rng = random.Random(2)
        for _ in range(20 * CASES):
            length = rng.choice([0, 0, 1, 2, 3, 4, 8, 9, 128, 256, 260, 512, 1024, 4096, 4097])
            body = bytes([rng.choice([*range(1, 9), rng.randrange(256)]), rng.randrange(20)])[:rng.randint(0, 2)]
            body += bytes(rng.choice((0, 1, 2, 3)) for _ in range(min(length, 64))).ljust(length, b"\1")
            self.check_reply(body)

    def test_all_short_bodies_are_read_as_by_another_reader(self) -> None:
        for first in range(256):
            self.check_reply(bytes([first]))
            for second in (*range(20), 127, 128, 255):
                self.check_reply(bytes([first, second]))
                self.check_reply(bytes([first, second, 1, 2]))
                self.check_reply(bytes([first, second]) + bytes(8))

    def check_reply(self, body: bytes) -> None:
        """One body by both readers."""
        expected = disk_requests.parse_reply_body(body)
        if expected is None:
            self.assertRaises(tsd.NoReply, decode_reply, body)
            return
        found = decode_reply(body)
        self.assertEqual(disk_requests.REPLY_CODES[expected.kind], found.kind)
        if expected.kind == "refused":
            self.assertIsInstance(found.value, tsd.Refused)
            self.assertEqual(disk_requests.RULE_CODES[expected.rule], found.value.RULE)
            self.assertEqual(expected.numbers, tuple(int(number) for number in found.value.args))
        elif expected.kind == "data":
            self.assertEqual(expected.data, found.value)
        elif expected.kind in ("free", "gone"):
            self.assertEqual(expected.numbers, (found.value,))
        elif expected.kind in ("blocks", "list"):
            self.assertEqual(list(expected.numbers), found.value)


class Documented(unittest.TestCase):
    """The examples and the table of rules in docs/FORMAT.md."""

    def setUp(self) -> None:
        self.page = (TOP / "docs" / "FORMAT.md").read_text()

    def test_example_both_ways(self) -> None:
        rows = [[bytes.fromhex(text) for text in row] for row in EXAMPLE.findall(self.page)]
        cap = tsd.Capability(b"\xbb" * 16)
        asked = [requests.Begin(), requests.Alloc(0, 3, cap), requests.GetFree()]
        answers: List[object] = [(Kind.DONE, None), (Kind.BLOCKS, [1, 2, 3]), (Kind.FREE, 4)]
        self.assertEqual([row[0] for row in rows], [frame(request.encode(1)) for request in asked])
        found = [decode_reply(body) for _, text in rows for body in FrameCutter().feed(text)]
        self.assertEqual(answers, found)

    def test_each_rule_has_an_exception_with_its_numbers(self) -> None:
        table = self.page[self.page.index("The bytes of a block are all of them"):]
        rows = RULE.findall(table[:table.index("A reply has one body too")])
        self.assertEqual(list(range(16)), [int(rule) for rule, _, _ in rows])
        seen = set()
        for rule, reason, follows in rows:
            count = 2 if "both levels" in follows else 8 if "two numbers" in follows else 0
            value = decode_reply(bytes([8, int(rule)]) + bytes(count)).value
            assert isinstance(value, tsd.Refused)
            seen.add(type(value))
            self.assertEqual((int(rule), 2 if follows else 0), (value.RULE, len(value.args)), reason)
            if not follows:
                self.assertIn(str(value).split(" is")[0].split(" isn't")[0][:12], reason)
        self.assertEqual(16, len(seen))


class Cutting(unittest.TestCase):
    """Frames from pieces."""

    def test_pieces_do_not_matter(self) -> None:
        rng = random.Random(3)
        bodies = [bytes(rng.randrange(256) for _ in range(rng.choice([0, 1, 2, 300]))) for _ in range(60)]
        text = b"".join(map(frame, bodies))
        for most in (1, 2, 3, 50, len(text)):
            cutter, found, at = FrameCutter(), [], 0
            while at < len(text):
                size = rng.randint(1, most)
                found += list(cutter.feed(text[at:at + size]))
                at += size
            self.assertEqual(bodies, found)
            self.assertFalse(cutter.is_inside)
        list(cutter.feed(b"\1"))
        self.assertTrue(cutter.is_inside)

    def test_what_a_hub_tells(self) -> None:
        self.assertIsInstance(what_is_told(told_body(FULL)), tsd.HubFull)
        self.assertIsInstance(what_is_told(told_body(STOPPED)), tsd.HubStopped)
        ended = what_is_told(told_body(DISK_ENDED, -9, "dévice"))
        self.assertEqual((-9, "dévice"), ended.args if ended else None)
        for body in (b"", b"\xff", b"\xff\1\0\0\0", told_body(9), b"\1"):
            self.assertIsNone(what_is_told(body))
        for what in (FULL, STOPPED, DISK_ENDED):
            self.assertRaises(tsd.NoReply, decode_reply, told_body(what))


class Capabilities(unittest.TestCase):
    """That nothing shows a capability but `reveal`."""

    def test_it_never_prints_itself(self) -> None:
        cap = tsd.Capability(CAP)
        read = requests.Read(0, cap)
        shown = [repr(cap), str(cap), f"{cap}", "%s %r" % (cap, cap), repr(read), str(tsd.Pair(cap, cap)), repr([cap])]
        for text in shown:
            self.assertNotIn(CAP.hex(), text)
            self.assertNotIn(repr(CAP)[2:-1], text)
            self.assertIn("<capability>", text)
        self.assertRaises(TypeError, pickle.dumps, cap)
        self.assertRaises(TypeError, copy.copy, cap)
        self.assertRaises(TypeError, vars, cap)
        self.assertRaises(TypeError, bytes, cap)

    def test_bad_digits_are_not_told(self) -> None:
        for digits in ("ab" * 15, "zz" * 16, "ab" * 17, "a b " * 8):
            with self.assertRaises(ValueError) as caught:
                tsd.Capability.from_hex(digits)
            self.assertNotIn(digits, str(caught.exception))
            self.assertIsNone(caught.exception.__cause__)

    def test_equality_and_making(self) -> None:
        self.assertEqual(tsd.Capability(CAP), tsd.Capability.from_hex(CAP.hex().upper()))
        self.assertNotEqual(tsd.Capability(CAP), tsd.Capability.new())
        self.assertNotEqual(tsd.Capability(CAP), CAP)
        self.assertEqual(1, len({tsd.Capability(CAP), tsd.Capability(CAP)}))
        self.assertEqual(CAP, tsd.Capability(CAP).reveal())

    def test_errors_can_be_pickled(self) -> None:
        for error in (tsd.Denied(tsd.Level.NONE, tsd.Level.READ), tsd.Full(1, 2), tsd.ProgramEnded(4, "words", True),
                      tsd.DiskEnded(-9, ""), tsd.Silent(2.0), errors.NotOpen()):
            again = pickle.loads(pickle.dumps(error))
            self.assertEqual((type(error), error.args, str(error)), (type(again), again.args, str(again)))

"""The replies (docs/FORMAT.md, Frames): what a body says, or that it is none."""

from __future__ import annotations

from enum import IntEnum
from typing import List, NamedTuple, Optional, Union

from tsd.errors import NUMBER_RULES, PLAIN_RULES, Denied, Level, NoMemory, NoReply, Refused, TsdError
from tsd.hub_words import Greeting

BLOCK_LENGTHS = (512, 1024, 2048, 4096)
MOST_NEW_BLOCKS = 32
MOST_TARGETS = 64
PLAIN_BY_BYTE = {rule.RULE: rule for rule in PLAIN_RULES}
NUMBERS_BY_BYTE = {rule.RULE: rule for rule in NUMBER_RULES}


class Kind(IntEnum):
    """The code of a reply; the last one is a hub's own."""

    DONE = 1
    BYTES = 2
    BLOCKS = 3
    FREE = 4
    GONE = 5
    TARGETS = 6
    NO_MEMORY = 7
    REFUSED = 8
    GREETING = 255


class Reply(NamedTuple):
    """A reply and what it tells: nothing, bytes, numbers, a number, or the error that it stands for."""

    kind: Kind
    value: Union[None, bytes, List[int], int, Greeting, TsdError]


def decode_reply(body: bytes) -> Reply:
    """The reply of a disk that has this body; NoReply where there is none."""
    reply = _value(body[:1], body[1:])
    if reply is None:
        code = f"code {body[0]}" if body else "no code"
        raise NoReply(f"a body of {len(body)} bytes with {code} is no reply")
    return reply


def _value(code: bytes, rest: bytes) -> Optional[Reply]:
    kind = code[0] if code else 0
    if kind in (Kind.DONE, Kind.NO_MEMORY):
        value = None if kind == Kind.DONE else NoMemory()
        return None if rest else Reply(Kind(kind), value)
    if kind == Kind.BYTES:
        return Reply(Kind.BYTES, rest) if len(rest) in BLOCK_LENGTHS else None
    if kind in (Kind.FREE, Kind.GONE):
        return Reply(Kind(kind), _numbers(rest)[0]) if len(rest) == 4 else None
    if kind in (Kind.BLOCKS, Kind.TARGETS):
        least, most = (1, MOST_NEW_BLOCKS) if kind == Kind.BLOCKS else (0, MOST_TARGETS)
        fits = len(rest) % 4 == 0 and least <= len(rest) // 4 <= most
        return Reply(Kind(kind), _numbers(rest)) if fits else None
    refusal = _refusal(rest) if kind == Kind.REFUSED else None
    return None if refusal is None else Reply(Kind.REFUSED, refusal)


def _numbers(rest: bytes) -> List[int]:
    return [int.from_bytes(rest[at:at + 4], "little") for at in range(0, len(rest), 4)]


def _refusal(rest: bytes) -> Optional[Refused]:
    if not rest:
        return None
    rule, more = rest[0], rest[1:]
    if rule in PLAIN_BY_BYTE and not more:
        return PLAIN_BY_BYTE[rule]()
    if rule in NUMBERS_BY_BYTE and len(more) == 8:
        return NUMBERS_BY_BYTE[rule](*_numbers(more))
    if rule == Denied.RULE and len(more) == 2 and max(more) <= Level.WRITE:
        return Denied(Level(more[0]), Level(more[1]))
    return None

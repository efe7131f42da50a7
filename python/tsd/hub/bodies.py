"""What a client's body becomes before it goes to the disk: a request of the client's own session, or no request."""

from __future__ import annotations

from enum import Enum
from typing import NamedTuple

from tsd import requests
from tsd.hub_words import HELLO, HUB, STATS

SESSION_BYTES = slice(1, 5)
MOST_BODY = 4122
NO_REQUEST = b""
FREE = requests.GetFree().encode()
STATS_BODY = bytes([HUB, STATS])
READS = frozenset(kind.CODE for kind in (requests.Begin, requests.End, requests.Read, requests.List64))
CHANGES = frozenset(kind.CODE for kind in (
    requests.Write, requests.Alloc, requests.AllocContiguous, requests.Create, requests.Delete,
    requests.SetCapabilities, requests.Sweep,
))


class Kind(Enum):
    """What a body of a client is: a request that changes the disk, so that it waits for syncs; any other request of a
    session, or the count of free blocks; what is no request; or something for the hub itself."""

    CHANGE = 1
    READ = 2
    NOTHING = 3
    HELLO = 4
    STATS = 5


class Asked(NamedTuple):
    """What a body is, and its code where it is a request, else 0."""

    kind: Kind
    code: int


FOR_HUB = (Kind.HELLO, Kind.STATS)
OF_NOTHING = Asked(Kind.NOTHING, 0)
OF_FREE = Asked(Kind.READ, requests.GetFree.CODE)
BY_CODE = {**{code: Asked(Kind.READ, code) for code in READS}, **{code: Asked(Kind.CHANGE, code) for code in CHANGES}}
BY_BODY = {FREE: OF_FREE, HELLO: Asked(Kind.HELLO, 0), STATS_BODY: Asked(Kind.STATS, 0)}


def asked_by(body: bytes) -> Asked:
    """What a body of a client is."""
    if SESSION_BYTES.stop <= len(body) <= MOST_BODY:
        return BY_CODE.get(body[0], OF_NOTHING)
    return BY_BODY.get(body, OF_NOTHING)


def of_session(body: bytes, session: int) -> bytes:
    """The body with this session's number in place of the one that stands there. The count of free blocks has none; all
    else is no request, whatever a later disk may make of it, and becomes the empty body, which the disk refuses."""
    asked = asked_by(body)
    if asked == OF_FREE:
        return body
    if asked.kind in (Kind.READ, Kind.CHANGE):
        return body[:1] + requests.number(session) + body[SESSION_BYTES.stop:]
    return NO_REQUEST

"""Requests and replies of the disk, as lines and as frames, both ways; written from docs/FORMAT.md alone.

A request that is spelled by no line, or by no frame, is `None` everywhere. Numbers are plain ints, capabilities are 16
bytes, nothing shown and no hint are `None`.
"""

from __future__ import annotations

from typing import List, NamedTuple, Optional, Sequence, Tuple

MOST_NUMBER = 4294967295
MOST_LINE = 8400
MOST_WRITTEN = 4096
CAP_BYTES = 16

LEVEL_NAMES = ("none", "read", "write")

# The code of each request in a frame, by the name that its line begins with.
REQUEST_CODES = {
    "open": 1, "close": 2, "read": 3, "write": 4, "alloc": 5, "contig": 6,
    "free": 7, "create": 8, "delete": 9, "setcap": 10, "sweep": 11, "list": 12,
}

# The fields of each request, in their order, the same in lines and in frames.
REQUEST_FIELDS = {
    "open": ("session",),
    "close": ("session",),
    "read": ("session", "block", "shown"),
    "write": ("session", "block", "shown", "data"),
    "alloc": ("session", "block", "shown", "hint", "count"),
    "contig": ("session", "block", "shown", "hint", "count"),
    "free": (),
    "create": ("session", "block", "shown", "target"),
    "delete": ("session", "block", "shown", "target"),
    "setcap": ("session", "block", "shown", "read_cap", "write_cap"),
    "sweep": ("session", "shown"),
    "list": ("session", "block", "shown", "start"),
}

# The byte of each rule in a frame, and how many numbers stand behind its words.
RULE_CODES = {
    "bad-request": 0, "bad-session": 1, "not-open": 2, "already-open": 3, "bad-count": 4, "bad-size": 5,
    "no-such-block": 6, "free-block": 7, "not-primary": 8, "is-primary": 9, "denied": 10, "pointer-exists": 11,
    "no-pointer": 12, "full": 13, "run": 14, "pointers-full": 15,
}
RULES_WITH_NUMBERS = ("full", "run", "pointers-full")


class Request(NamedTuple):
    """One request: its name is the first word of its line; a field that it hasn't is left as it is here."""

    name: str
    session: int = 0
    block: int = 0
    shown: Optional[bytes] = None
    data: bytes = b""
    hint: Optional[int] = None
    count: int = 0
    target: int = 0
    start: int = 0
    read_cap: bytes = b""
    write_cap: bytes = b""


class Reply(NamedTuple):
    """One reply. `kind` is done, data, blocks, free, gone, list, no-memory or refused; of a refusal `rule` has the
    rule's first word and `numbers` what follows it (of `denied` the two levels, 0 to 2)."""

    kind: str
    numbers: Tuple[int, ...] = ()
    data: bytes = b""
    rule: str = ""


def refused(rule: str, *numbers: int) -> Reply:
    """The refusal by a rule."""
    return Reply("refused", tuple(numbers), b"", rule)


BAD_REQUEST = refused("bad-request")


# --- lines ---------------------------------------------------------------------------------------------------------


def cut_lines(text: bytes) -> List[bytes]:
    """The lines of a whole input: what stands before each line feed, and the rest where there is any."""
    lines = text.split(b"\n")
    return lines if lines[-1] else lines[:-1]


def _number(word: bytes) -> Optional[int]:
    if not 1 <= len(word) <= 10 or not all(48 <= byte <= 57 for byte in word):
        return None
    value = int(word)
    return value if value <= MOST_NUMBER else None


def _digits(word: bytes) -> Optional[bytes]:
    """The bytes of an even number of hexadecimal digits of either case."""
    if len(word) % 2 or not all(byte in b"0123456789abcdefABCDEF" for byte in word):
        return None
    return bytes.fromhex(word.decode("ascii"))


def _new(word: bytes) -> Optional[bytes]:
    return _digits(word) if len(word) == 2 * CAP_BYTES else None


def _data(word: bytes) -> Optional[bytes]:
    if word == b"-":
        return b""
    return _digits(word) if 2 <= len(word) <= 2 * MOST_WRITTEN else None


def _field_of_word(field: str, word: bytes) -> Tuple[bool, object]:
    """Whether the word spells this field, and its value."""
    if field in ("shown", "hint") and word == b"-":
        return True, None
    if field in ("shown", "read_cap", "write_cap"):
        value: object = _new(word)
    elif field == "data":
        value = _data(word)
    else:
        value = _number(word)
    return value is not None, value


def parse_line(line: bytes) -> Optional[Request]:
    """The request that a line (without its line feed) spells, or None."""
    if len(line) > MOST_LINE:
        return None
    words = line.split(b" ")
    name = words[0].decode("latin-1")
    fields = REQUEST_FIELDS.get(name)
    if fields is None or len(words) != 1 + len(fields):
        return None
    values = {}
    for field, word in zip(fields, words[1:]):
        good, values[field] = _field_of_word(field, word)
        if not good:
            return None
    return Request(name, **values)  # type: ignore[arg-type]


def request_line(request: Request) -> bytes:
    """The line, with its line feed, that is printed for a request."""
    words = [request.name]
    for field in REQUEST_FIELDS[request.name]:
        value = getattr(request, field)
        if value is None or value == b"":
            words.append("-")
        else:
            words.append(value.hex() if isinstance(value, bytes) else str(value))
    return " ".join(words).encode("ascii") + b"\n"


def reply_line(reply: Reply) -> bytes:
    """The line, with its line feed, of a reply."""
    if reply.kind == "done":
        text = "ok"
    elif reply.kind == "no-memory":
        text = "no memory"
    elif reply.kind == "data":
        text = "data " + (reply.data.rstrip(b"\0").hex() or "-")
    elif reply.kind == "refused":
        text = " ".join(["no", reply.rule] + [_refusal_word(reply.rule, number) for number in reply.numbers])
    else:
        text = " ".join([reply.kind] + ([str(number) for number in reply.numbers] or ["-"]))
    return text.encode("ascii") + b"\n"


def _refusal_word(rule: str, number: int) -> str:
    return LEVEL_NAMES[number] if rule == "denied" else str(number)


# --- frames --------------------------------------------------------------------------------------------------------


def frame(body: bytes) -> bytes:
    """A body with its length before it."""
    return len(body).to_bytes(2, "little") + body


def cut_frames(text: bytes) -> Tuple[List[bytes], bytes]:
    """The bodies of the whole frames of a text, and what stands behind the last of them."""
    bodies = []
    at = 0
    while at + 2 <= len(text):
        end = at + 2 + int.from_bytes(text[at:at + 2], "little")
        if end > len(text):
            break
        bodies.append(text[at + 2:end])
        at = end
    return bodies, text[at:]


def _frame_number(number: int) -> bytes:
    return number.to_bytes(4, "little")


def _field_bytes(field: str, value: object) -> bytes:
    if field == "shown":
        return b"\0" if value is None else b"\1" + value  # type: ignore[operator]
    if field == "hint":
        return b"\0" if value is None else b"\1" + _frame_number(value)  # type: ignore[arg-type]
    return value if isinstance(value, bytes) else _frame_number(value)  # type: ignore[arg-type]


def request_body(request: Request) -> bytes:
    """The body of a request's frame."""
    fields = REQUEST_FIELDS[request.name]
    return bytes([REQUEST_CODES[request.name]]) + b"".join(_field_bytes(f, getattr(request, f)) for f in fields)


class _Short(Exception):
    """A body ends before its field, or has a byte that no field has."""


class _Bytes:
    """What is left of a body."""

    def __init__(self, body: bytes) -> None:
        self.rest = body

    def take(self, amount: int) -> bytes:
        if len(self.rest) < amount:
            raise _Short
        taken, self.rest = self.rest[:amount], self.rest[amount:]
        return taken

    def number(self) -> int:
        return int.from_bytes(self.take(4), "little")

    def is_there(self) -> bool:
        flag = self.take(1)[0]
        if flag > 1:
            raise _Short
        return flag == 1

    def field(self, name: str) -> object:
        if name == "shown":
            return self.take(CAP_BYTES) if self.is_there() else None
        if name == "hint":
            return self.number() if self.is_there() else None
        if name in ("read_cap", "write_cap"):
            return self.take(CAP_BYTES)
        if name == "data":
            if len(self.rest) > MOST_WRITTEN:
                raise _Short
            return self.take(len(self.rest))
        return self.number()


def parse_body(body: bytes) -> Optional[Request]:
    """The request that a body spells, or None."""
    names = {code: name for name, code in REQUEST_CODES.items()}
    name = names.get(body[0]) if body else None
    if name is None:
        return None
    rest = _Bytes(body[1:])
    try:
        values = {field: rest.field(field) for field in REQUEST_FIELDS[name]}
    except _Short:
        return None
    return None if rest.rest else Request(name, **values)  # type: ignore[arg-type]


REPLY_CODES = {"done": 1, "data": 2, "blocks": 3, "free": 4, "gone": 5, "list": 6, "no-memory": 7, "refused": 8}


def reply_body(reply: Reply) -> bytes:
    """The body of a reply's frame; the bytes of a block are all of them."""
    head = bytes([REPLY_CODES[reply.kind]])
    if reply.kind == "data":
        return head + reply.data
    if reply.kind == "refused":
        head += bytes([RULE_CODES[reply.rule]])
        if reply.rule == "denied":
            return head + bytes(reply.numbers)
    return head + b"".join(map(_frame_number, reply.numbers))


def parse_reply_body(body: bytes) -> Optional[Reply]:
    """The reply that a body spells, or None."""
    kinds = {code: kind for kind, code in REPLY_CODES.items()}
    kind = kinds.get(body[0]) if body else None
    if kind is None:
        return None
    if kind == "refused":
        return _parse_refusal(body[1:])
    if kind == "data":
        return Reply("data", (), body[1:]) if len(body) - 1 in (512, 1024, 2048, 4096) else None
    least, most = {"blocks": (1, 32), "free": (1, 1), "gone": (1, 1), "list": (0, 64)}.get(kind, (0, 0))
    numbers = _numbers_of(body[1:])
    return Reply(kind, numbers) if numbers is not None and least <= len(numbers) <= most else None


def _numbers_of(text: bytes) -> Optional[Tuple[int, ...]]:
    if len(text) % 4:
        return None
    return tuple(int.from_bytes(text[at:at + 4], "little") for at in range(0, len(text), 4))


def _parse_refusal(text: bytes) -> Optional[Reply]:
    rules = {code: rule for rule, code in RULE_CODES.items()}
    rule = rules.get(text[0]) if text else None
    if rule is None:
        return None
    if rule == "denied":
        return refused(rule, *text[1:]) if len(text) == 3 and max(text[1:]) <= 2 else None
    numbers = _numbers_of(text[1:])
    wanted = 2 if rule in RULES_WITH_NUMBERS else 0
    return refused(rule, *numbers) if numbers is not None and len(numbers) == wanted else None


def lines_of(requests: Sequence[Request]) -> bytes:
    """A text of lines that spells these requests."""
    return b"".join(map(request_line, requests))


def frames_of(requests: Sequence[Request]) -> bytes:
    """A text of frames that spells these requests."""
    return b"".join(frame(request_body(request)) for request in requests)

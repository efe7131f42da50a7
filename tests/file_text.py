"""What is asked of the file systems: the lines of the command `shell` and the frames of `files`, from docs/FILES.md
alone."""

from __future__ import annotations

from typing import Dict, List, NamedTuple, Optional, Tuple

MOST_LINE = 8400
MOST_DIGITS = 8192
MOST_NAME = 28
MOST_NAMES = 16
LETTERS = b"abcdefghijklmnopqrstuvwxyzABCDEFGHIJKLMNOPQRSTUVWXYZ0123456789._-"
DIGITS = b"0123456789abcdefABCDEF"
NO_NAMES = (b".", b"..", b"-")
INODE, CHAIN = "inode", "chain"

# What stands behind the first word of each line.
FORMS: Dict[str, Tuple[str, ...]] = {
    "mkfs": (), "put": ("path", "data"), "append": ("path", "data"), "cat": ("path",), "ls": ("path",),
    "mkdir": ("path",), "rm": ("path",), "cp": ("path", "new_path"), "df": (),
}
OF_INODES = ("mkdir", "cp")
# The code of each ask in a frame, and of those that no line spells what stands behind it.
CODES: Dict[str, int] = {
    "mkfs": 1, "put": 2, "append": 3, "cat": 4, "ls": 5, "mkdir": 6, "rm": 7, "cp": 8, "df": 9,
    "size": 16, "read": 17, "next": 18,
}
LOOKS: Dict[str, Tuple[str, ...]] = {
    "size": ("path",), "read": ("path", "start", "count"), "next": ("path", "after"),
}
NUMBER_BYTES = {"start": 8, "count": 4}
MOST_DATA = 4096
BAD_REQUEST = b"no bad-request\n"

Path = Tuple[bytes, ...]


class Ask(NamedTuple):
    """What a line or a frame asks; a path is the names in it, none for `/`."""

    name: str
    path: Path = ()
    data: bytes = b""
    new_path: Path = ()
    start: int = 0
    count: int = 0
    after: bytes = b""


def is_name(text: bytes) -> bool:
    """Whether these bytes are a name."""
    return 1 <= len(text) <= MOST_NAME and all(byte in LETTERS for byte in text) and text not in NO_NAMES


def parse_path(word: bytes) -> Optional[Path]:
    """The names of a path."""
    if word == b"/":
        return ()
    empty, *names = word.split(b"/")
    good = empty == b"" and 1 <= len(names) <= MOST_NAMES and all(map(is_name, names))
    return tuple(names) if good else None


def parse_data(word: bytes) -> Optional[bytes]:
    """The bytes that a word spells."""
    if word == b"-":
        return b""
    is_whole = 2 <= len(word) <= MOST_DIGITS and len(word) % 2 == 0
    return bytes.fromhex(word.decode()) if is_whole and not set(word) - set(DIGITS) else None


def parse_ask(line: bytes, kind: str) -> Optional[Ask]:
    """What a line (without its line feed) asks of a file system of this kind, or None."""
    words = line.split(b" ")
    name = words[0].decode("latin-1")
    form = FORMS.get(name)
    if len(line) > MOST_LINE or form is None or len(words) != 1 + len(form) or kind == CHAIN and name in OF_INODES:
        return None
    values = {}
    for field, word in zip(form, words[1:]):
        value = parse_data(word) if field == "data" else parse_path(word)
        if value is None:
            return None
        values[field] = value
    return Ask(name, **values)  # type: ignore[arg-type]


def path_text(path: Path) -> bytes:
    """A path as it is written."""
    return b"".join(b"/" + name for name in path) or b"/"


def ask_line(ask: Ask) -> bytes:
    """A line, with its line feed, that asks this."""
    words: List[bytes] = [ask.name.encode()]
    for field in FORMS[ask.name]:
        words.append((ask.data.hex().encode() or b"-") if field == "data" else path_text(getattr(ask, field)))
    return b" ".join(words) + b"\n"


# --- frames ---

def frame_of(body: bytes) -> bytes:
    """A frame: the length of its body in two bytes, the lowest first, and the body."""
    return len(body).to_bytes(2, "little") + body


def name_field(name: bytes) -> bytes:
    """A name, which may be empty or none, in a body."""
    return bytes([len(name)]) + name


def path_field(path: Path) -> bytes:
    """A path in a body."""
    return bytes([len(path)]) + b"".join(map(name_field, path))


def ask_body(ask: Ask) -> bytes:
    """The body that asks this."""
    body = bytes([CODES[ask.name]])
    for field in {**FORMS, **LOOKS}[ask.name]:
        value = getattr(ask, field)
        if field in NUMBER_BYTES:
            body += value.to_bytes(NUMBER_BYTES[field], "little")
        elif field == "data":
            body += value
        else:
            body += name_field(value) if field == "after" else path_field(value)
    return body


class NoField(Exception):
    """The bytes don't begin with such a field."""


def take_name(body: bytes) -> Tuple[bytes, bytes]:
    """The name that stands first, whatever its bytes, and the rest."""
    if not body or len(body) <= body[0]:
        raise NoField
    return body[1:1 + body[0]], body[1 + body[0]:]


def take_path(body: bytes) -> Tuple[Path, bytes]:
    """The path that stands first, and the rest."""
    if not body or body[0] > MOST_NAMES:
        raise NoField
    names, rest = [], body[1:]
    for _ in range(body[0]):
        name, rest = take_name(rest)
        if not is_name(name):
            raise NoField
        names.append(name)
    return tuple(names), rest


def take_field(field: str, body: bytes) -> Tuple[object, bytes]:
    """The value of the field that stands first, and the rest."""
    if field == "data":
        if len(body) > MOST_DATA:
            raise NoField
        return body, b""
    if field in NUMBER_BYTES:
        size = NUMBER_BYTES[field]
        if len(body) < size:
            raise NoField
        return int.from_bytes(body[:size], "little"), body[size:]
    if field != "after":
        return take_path(body)
    name, rest = take_name(body)
    if name and not is_name(name):
        raise NoField
    return name, rest


def parse_body(body: bytes, kind: str) -> Optional[Ask]:
    """What the body of a frame asks of a file system of this kind, or None."""
    name = {code: name for name, code in CODES.items()}.get(body[0] if body else 0)
    if name is None or kind == CHAIN and name in OF_INODES:
        return None
    values, rest = {}, body[1:]
    try:
        for field in {**FORMS, **LOOKS}[name]:
            values[field], rest = take_field(field, rest)
    except NoField:
        return None
    return None if rest else Ask(name, **values)  # type: ignore[arg-type]

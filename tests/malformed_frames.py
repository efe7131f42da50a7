"""Frames whose body is no request, and inputs that end inside a frame, by docs/FORMAT.md ("Frames"). Behind each frame
that is none stands one that is answered.
"""

from __future__ import annotations

from typing import Iterator, List, Tuple

from parts import Context, Result, compared
from program import Program

R, W = b"\xaa" * 16, b"\xbb" * 16
WORDS = ["fresh", "8", "1", R.hex(), W.hex(), "near"]
ONE = b"\1\0\0\0"
ZERO = bytes(4)
NOTHING = b"\0"
SHOWN = b"\1" + W
FREE = b"\7"
OPEN = b"\1" + ONE
BAD = b"\x08\x00"

# Bodies that are requests, with their replies, in this order: eight blocks of 512 bytes, no session open.
GOOD: List[Tuple[bytes, bytes]] = [
    (OPEN, b"\1"),
    (OPEN, b"\x08\x03"),
    (b"\1" + ZERO, b"\x08\x01"),
    (b"\1\x41\0\0\0", b"\x08\x01"),
    (b"\1\xff\xff\xff\xff", b"\x08\x01"),
    (b"\2\2\0\0\0", b"\x08\x02"),
    (FREE, b"\4\7\0\0\0"),
    (b"\3" + ONE + ZERO + NOTHING, b"\x08\x0a\0\1"),
    (b"\3" + ONE + ZERO + b"\1" + R, b"\2" + bytes(512)),
    (b"\4" + ONE + ZERO + b"\1" + R, b"\x08\x0a\1\2"),
    (b"\4" + ONE + ZERO + SHOWN + b"hi", b"\1"),
    (b"\3" + ONE + ZERO + b"\1" + R, b"\2hi" + bytes(510)),
    (b"\4" + ONE + ZERO + SHOWN + b"\xff" * 512, b"\1"),
    (b"\3" + ONE + ZERO + SHOWN, b"\2" + b"\xff" * 512),
    (b"\4" + ONE + ZERO + SHOWN + bytes(513), b"\x08\x05"),
    (b"\4" + ONE + ZERO + SHOWN + bytes(4096), b"\x08\x05"),
    (b"\4" + ONE + ZERO + SHOWN, b"\1"),
    (b"\3" + ONE + ZERO + SHOWN, b"\2" + bytes(512)),
    (b"\3" + ONE + b"\x08\0\0\0" + NOTHING, b"\x08\x06"),
    (b"\3" + ONE + ONE + NOTHING, b"\x08\x07"),
    (b"\5" + ONE + ZERO + SHOWN + NOTHING + ZERO, b"\x08\x04"),
    (b"\5" + ONE + ZERO + SHOWN + NOTHING + b"\x21\0\0\0", b"\x08\x04"),
    (b"\5" + ONE + ZERO + SHOWN + NOTHING + b"\x08\0\0\0", b"\x08\x0d\7\0\0\0\x08\0\0\0"),
    (b"\5" + ONE + ZERO + SHOWN + NOTHING + b"\3\0\0\0", b"\3\1\0\0\0\2\0\0\0\3\0\0\0"),
    (b"\6" + ONE + ZERO + SHOWN + b"\1\6\0\0\0" + b"\2\0\0\0", b"\3\6\0\0\0\7\0\0\0"),
    (b"\6" + ONE + ZERO + SHOWN + NOTHING + b"\3\0\0\0", b"\x08\x0d\2\0\0\0\3\0\0\0"),
    (b"\x09" + ONE + ZERO + SHOWN + b"\1\0\0\0", b"\5\1\0\0\0"),
    (b"\6" + ONE + ZERO + SHOWN + NOTHING + b"\3\0\0\0", b"\x08\x0e\3\0\0\0\3\0\0\0"),
    (b"\x0c" + ONE + ZERO + b"\1" + R + ZERO, b"\6\2\0\0\0\3\0\0\0\6\0\0\0\7\0\0\0"),
    (b"\x0c" + ONE + ZERO + b"\1" + R + b"\x08\0\0\0", b"\6"),
    (b"\x08" + ONE + b"\2\0\0\0" + NOTHING + b"\3\0\0\0", b"\1"),
    (b"\x08" + ONE + b"\2\0\0\0" + NOTHING + b"\3\0\0\0", b"\x08\x0b"),
    (b"\x08" + ONE + b"\2\0\0\0" + NOTHING + ZERO, b"\x08\x09"),
    (b"\x09" + ONE + b"\3\0\0\0" + NOTHING + b"\2\0\0\0", b"\x08\x0c"),
    (b"\x0a" + ONE + b"\2\0\0\0" + NOTHING + R + W, b"\x08\x08"),
    (b"\x0a" + ONE + ZERO + SHOWN + R + W, b"\1"),
    (b"\x0b" + ONE + SHOWN, b"\5\0\0\0\0"),
    (b"\x09" + ONE + ZERO + SHOWN + b"\2\0\0\0", b"\5\1\0\0\0"),
    (b"\x09" + ONE + ZERO + SHOWN + b"\3\0\0\0", b"\5\1\0\0\0"),
    (b"\x09" + ONE + ZERO + SHOWN + b"\6\0\0\0", b"\5\1\0\0\0"),
    (b"\x09" + ONE + ZERO + SHOWN + b"\7\0\0\0", b"\5\1\0\0\0"),
    (b"\2" + ONE, b"\1"),
    (OPEN, b"\1"),
]


def no_requests() -> List[bytes]:
    """Bodies that are no request: other codes, each request cut short or gone on, other bytes before a capability or a
    hint, and a write of too many bytes."""
    whole = {
        1: OPEN, 2: b"\2" + ONE, 3: b"\3" + ONE + ZERO + SHOWN, 5: b"\5" + ONE + ZERO + SHOWN + b"\1" + ONE + ONE,
        6: b"\6" + ONE + ZERO + SHOWN + b"\1" + ONE + ONE, 7: FREE, 8: b"\x08" + ONE + ZERO + SHOWN + ONE,
        9: b"\x09" + ONE + ZERO + SHOWN + ONE, 10: b"\x0a" + ONE + ZERO + SHOWN + R + W, 11: b"\x0b" + ONE + SHOWN,
        12: b"\x0c" + ONE + ZERO + SHOWN + ZERO,
    }
    bodies = [b""] + [bytes([code]) for code in (0, 13, 64, 255)]
    bodies += [bytes([code]) + whole[1][1:] for code in (0, 13, 128, 255)]
    for body in whole.values():
        bodies += [body[:-1], body + b"\0"] + ([body[:5], body[:1]] if len(body) > 5 else [])
    bodies += [b"\3" + ONE + ZERO + bytes([flag]) + W for flag in (2, 3, 128, 255)]
    bodies += [b"\3" + ONE + ZERO + b"\0" + W, b"\3" + ONE + ZERO + b"\1"]
    bodies += [b"\4" + ONE + ZERO, b"\4" + ONE + ZERO + b"\1"]
    bodies += [b"\4" + ONE + ZERO + b"\2" + W + b"hi", b"\5" + ONE + ZERO + SHOWN + b"\2" + ONE + ONE]
    bodies += [b"\5" + ONE + ZERO + SHOWN + b"\0" + ONE + ONE, b"\5" + ONE + ZERO + SHOWN + b"\1" + ONE]
    bodies += [b"\4" + ONE + ZERO + SHOWN + bytes(4097), b"\4" + ONE + ZERO + NOTHING + bytes(4097), bytes(65535)]
    # One that shows nothing is too long from 4,107 bytes on: the table of requests has 4,096 bytes written at most.
    bodies += [(b"\4" + ONE + ZERO + NOTHING).ljust(length, b"\0") for length in (4107, 5000, 65535)]
    return [body for body in bodies if body != FREE]


def framed(body: bytes) -> bytes:
    """A frame: the length in two bytes, the lower first, and the body."""
    return bytes([len(body) % 256, len(body) // 256]) + body


def fresh(context: Context, program: Program) -> List[object]:
    """A fresh disk; its file."""
    path = context.folder / "frames.img"
    program.run([path] + WORDS)
    return [path]


def piece_results(context: Context, program: Program) -> Iterator[Result]:
    """All these bodies again, in frames whose bytes come one at a time, and seven at a time."""
    pairs = GOOD + [pair for body in no_requests() for pair in ((body, BAD), (FREE, b"\4\7\0\0\0"))]
    text = b"".join(framed(body) for body, _ in pairs)
    expected = (0, b"".join(framed(reply) for _, reply in pairs), b"")
    for size in (1, 7):
        image = fresh(context, program)
        run = program.run_in_pieces(image + ["serve", "near"], text, [size])
        yield compared(f"all frames in pieces of {size} bytes", expected, tuple(run))


def exchange(name: str, pairs: List[Tuple[bytes, bytes]], context: Context, program: Program) -> Result:
    """All these bodies in one run, on a fresh disk."""
    image = fresh(context, program)
    run = program.run(image + ["serve", "near"], b"".join(framed(body) for body, _ in pairs))
    return compared(name, (0, b"".join(framed(reply) for _, reply in pairs), b""), tuple(run))


def end_results(context: Context, program: Program) -> Iterator[Result]:
    """Inputs that end inside a frame: that frame is none, and every whole one before it was answered."""
    image = fresh(context, program)
    error = b"tsd: input ends inside a frame\n"
    for rest in (b"\1", b"\0", b"\1\0", b"\5\0\1", b"\5\0\1\1\0\0", b"\xff\xff", b"\xff\xff" + bytes(65534)):
        run = program.run(image + ["serve", "near"], framed(FREE) + rest)
        yield compared(f"an input that ends in {len(rest)} bytes of a frame, {rest[:6].hex()}",
                       (9, framed(b"\4\7\0\0\0"), error), tuple(run))
    yield compared("an input of no frame", (0, b"", b""), tuple(program.run(image + ["serve", "near"], b"")))
    yield compared("a frame of no bytes at the end", (0, framed(BAD), b""),
                   tuple(program.run(image + ["serve", "near"], b"\0\0")))


def results(context: Context, program: Program) -> Iterator[Result]:
    """A result for each body; where all are answered rightly in one run, each is."""
    yield exchange("every request and every rule in frames", GOOD, context, program)
    for body in no_requests():
        pairs = [(body, BAD), (FREE, b"\4\7\0\0\0")]
        yield exchange(f"a body of {len(body)} bytes, {body[:20].hex() or 'none'}", pairs, context, program)
    yield from piece_results(context, program)
    yield from end_results(context, program)

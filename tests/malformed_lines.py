"""Lines that spell a request in an unusual way, and lines that spell none, by docs/FORMAT.md ("Request lines"). They
are sent in one run, and every one is answered; then in pieces of a byte each, with the same answers.
"""

from __future__ import annotations

from typing import Iterator, List, Tuple

from parts import Context, Result, compared, failed, passed
from program import Program

R, W = b"aa" * 16, b"Bb" * 16
WORDS = ["fresh", "8", "1", R.decode(), W.decode(), "near"]
OPENING = [(b"open 1", b"ok"), (b"write 1 0 " + W + b" 6869", b"ok")]
BAD = b"no bad-request"

# Lines and their replies on a disk of eight blocks of 512 bytes, session 1 open and block 0 with the bytes `hi`.
SPELLED: List[Tuple[bytes, bytes]] = [
    (b"read 1 0 " + R, b"data 6869"),
    (b"read 0000000001 00 " + R.upper(), b"data 6869"),
    (b"read 1 0 " + W.lower(), b"data 6869"),
    (b"read 1 0 " + b"00" * 16, b"no denied none read"),
    (b"read 1 4294967295 -", b"no no-such-block"),
    (b"read 4294967295 0 -", b"no bad-session"),
    (b"open 0", b"no bad-session"),
    (b"open 64", b"ok"),
    (b"open 65", b"no bad-session"),
    (b"open 0000000064", b"no already-open"),
    (b"close 064", b"ok"),
    (b"close 64", b"no not-open"),
    (b"free", b"free 7"),
    (b"write 1 0 " + W + b" 00Ff", b"ok"),
    (b"read 1 0 " + R, b"data 00ff"),
    (b"write 1 0 " + W + b" 0100", b"ok"),
    (b"read 1 0 " + R, b"data 01"),
    (b"write 1 0 " + W + b" " + b"5a" * 512, b"ok"),
    (b"read 1 0 " + R, b"data " + b"5a" * 512),
    (b"write 1 0 " + W + b" " + b"5a" * 513, b"no bad-size"),
    (b"write 1 0 " + W + b" " + b"00" * 4096, b"no bad-size"),
    (b"write 0000000001 0000000000 " + W + b" " + b"ff" * 4096, b"no bad-size"),
    (b"write 1 0 " + W + b" -", b"ok"),
    (b"read 1 0 " + R, b"data -"),
    (b"alloc 1 0 " + W + b" - 0", b"no bad-count"),
    (b"alloc 1 0 " + W + b" 4294967295 33", b"no bad-count"),
    (b"contig 1 0 " + W + b" 0000000000 4294967295", b"no bad-count"),
    (b"alloc 1 0 - - 3", b"no denied none write"),
    (b"list 1 0 " + R + b" 4294967295", b"list -"),
    (b"create 1 0 - 9", b"no no-such-block"),
    (b"delete 1 0 " + W + b" 0", b"no no-pointer"),
    (b"create 1 0 " + W + b" 0", b"no is-primary"),
    (b"setcap 1 0 " + W + b" " + R.upper() + b" " + W, b"ok"),
    (b"setcap 1 7 - " + R + b" " + W, b"no free-block"),
    (b"sweep 1 " + W, b"gone 0"),
    (b"sweep 1 -", b"no denied none write"),
]

# Lines that spell no request.
UNSPELLED: List[bytes] = [
    b"", b" ", b"-", b"open", b"OPEN 1", b"Open 1", b"opens 1", b"ope 1", b"open  1", b" open 1", b"open 1 ",
    b"open 1 1", b"open +1", b"open -1", b"open 1.", b"open 0x1", b"open 1e0", b"open a", b"open -", b"open 4294967296",
    b"open 9999999999", b"open 00000000001", b"open 10000000000", b"open\t1", b"open\0001", b"open 1\0", b"open 1\r",
    b"open \xc2\xb2", b"\xef\xbb\xbfopen 1", b"open \xff", b"\xff\xfe", b"free 1", b"free ", b" free", b"FREE", b"fre",
    b"close", b"close 1 1", b"read 1 0", b"read 1 0 ", b"read 1 0 - -", b"read 1  0 -", b"read 1 - -", b"read - 0 -",
    b"read 1 0 " + R[:-1], b"read 1 0 " + R + b"a", b"read 1 0 " + R[:-2], b"read 1 0 " + R + b"aa",
    b"read 1 0 " + R[:-1] + b"g", b"read 1 0 0x" + R[:-2], b"read 1 0 --", b"read 1 0 " + R[:16] + b" " + R[16:],
    b"write 1 0 -", b"write 1 0 - 686", b"write 1 0 - 6", b"write 1 0 - 68 69", b"write 1 0 - 686g",
    b"write 1 0 - 0x68", b"write 1 0 - --", b"write 1 0 - ",
    b"write 1 0 - " + b"00" * 4097, b"write 1 0 - " + b"0" * 8191,
    b"write 1 0 - \xd9\xa0\xd9\xa0", b"alloc 1 0 - 3", b"alloc 1 0 - - -", b"alloc 1 0 - -1 3", b"alloc 1 0 - + 3",
    b"alloc 1 0 - 4294967296 3", b"alloc 1 0 - - 4294967296", b"alloc 1 0 - - 3 3", b"contig 1 0 - -", b"create 1 0 -",
    b"create 1 0 - -", b"create 1 0 - 1 1", b"delete 1 0 -", b"delete 1 0 1", b"delete 1 0 - 1 -",
    b"setcap 1 0 - " + R, b"setcap 1 0 - - " + R, b"setcap 1 0 - " + R + b" -", b"setcap 1 0 - " + R + b" " + W[:-1],
    b"setcap 1 0 - " + R + b" " + W + b" " + W, b"sweep 1", b"sweep", b"sweep 1 - -", b"sweep 1 0", b"list 1 0 -",
    b"list 1 0 - -", b"list 1 0 - 0 0", b"begin 1", b"getfree", b"quit", b"help", b"no bad-request", b"ok",
    b"open 1;open 2", b"#", b"open 1 #", bytes(byte for byte in range(256) if byte != 10),
    b"x" * 8399, b"x" * 8400, b"x" * 8401, b"x" * 20000, b"x" * 100000,
    b"open " + b"0" * 8394 + b"1", b"open " + b"0" * 8395 + b"1",
    b"read 1 0 - " + b" " * 9000, (b"write 1 0 - " + b"00" * 4096).ljust(8400, b" "),
]


# Each of these is longer than the longest line that spells a request, or as long as a line may be, or longer.
UNSPELLED += [begin.ljust(length, b"0") for length in range(8399, 8403) for begin in (b"free", b"write 1 0 - ")]
UNSPELLED += [b"write 1 0 - ".ljust(100000, b"0"), b"free".ljust(100000, b" ")]


def table() -> List[Tuple[bytes, bytes]]:
    """All lines with their replies; a request that is granted stands behind each line that is none."""
    unspelled = [pair for line in UNSPELLED for pair in ((line, BAD), (b"free", b"free 7"))]
    return OPENING + SPELLED + unspelled


def unended_results(context: Context, program: Program) -> Iterator[Result]:
    """The bytes behind the last line feed are one more line, where there are any."""
    path = context.folder / "unended.img"
    for text, expected in ((b"", b""), (b"\n", b"no bad-request\n"), (b"open 1", b"ok\n"), (b"open 1\n", b"ok\n"),
                           (b"open 1\n\n", b"ok\nno bad-request\n"), (b"open 1\n ", b"ok\nno bad-request\n"),
                           (b"x" * 8401, b"no bad-request\n"), (b"x" * 9000 + b"\nfree", b"no bad-request\nfree 7\n")):
        run = program.run([path] + WORDS, text)
        yield compared(f"an input of {len(text)} bytes that ends in {text[-3:]!r}", (0, expected, b""), tuple(run))


def results(context: Context, program: Program) -> Iterator[Result]:
    """A result for each line, and for the inputs as a whole."""
    lines = table()
    text = b"".join(line + b"\n" for line, _ in lines)
    run = program.run([context.folder / "lines.img"] + WORDS, text)
    answers = run.out.split(b"\n")
    ended = run.status, len(answers), run.error
    yield compared("lines of all kinds: how the run ends", (0, len(lines) + 1, b""), ended)
    for (line, expected), found in zip(lines, answers):
        name = f"line {line[:60]!r}" + (f" of {len(line)} bytes" if len(line) > 60 else "")
        yield passed(name) if expected == found else failed(name, f"expected {expected[:80]!r}, found {found[:80]!r}")
    expected = b"".join(reply + b"\n" for _, reply in lines)
    for sizes in ((1,), (1, 2, 3, 4, 5, 6, 7, 8, 9)):
        again = program.run_in_pieces([context.folder / "pieces.img"] + WORDS, text, sizes)
        yield compared(f"the same in pieces of {sizes} bytes", (0, expected, b""), tuple(again))
    yield from unended_results(context, program)

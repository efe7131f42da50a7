"""What is large: the largest disk, all pointer slots in use, a block with many pointers from it and to it, and long
chains. What is tried is that the replies are right, and that they come within a minute; that chains go in a stack of
a megabyte, so that no call goes down one by calling itself; and that a chain of a million blocks goes at all.

A program that was built with a checker of memory is slow, and is given smaller ones. The part has a time; what is left
over then is skipped by its name.
"""

from __future__ import annotations

import time
from array import array
from typing import Callable, Dict, Iterator, List, NamedTuple, Tuple

from endings import is_checked
from file_rows import limit_stack
from large_images import READ_CAP, WRITE_CAP, LargeImage, mixed, numbers_of
from parts import Context, Result, compared, failed, skipped
from program import Program, Run, without_length

NAME = "large"
MOST_SECONDS = 240
SECONDS_OF_A_RUN = 60
R, W = READ_CAP.hex(), WRITE_CAP.hex()
AT_ONCE, LISTED = 32, 64
DOOMED_BLOCKS = 1024

# Sources and targets of pairs.
Arrays = Tuple[array, array]


class Scale(NamedTuple):
    """How many blocks the largest disk has, how many a disk with full slots or a chain (a power of two), how long the
    chains are that have to go within a minute, how long the longest one is, and how many pointers a block gets."""

    largest: int
    blocks: int
    chain: int
    longest: int
    pointers: int


FULL = Scale(2**20, 2**20, 100000, 1000000, 9600)
SMALL = Scale(2**16, 2**12, 2000, 4000, 960)


def in_time(name: str, expected: Tuple[int, bytes, bytes], run: Callable[[], Run]) -> Result:
    """The run ends so, and within a minute."""
    began = time.monotonic()
    status, out, error = run()
    found = compared(name, expected, (status, out, without_length(error)))
    seconds = time.monotonic() - began
    if not found.text and seconds > SECONDS_OF_A_RUN:
        return failed(name, f"it took {seconds:.0f} seconds")
    return found


def largest_results(context: Context, program: Program, scale: Scale) -> Iterator[Result]:
    """The last two blocks of the largest disk of the largest blocks are taken."""
    image, n = context.folder / "largest.img", scale.largest
    words = [image, "fresh", str(n), "8", R, W, "near"]
    lines = f"open 1\nalloc 1 0 {W} {n - 1} 2\nfree\n".encode()
    replies = f"ok\nblocks {n - 1} {n - 2}\nfree {n - 3}\n".encode()
    yield in_time(f"a disk of {n} blocks: its last ones", (0, replies, b""), lambda: program.run(words, lines))
    clean = f"clean 3 {n - 3} 2\n".encode()
    yield in_time(f"a disk of {n} blocks: check", (0, clean, b""), lambda: program.run([image, "check"]))
    image.unlink()


def of_four_sources(n: int) -> Arrays:
    """Pairs from blocks 0 to 3 to all others, and four from block 4."""
    sources = numbers_of([0]) * (n - 1) + numbers_of([1]) * (n - 1) + numbers_of([2]) * (n - 1)
    sources += numbers_of([3]) * (n - 1) + numbers_of([4]) * 4
    return sources, numbers_of(range(1, n)) * 4 + numbers_of([1, 2, 3, 4])


def of_four_targets(n: int) -> Arrays:
    """Pairs from all blocks to blocks 1 to 4. Nothing points to the others, so they are doomed."""
    targets = numbers_of([1]) * n + numbers_of([2]) * n + numbers_of([3]) * n + numbers_of([4]) * n
    return numbers_of(range(n)) * 4, targets


def of_three_targets(n: int) -> Arrays:
    """Pairs from block 0 to all others, from these to blocks 1 to 3, and four from block 1."""
    others = numbers_of(range(1, n))
    sources = numbers_of([0]) * (n - 1) + others * 3 + numbers_of([1]) * 4
    three = numbers_of([1]) * (n - 1) + numbers_of([2]) * (n - 1) + numbers_of([3]) * (n - 1)
    return sources, others + three + numbers_of([4, 5, 6, 7])


def full_image(n: int, pairs_of: Callable[[int], Arrays]) -> LargeImage:
    """An image whose slots are all in use, in an order that looks drawn at random."""
    image = LargeImage(n)
    image.set_live(n)
    sources, targets = pairs_of(n)
    image.put_pairs(mixed(sources), mixed(targets))
    return image


def slot_results(context: Context, program: Program, scale: Scale) -> Iterator[Result]:
    """All slots in use, and then one pair twice; and doomed blocks with pointers to the same four."""
    n, path = scale.blocks, context.folder / "slots.img"
    for pairs_of in (of_four_sources, of_three_targets, of_four_targets):
        image = full_image(n, pairs_of)
        name = f"pairs {pairs_of.__name__} in {image.slots} slots"
        if pairs_of != of_four_targets:
            image.write(path)
            expected = (0, f"clean {n} 0 {4 * n}\n".encode(), b"")
            yield in_time(f"{name}: check", expected, lambda: program.run([path, "check"]))
        source, target = image.copy_slot(9, 4000000 * n // FULL.blocks)
        image.write(path)
        line = f"damaged repeated {source} {target}"
        expected = (3, f"{line}\n".encode(), f"tsd: not an image: {line}\n".encode())
        yield in_time(f"{name}, one of them twice: check", expected, lambda: program.run([path, "check"]))
    full_image(DOOMED_BLOCKS, of_four_targets).write(path)
    expected = (0, f"clean 5 {DOOMED_BLOCKS - 5} 20\n".encode(), b"")
    yield in_time("doomed blocks with four pointers each: check", expected, lambda: program.run([path, "check"]))
    path.unlink()


def many_pointers(amount: int) -> Iterator[List[Tuple[str, str]]]:
    """Requests and replies, in runs: pointers from block 0 to each of many blocks, and from each of these to block 1;
    they are listed, asked for, and taken away again in another order."""
    targets = range(1, amount + 1)
    others = [1 + number * 7919 % amount for number in range(amount)]
    assert len(set(others)) == amount
    rows = [range(first, first + AT_ONCE) for first in targets[::AT_ONCE]]
    yield [(f"alloc 1 0 {W} - {AT_ONCE}", " ".join(["blocks", *map(str, row)])) for row in rows]
    touch = [(f"write 1 0 {W} -", "ok")]
    yield touch + [(f"create 1 {source} - 1", "ok") for source in others]
    lists = [targets[first:first + LISTED] for first in range(0, amount, LISTED)]
    yield ([(f"list 1 0 {R} {row[0]}", " ".join(["list", *map(str, row)])) for row in lists]
           + touch + [(f"create 1 {source} - 1", "no pointer-exists") for source in targets[::10]]
           + [(f"list 1 {source} - 0", "list 1") for source in targets[::10]])
    yield touch + [(f"delete 1 {source} - 1", "gone 0") for source in reversed(others)]
    yield ([(f"delete 1 0 {W} {target}", "gone 1") for target in others]
           + [(f"list 1 0 {R} 0", "list -"), (f"delete 1 0 {W} 1", "no free-block")])


def pointer_results(context: Context, program: Program, scale: Scale) -> Iterator[Result]:
    """Many pointers from one block, and many to one; each run within a minute."""
    path, amount = context.folder / "pointers.img", scale.pointers
    n = 1 << amount.bit_length()
    program.run([path, "fresh", str(n), "1", R, W, "low"])
    for number, pairs in enumerate(many_pointers(amount), 1):
        text = "".join(f"{line}\n" for line, _ in [("open 1", "")] + pairs).encode()
        replies = "".join(f"{reply}\n" for _, reply in [("", "ok")] + pairs).encode()
        name = f"{amount} pointers from a block, and to one: run {number}, {len(pairs)} requests"
        yield in_time(name, (0, replies, b""), lambda: program.run([path, "run", "low"], text))
    clean = f"clean 1 {n - 1} 0\n".encode()
    yield in_time(f"{amount} pointers: check", (0, clean, b""), lambda: program.run([path, "check"]))
    path.unlink()


def chain_image(blocks: int, length: int, is_forward: bool, head: str) -> LargeImage:
    """A chain whose head hangs from block 0, from its own last block (a ring), or from nothing."""
    image = LargeImage(blocks)
    image.set_live(length + 1)
    order = numbers_of(range(1, length + 1) if is_forward else range(length, 0, -1))
    first = {"root": numbers_of([0]), "ring": order[-1:], "nothing": numbers_of([])}[head]
    image.put_pairs(first + order[:-1], order[:1] * len(first) + order[1:])
    return image


def chain_results(context: Context, program: Program, scale: Scale) -> Iterator[Result]:
    """Chains that go at once: deleted at the head, swept, or found at the opening."""
    path, length = context.folder / "chain.img", scale.chain
    all_free = scale.blocks - 1
    cases = (
        ("deleted at its head", True, "root", f"delete 1 0 {W} 1", f"gone {length}"),
        ("swept, a ring that ascends", True, "ring", f"sweep 1 {W}", f"gone {length}"),
        ("swept, a ring that descends", False, "ring", f"sweep 1 {W}", f"gone {length}"),
        ("doomed at the opening", False, "nothing", f"sweep 1 {W}", "gone 0"),
    )
    for what, is_forward, head, line, reply in cases:
        chain_image(scale.blocks, length, is_forward, head).write(path)
        expected = (0, f"ok\n{reply}\nfree {all_free}\n".encode(), b"")
        text = f"open 1\n{line}\nfree\n".encode()
        name = f"a chain of {length} blocks, {what}"
        yield in_time(name, expected, lambda: program.run([path, "run", "near"], text, limit_stack))
        clean = f"clean 1 {all_free} 0\n".encode()
        yield in_time(f"{name}: check", (0, clean, b""), lambda: program.run([path, "check"]))
    path.unlink()


def longest_results(context: Context, program: Program, scale: Scale) -> Iterator[Result]:
    """The longest chain, deleted at its head, and a ring that is swept."""
    path, length = context.folder / "longest.img", scale.longest
    for head, line in (("root", f"delete 1 0 {W} 1"), ("ring", f"sweep 1 {W}")):
        chain_image(scale.blocks, length, True, head).write(path)
        expected = (0, f"ok\ngone {length}\nfree {scale.blocks - 1}\n".encode(), b"")
        run = program.run([path, "run", "near"], f"open 1\n{line}\nfree\n".encode(), limit_stack)
        yield compared(f"a chain of {length} blocks: {line.split()[0]}", expected, tuple(run))
    path.unlink()


GROUPS: Dict[str, Callable[[Context, Program, Scale], Iterator[Result]]] = {
    "the largest disk": largest_results,
    "all slots in use": slot_results,
    "many pointers": pointer_results,
    "long chains": chain_results,
    "the longest chain": longest_results,
}


def while_time_is_left(group: str, results: Iterator[Result], end: float) -> Iterator[Result]:
    """The results that come before the time is over; then that the others are skipped."""
    while time.monotonic() < end:
        result = next(results, None)
        if result is None:
            return
        yield result
    yield skipped(group, f"the time of {MOST_SECONDS} seconds was over before its end")


def run(context: Context) -> Iterator[Result]:
    """All of them, as long as there is time."""
    program = Program(context.program)
    scale = SMALL if is_checked(program) else FULL
    end = time.monotonic() + MOST_SECONDS
    for group, results in GROUPS.items():
        yield from while_time_is_left(group, results(context, program, scale), end)

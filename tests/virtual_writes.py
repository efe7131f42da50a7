"""When a virtual disk answers a write, and when a flush: what a flush was answered for is there after a kill, by both
plugins. By that in C a write is answered before it is on the disk. So while the disk's program is stopped

- a write to a block that is there is answered, up to a bound, and read back; after a kill it is there or not, whole,
- a flush, a write with FUA and a write to a new block aren't answered until the program goes on;

and where such a write fails after it was answered, by a fault of the device, by the program's end or by a capability
that was taken away, the flush tells it, and each later request fails. A client that goes without a flush leaves what
was answered on the disk.
"""

from __future__ import annotations

import contextlib
import errno
import os
import shutil
import signal
import threading
import time
from pathlib import Path
from random import Random
from typing import Callable, Dict, Iterator, List, NamedTuple, Tuple

from case_table import running_hub
from nbd_servers import FLUSH, FUA, READ, WRITE, Client, Server, call, children, kill_all, made, served
from parts import Context, Result, compared, skipped
from recording import NoRecorder, Recorder

BLOCK = 4096
LEAVES = 64
SIZE = f"size={LEAVES * BLOCK}"
UNDER_WAY = 16
TURNS = 4
STILL_SECONDS = 0.5
# More syncs than opening and the first writes take.
FAULT_AT = 80
# The most requests that the plugin in C has under way, and how many are sent to see it.
BOUND, FLOOD = 256, 400
LOST = "a write that was answered is lost"


def block_of(number: int) -> bytes:
    """A block's bytes that tell this number."""
    return number.to_bytes(8, "little") * (BLOCK // 8)


def filled(client: Client) -> None:
    """Has each leaf there, with block 0, and the server know that it may write."""
    for leaf in range(LEAVES):
        client.send(WRITE, leaf * BLOCK, block_of(0))
    for _ in range(LEAVES):
        client.take()
    client.ask(WRITE, 0, block_of(0))
    client.ask(FLUSH)


def content_of(image: Path, cap: Path) -> List[bytes]:
    """What each leaf has, by the tree in Python."""
    import tsd
    from tsd.virtual_disk import VirtualDisk

    with tsd.open(image) as disk, disk.session() as session:
        data = VirtualDisk(session, 0, tsd.Capability.from_file(cap)).read(0, LEAVES * BLOCK)
    return [data[at:at + BLOCK] for at in range(0, len(data), BLOCK)]


class Written(NamedTuple):
    """Which number each leaf got before a flush, and some of them behind it."""

    flushed: Dict[int, int]
    later: Dict[int, int]

    def is_allowed(self, leaf: int, found: bytes) -> bool:
        """Whether a leaf may have these bytes after a kill."""
        return found in [block_of(one[leaf]) for one in self if leaf in one]


def written_by(client: Client, rng: Random) -> Written:
    """Writes each leaf twice, with 16 under way, and flushes; when that is answered a few writes more are under way."""
    written, leaves = Written({}, {}), list(range(LEAVES))
    for _ in range(2):
        rng.shuffle(leaves)
        for first in range(0, LEAVES, UNDER_WAY):
            for leaf in leaves[first:first + UNDER_WAY]:
                written.flushed[leaf] = rng.randrange(1 << 32)
                client.send(WRITE, leaf * BLOCK, block_of(written.flushed[leaf]))
            for _ in range(UNDER_WAY):
                client.take()
    flush = client.send(FLUSH)
    for leaf in range(8):
        written.later[leaf] = rng.randrange(1 << 32)
        client.send(WRITE, leaf * BLOCK, block_of(written.later[leaf]))
    while client.take().number != flush:
        pass
    return written


def tried_flushes(context: Context) -> Iterator[Result]:
    """Server and disk are killed when a flush is answered. What was answered before the flush was sent is there, what
    came behind it is there or not, whole."""
    image, [cap] = made(context, "flushes", 2 * LEAVES + 10)
    rng, wrong = context.random("flushes"), []
    for turn in range(TURNS):
        server = Server(context, f"image={image}", f"cap={cap}", *([] if turn else [SIZE]))
        client, programs = Client(server.path), children(server)
        filled(client)
        written = written_by(client, rng)
        kill_all(server, programs)
        client.close()
        found = content_of(image, cap)
        wrong += [(turn, leaf) for leaf in range(LEAVES) if not written.is_allowed(leaf, found[leaf])]
    yield compared("what a flush was answered for is there after a kill, and each block is whole", [], wrong)


@contextlib.contextmanager
def stopped(programs: List[int]) -> Iterator[None]:
    """While these programs stand still."""
    for program in programs:
        os.kill(program, signal.SIGSTOP)
    try:
        yield
    finally:
        for program in programs:
            with contextlib.suppress(ProcessLookupError):
                os.kill(program, signal.SIGCONT)


def tried_standing(context: Context) -> Iterator[Result]:
    """What is answered while the disk's program stands still, and what isn't."""
    image, [cap] = made(context, "standing", 3 * LEAVES)
    with served(context, f"image={image}", f"cap={cap}", f"size={2 * LEAVES * BLOCK}") as server:
        client, programs = Client(server.path), children(server)
        filled(client)
        with stopped(programs):
            early = [client.ask(WRITE, leaf * BLOCK + leaf, block_of(7)[leaf:]).error for leaf in range(8)]
            yield compared("writes of blocks that are there are answered while the disk stands still", [0] * 8, early)
            wanted = [block_of(0)[:leaf] + block_of(7)[leaf:] for leaf in range(8)]
            found = [client.ask(READ, leaf * BLOCK, length=BLOCK).data for leaf in range(8)]
            yield compared("and read back", True, found == wanted)
            rows = (("a flush", (FLUSH,), 0), ("a write with FUA", (WRITE, BLOCK, block_of(8)), FUA),
                    ("a write to a new block", (WRITE, LEAVES * BLOCK, block_of(9)), 0))
            names = {client.send(*given, flags=flags): name for name, given, flags in rows}
            come = [names.get(one.number) for one in client.take_all(STILL_SECONDS)]
            yield compared("a flush, a write with FUA and one to a new block aren't answered", [], come)
        after = sorted((names[one.number], one.error) for one in (client.take() for _ in names))
        yield compared("once it goes on they are", sorted((name, 0) for name in names.values()), after)
        yield from tried_bound(client, programs)
        client.close()


def tried_read_before(context: Context) -> Iterator[Result]:
    """A read that is under way when its block is written: what it brings isn't kept for later reads."""
    image, [cap] = made(context, "before", 2 * LEAVES)
    words = (f"image={image}", f"cap={cap}")
    with served(context, *words, SIZE) as server:
        client = Client(server.path)
        filled(client)
        client.close()
    with served(context, *words) as server:
        client, programs = Client(server.path), children(server)
        client.ask(WRITE, 0, block_of(0))
        with stopped(programs):
            read = client.send(READ, BLOCK, length=BLOCK)
            time.sleep(STILL_SECONDS)
            written = client.send(WRITE, BLOCK, block_of(1))
            time.sleep(STILL_SECONDS)
        answers = sorted(client.take() for _ in range(2))
        yield compared("a read and a write behind it", [(read, 0), (written, 0)], [one[:2] for one in answers])
        found = client.ask(READ, BLOCK, length=BLOCK).data
        yield compared("what was written is read from then on", block_of(1)[:8], found[:8])
        client.close()


def tried_bound(client: Client, programs: List[int]) -> Iterator[Result]:
    """Writes without a flush, while the disk stands still: so many are answered, and the others when it goes on."""
    leaf_of = [number % LEAVES for number in range(FLOOD)]

    def flood() -> None:
        for number in range(FLOOD):
            client.send(WRITE, leaf_of[number] * BLOCK, block_of(number))

    with stopped(programs):
        thread = threading.Thread(target=flood)
        thread.start()
        early = len(client.take_all(STILL_SECONDS))
    left = [client.take() for _ in range(FLOOD - early)]
    thread.join()
    yield compared(f"no more than {BOUND} writes are answered before", True, UNDER_WAY < early <= BOUND)
    yield compared("and the others later", {0}, {one.error for one in left})
    yield compared("a flush of them", 0, client.ask(FLUSH).error)


def tried_stopped_kill(context: Context) -> Iterator[Result]:
    """Killed while the disk stands still and writes were answered: each is there or not, whole."""
    image, [cap] = made(context, "stopped", 2 * LEAVES)
    server = Server(context, f"image={image}", f"cap={cap}", SIZE)
    client, programs = Client(server.path), children(server)
    filled(client)
    with stopped(programs):
        errors = {client.ask(WRITE, leaf * BLOCK, block_of(1)).error for leaf in range(LEAVES)}
        kill_all(server, programs)
    client.close()
    yield compared("answered before the kill", {0}, errors)
    found = set(content_of(image, cap))
    yield compared("each block is as before or as after", True, found <= {block_of(0), block_of(1)})


def tried_leaving(context: Context) -> Iterator[Result]:
    """A client goes without a flush: what was answered is waited for, and told in the log where it fails."""
    image, [cap] = made(context, "leaving", 2 * LEAVES)
    words = (f"image={image}", f"cap={cap}")
    with served(context, *words, SIZE) as server:
        client, programs = Client(server.path), children(server)
        filled(client)
        with stopped(programs):
            errors = {client.ask(WRITE, leaf * BLOCK, block_of(1)).error for leaf in range(LEAVES)}
            client.close()
    found = content_of(image, cap)
    yield compared("a client goes without a flush: what was answered is there", ({0}, {block_of(1)}),
                   (errors, set(found)))
    with served(context, *words, name="leaving") as server:
        client, programs = Client(server.path), children(server)
        client.ask(WRITE, 0, block_of(1))
        with stopped(programs):
            client.ask(WRITE, 0, block_of(2))
            for program in programs:
                os.kill(program, signal.SIGKILL)
        client.close()
    yield compared("where that failed it is told", True, LOST in server.words())


def told_late(client: Client, server: Server, change: bytes) -> Iterator[Tuple[str, object, object]]:
    """What is told of a write that fails after its answer: rows of a name, what is wanted, and what was found."""
    yield "the write is answered", 0, client.ask(WRITE, 0, change).error
    yield "the next flush tells that it failed", errno.EIO, client.ask(FLUSH).error
    yield from told_after(client, server)


def told_after(client: Client, server: Server) -> Iterator[Tuple[str, object, object]]:
    """What follows such a flush."""
    rows = (("read", (READ, 0, b"", BLOCK)), ("read elsewhere", (READ, 9 * BLOCK, b"", BLOCK)),
            ("write", (WRITE, BLOCK, block_of(3))), ("flush", (FLUSH,)))
    for name, given in rows:
        yield f"each later {name} fails", errno.EIO, client.ask(*given).error
    yield "and it is told why", True, LOST in server.words()


def tried_late_faults(context: Context) -> Iterator[Result]:
    """The device fails, and the program is killed, after a write was answered."""
    image, [cap] = made(context, "late", 2 * LEAVES)
    try:
        recorder = Recorder(context.program, context.compiler, context.folder)
        recorder.refuse_blindness(context.folder / "blind.img")
    except NoRecorder as no_recorder:
        yield skipped("a fault of the device after an answer", str(no_recorder))
        return
    wrapped = context.folder / "wrapped"
    preloaded = f"LD_PRELOAD={recorder.library} RECORDER_IMAGE={image} RECORDER_FAULTS=sync:{FAULT_AT}+:EIO"
    wrapped.write_text(f'#!/bin/sh\n{preloaded} exec {context.program} "$@"\n')
    wrapped.chmod(0o700)
    os.environ["TSD_PROGRAM"] = str(wrapped)
    try:
        with served(context, f"image={image}", f"cap={cap}", SIZE) as server:
            os.environ["TSD_PROGRAM"] = str(context.program)
            yield from fault_told(context, Client(server.path), server)
    finally:
        os.environ["TSD_PROGRAM"] = str(context.program)
    yield compared("after the fault the image is sound", 0, call(context.program, image, "check")[0])
    with served(context, f"image={image}", f"cap={cap}", name="killed") as server:
        client, programs = Client(server.path), children(server)
        client.ask(WRITE, 0, block_of(0))
        with stopped(programs):
            error = client.ask(WRITE, 0, block_of(2)).error
            for program in programs:
                os.kill(program, signal.SIGKILL)
        rows = [("the write is answered", 0, error),
                ("the next flush tells that it failed", errno.EIO, client.ask(FLUSH).error)]
        for name, wanted, found in [*rows, *told_after(client, server)]:
            yield compared(f"the program is killed: {name}", wanted, found)
        client.close()


def fault_told(context: Context, client: Client, server: Server) -> Iterator[Result]:
    """Writes and flushes until a flush fails: no write did."""
    client.ask(WRITE, 0, block_of(0))
    client.ask(WRITE, 0, block_of(0))
    errors, flushed = [], 0
    while flushed == 0 and len(errors) < FAULT_AT:
        errors.append(client.ask(WRITE, 0, block_of(len(errors))).error)
        flushed = client.ask(FLUSH).error
    found = (set(errors), flushed)
    yield compared("a fault of the device: no write tells it, and a flush does", ({0}, errno.EIO), found)
    for name, wanted, found in told_after(client, server):
        yield compared(f"a fault of the device: {name}", wanted, found)
    client.close()


def tried_capabilities(context: Context) -> Iterator[Result]:
    """A capability that was taken away after writes were granted; and one that gives reading alone."""
    import tsd

    image, [cap] = made(context, "taken", 2 * LEAVES)
    secret = tsd.Capability.from_file(cap)
    with running_hub(context.top, context.program, image) as hub:
        with served(context, f"hub={hub}", f"cap={cap}", SIZE) as server:
            client = Client(server.path)
            filled(client)
            with tsd.connect(hub) as disk, disk.session() as session:
                reader, writer = tsd.Capability.new(), tsd.Capability.new()
                session.set_capabilities(0, reader, writer, secret)
            for name, wanted, found in told_late(client, server, block_of(1)):
                yield compared(f"a capability that was taken away: {name}", wanted, found)
            client.close()
        cap.write_text(reader.reveal().hex())
        with served(context, f"hub={hub}", f"cap={cap}", name="reader") as server:
            client = Client(server.path)
            found = [client.ask(WRITE, 0, block_of(1)).error, client.ask(WRITE, 0, block_of(1)).error,
                     client.ask(FLUSH).error, client.ask(READ, 0, length=BLOCK)[1:]]
            client.close()
    wanted = [errno.EPERM, errno.EPERM, 0, (0, block_of(0))]
    yield compared("a capability to read: each write tells it, and reads go on", wanted, found)


def no_ps(_: Context) -> Iterator[Result]:
    """Without `ps` no program can be stopped."""
    yield skipped("writes that are answered before they are on the disk", "there is no ps")


def in_c() -> Tuple[Callable[[Context], Iterator[Result]], ...]:
    """What is tried of the plugin in C."""
    stops = (tried_standing, tried_read_before, tried_stopped_kill, tried_leaving, tried_late_faults)
    return (*(stops if shutil.which("ps") else (no_ps,)), tried_capabilities)


BOTH = (tried_flushes,)

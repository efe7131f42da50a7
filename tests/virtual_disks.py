"""Virtual disks: the tree of python/tsd/virtual_disk.py beside a plain row of bytes, opened again and again; and, where
nbdkit and nbdcopy are installed, both plugins in contrib/nbdkit, in Python and in C: copies there and back, also by the
one what the other has written, two owners at one hub, of whom a hostile one asks for every block, kills in mid-write, a
hub that ends, a full disk, and each fault told in a line. With mke2fs and e2fsck an ext4 goes there and back; with fio,
writes that are read back and compared; of what is in C, sixteen threads at once. When writes and flushes are answered
is tried by virtual_writes.py."""

from __future__ import annotations

import contextlib
import os
import shutil
import subprocess
import sys
import time
from dataclasses import replace
from pathlib import Path
from random import Random
from typing import Callable, Iterator, Optional, Tuple

import virtual_writes
from case_table import running_hub
from nbd_servers import Server, call, children, kill_all, made, served
from parts import Context, Result, compared, failed, passed, skipped

NAME = "virtual_disks"
MOST_SECONDS = 120
NBD_TOOLS = ("nbdkit", "nbdcopy", "nbdinfo")
HEADERS = ("/usr/include/nbdkit-plugin.h", "/usr/local/include/nbdkit-plugin.h")
Part = Callable[[Context], Iterator[Result]]
# Sectors of a block, blocks of the disk, bytes of the virtual disk: roots that name leaves, tables, tables of tables.
SHAPES = ((8, 300, 100 * 4096), (1, 2000, 600 * 512), (1, 20000, 15000 * 512))
TURNS, STEPS = 3, 60
MIB = 1 << 20


def step(rng: Random, disk, model: bytearray) -> None:
    """Does something drawn to both."""
    size, length = len(model), disk.block_length
    offset = rng.randrange(size)
    count = min(rng.choice([1, 511, 512, 4096, 8192, 20000]), size - offset)
    if rng.random() < 0.5:
        offset -= offset % length
        count = min(-(-count // length) * length, size - offset)
    way = rng.random()
    if way < 0.5:
        data = rng.randbytes(count)
        disk.write(offset, data)
        model[offset:offset + count] = data
    elif way < 0.6:
        disk.zero(offset, count)
        model[offset:offset + count] = bytes(count)
    elif way < 0.7:
        disk.trim(offset, count)
        first, end = -(-offset // length) * length, (offset + count) // length * length
        model[first:max(first, end)] = bytes(max(0, end - first))
    else:
        assert disk.read(offset, count) == model[offset:offset + count], (offset, count)


def tried_trees(context: Context) -> Iterator[Result]:
    """Drawn writes, zeros and trims beside a model, opened again."""
    import tsd
    from tsd.virtual_disk import VirtualDisk

    for sectors, blocks, size in SHAPES:
        image, model = context.folder / "tree.img", bytearray(size)
        rng = context.random(f"virtual {sectors} {size}")
        pairs = tsd.format_disk(image, blocks=blocks, sectors=sectors, primaries=2, slots=2 * blocks, overwrite=True)
        for turn in range(TURNS):
            with tsd.open(image) as disk, disk.session() as session:
                virtual = VirtualDisk(session, 1, pairs[1].write, None if turn else size)
                for _ in range(STEPS):
                    step(rng, virtual, model)
                holes = [one for one in virtual.extents(0, size) if not one[2]]
                is_same = virtual.read(0, size) == model
                is_same = is_same and not any(any(model[at:at + count]) for at, count, _ in holes)
                if turn == TURNS - 1:
                    virtual.trim(0, size)
                    left = disk.free()
            yield compared(f"{size} bytes over blocks of {512 * sectors}, turn {turn}", True, is_same)
        yield compared(f"{size} bytes: a trim of all leaves the tables alone", True, blocks - 2 - left < blocks // 20)


def tried_leftovers(context: Context) -> Iterator[Result]:
    """What stops between taking a block and naming it leaves is taken away; what is no virtual disk stays."""
    import tsd
    from tsd.virtual_disk import Unusable, VirtualDisk

    image = context.folder / "leftovers.img"
    [pair] = tsd.format_disk(image, blocks=64, sectors=8)
    with tsd.open(image) as disk, disk.session() as session:
        virtual = VirtualDisk(session, 0, pair.write, 20 * 4096)
        virtual.write(0, b"x" * 8192)
        free = disk.free()
        session.alloc(0, 5, pair.write)
        again = VirtualDisk(session, 0, pair.write)
        yield compared("blocks that no table names are taken away", free, disk.free())
        yield compared("and nothing else", b"x" * 8192 + bytes(4096), again.read(0, 3 * 4096))
        reader = VirtualDisk(session, 0, pair.read)
        yield compared("a capability to read reads", b"x", reader.read(0, 1))
    with tsd.open(image) as disk, disk.session() as session:
        reader = VirtualDisk(session, 0, pair.read)
        told = []
        for action in (lambda: reader.write(0, b"y" * 4096), lambda: reader.trim(0, 4096),
                       lambda: VirtualDisk(session, 0, pair.write, 21 * 4096)):
            try:
                action()
                told.append("done")
            except (tsd.Denied, Unusable) as error:
                told.append(type(error).__name__)
        yield compared("it writes nothing, and a size stays", ["Denied", "Denied", "Unusable"], told)
        yield compared("and reads on what is there", b"x" * 4096, reader.read(0, 4096))
        found = VirtualDisk(session, 0, pair.write).read(0, 4096)
        yield compared("what was denied changed nothing", b"x" * 4096, found)


def tried_copies(context: Context) -> Iterator[Result]:
    """There and back by the plugin, also with a file system."""
    image, [cap] = made(context, "copies", 6000)
    content, back = context.folder / "content", context.folder / "back"
    content.write_bytes(context.random("content").randbytes(8 * MIB))
    words = (f"image={image}", f"cap={cap}")
    with served(context, *words, "size=16M") as server:
        yield compared("nbdcopy there", (0, ""), call("nbdcopy", content, server.uri))
        yield compared("nbdcopy back", (0, ""), call("nbdcopy", server.uri, back))
        yield compared("equal", True, back.read_bytes() == content.read_bytes() + bytes(8 * MIB))
    yield compared("the image is sound", 0, call(context.program, image, "check")[0])
    with served(context, *words) as server:
        yield compared("its size stays", (0, f"{16 * MIB}\n"), call("nbdinfo", "--size", server.uri))
        if shutil.which("mke2fs") is None or shutil.which("e2fsck") is None:
            yield skipped("an ext4", "there is no mke2fs or e2fsck")
        else:
            system = context.folder / "ext4.img"
            call("mke2fs", "-q", "-t", "ext4", "-d", context.top / "docs", system, "16M")
            yield compared("an ext4 there", (0, ""), call("nbdcopy", system, server.uri))
            call("nbdcopy", server.uri, back)
            yield compared("an ext4 back", True, back.read_bytes() == system.read_bytes())
            yield compared("e2fsck finds nothing", 0, call("e2fsck", "-fn", back)[0])
        if shutil.which("fio") is None:
            yield skipped("writes that are compared", "there is no fio")
            return
        status, told = call("fio", "--name=x", "--ioengine=nbd", f"--uri={server.uri}", "--rw=randrw", "--bs=4k",
                            "--size=4M", "--iodepth=16", "--verify=crc32c", "--fsync=8")
        yield passed("fio reads what it wrote") if status == 0 else failed("fio reads what it wrote", told)


def tried_owners(context: Context) -> Iterator[Result]:
    """Two owners at one hub, each with its own capability; one asks for every block of the disk."""
    import tsd

    image, caps = made(context, "owners", 2000, 2)
    data = [context.random(f"owner {root}").randbytes(2 * MIB) for root in (0, 1)]
    with running_hub(context.top, context.program, image) as hub:
        with served(context, f"hub={hub}", "root=0", f"cap={caps[0]}", "size=2M", name="first") as first, \
                served(context, f"hub={hub}", "root=1", f"cap={caps[1]}", "size=2M", name="second") as second:
            for server, content in zip((first, second), data):
                (context.folder / "content").write_bytes(content)
                call("nbdcopy", context.folder / "content", server.uri)
            reached = hostile(hub, caps[1], 2000)
            with tsd.connect(hub) as disk, disk.session() as session:
                own = under(session, 1, tsd.Capability.from_file(caps[1]))
            yield compared("who asks for every block reaches its own tree alone", own, reached)
            for server, content, name in ((first, data[0], "first"), (second, data[1], "second")):
                back = context.folder / "back"
                call("nbdcopy", server.uri, back)
                yield compared(f"the {name} owner's bytes are as they were", True, back.read_bytes() == content)


def hostile(hub: Path, cap: Path, blocks: int) -> set:
    """Which blocks somebody reaches who has one capability and asks for each block until no more come."""
    import tsd

    secret, reached = tsd.Capability.from_file(cap), set()
    with tsd.connect(hub) as disk, disk.session() as session:
        count = -1
        while count < len(reached):
            count = len(reached)
            for block in range(blocks):
                with contextlib.suppress(tsd.Refused):
                    session.read(block, secret)
                    reached.add(block)
    return reached


def under(session, root: int, cap) -> set:
    """The blocks of a tree, by its pointers."""
    found, left = {root}, [root]
    while left:
        block = left.pop()
        session.read(block, cap if block == root else None)
        for target in session.list(block, cap if block == root else None):
            if target not in found:
                found.add(target)
                left.append(target)
    return found


def tried_kills(context: Context) -> Iterator[Result]:
    """The server and its disk are killed in mid-write: each block is as before or as after, and the disk goes on."""
    image, [cap] = made(context, "kills", 3000)
    words = (f"image={image}", f"cap={cap}")
    contents = [bytes([number]) * (4 * MIB) for number in (1, 2, 3, 4)]
    content, back = context.folder / "content", context.folder / "back"
    before = {b"\0" * 4096}
    for turn, data in enumerate(contents):
        content.write_bytes(data)
        server = Server(context, *words, *([] if turn else ["size=4M"]))
        programs = children(server)
        copy = subprocess.Popen(["nbdcopy", str(content), server.uri], stderr=subprocess.DEVNULL)
        time.sleep(0.1 + 0.15 * turn)
        kill_all(server, programs)
        copy.wait(MOST_SECONDS)
        before.add(data[:4096])
        yield compared(f"the image is sound after kill {turn}", 0, call(context.program, image, "check")[0])
        with served(context, *words) as again:
            yield compared(f"it serves after kill {turn}", (0, ""), call("nbdcopy", again.uri, back))
        found = back.read_bytes()
        wrong = [at for at in range(0, len(found), 4096) if found[at:at + 4096] not in before]
        yield compared(f"each block is whole after kill {turn}", [], wrong)


def tried_ends(context: Context) -> Iterator[Result]:
    """The hub ends while a virtual disk is served: each request fails, and a line says what to do; what was answered is
    there for the next hub."""
    image, [cap] = made(context, "ends", 1000)
    content, back = context.folder / "content", context.folder / "back"
    content.write_bytes(context.random("ends").randbytes(MIB))
    hub = contextlib.ExitStack()
    path = hub.enter_context(running_hub(context.top, context.program, image))
    try:
        with served(context, f"hub={path}", f"cap={cap}", "size=1M", "cache=0") as server:
            yield compared("over a hub", (0, ""), call("nbdcopy", content, server.uri))
            hub.close()
            yield compared("the hub ended: a request fails", 1, call("nbdcopy", server.uri, back)[0])
            yield compared("and it is told what to do", True, "start the hub and this server again" in server.words())
    finally:
        hub.close()
    with running_hub(context.top, context.program, image) as path:
        with served(context, f"hub={path}", f"cap={cap}") as server:
            yield compared("by the next hub", (0, ""), call("nbdcopy", server.uri, back))
        yield compared("all that was answered is there", True, back.read_bytes() == content.read_bytes())


def tried_faults(context: Context) -> Iterator[Result]:
    """What is wrong is told in a line, and nothing is changed."""
    image, [cap] = made(context, "faults", 100)
    wrong, none = context.folder / "wrong.cap", context.folder / "none"
    wrong.write_text("0" * 32)
    base = (f"image={image}", f"cap={cap}")
    rows = (
        ("no size", base, "block 0 has no virtual disk yet: give the size of the one that is to be made"),
        ("a wrong capability", (f"image={image}", f"cap={wrong}", "size=64K"), "denied: none attained, read needed"),
        ("no capability's file", (f"image={image}", f"cap={none}", "size=64K"), "No such file"),
        ("no image", (f"image={none}", f"cap={cap}", "size=64K"), "the disk's program ended with status 4"),
        ("no hub", (f"hub={none}", f"cap={cap}", "size=64K"), "No such file"),
        ("neither", (f"cap={cap}",), "give hub=SOCKET or image=FILE, and not both"),
        ("a word that isn't there", (*base, "sise=64K"), "there is no word sise="),
        ("a size between blocks", (*base, "size=5000"), "multiple of 4096 bytes"),
        ("a block that isn't there", (*base, "root=4000", "size=64K"), "the disk has no block of this number"),
    )
    for name, words, wanted in rows:
        with served(context, *words) as server:
            told = [line for line in server.words().splitlines() if line.strip()]
            is_told = server.process.poll() == 1 and len(told) == 1 and wanted in told[0]
            yield passed(name) if is_told else failed(name, f"wanted {wanted}\n" + "\n".join(told))
    yield compared("nothing was changed", (0, "clean 1 99 0\n"), call(context.program, image, "check"))
    content = context.folder / "content"
    content.write_bytes(b"x" * MIB)
    with served(context, *base, "size=1M") as server:
        # One request at a time: nbdkit 1.32 may abort where a client goes while replies to it are under way.
        status, told = call("nbdcopy", "--connections=1", "--requests=1", content, server.uri)
        yield compared("a full disk is no space left", (1, True), (status, "No space left" in told))
        yield compared("and is told with what to do", True, "trim what isn't used" in server.words())
        found = call("nbdcopy", server.uri, context.folder / "back")
        told = f"{found}\nthe server's status: {server.process.poll()}\n{server.words()}"
        yield passed("and reads on") if found == (0, "") else failed("and reads on", told)


def compiled(context: Context) -> str:
    """Compiles the plugin in C, without a warning; what the compiler says."""
    folder = context.top / "contrib/nbdkit"
    command = [context.compiler, "-std=c11", "-D_GNU_SOURCE", "-O2", "-Wall", "-Wextra", "-Werror", "-shared", "-fPIC",
               "-I", context.top / "clients/c", "-o", context.folder / "tsd_disk.so", folder / "tsd_disk.c",
               folder / "virtual_disk.c", context.top / "clients/c/tsd.c", "-lpthread"]
    return call(*command)[1]


def tried_threads(context: Context) -> Iterator[Result]:
    """Sixteen threads at once, each beside a model of its bytes; where the compiler has them, under its checks."""
    checks = ["-fsanitize=address,undefined"]
    program, folder = context.folder / "threads", context.top / "contrib/nbdkit"
    command = [context.compiler, "-std=c11", "-D_GNU_SOURCE", "-g", "-O1", "-I", context.top / "clients/c", "-I",
               folder, "-o", program, context.top / "tests/virtual_threads.c", folder / "virtual_disk.c",
               context.top / "clients/c/tsd.c", "-lpthread"]
    if call(*command, *checks)[0] != 0:
        call(*command)
    for sectors, blocks, leaves in ((8, 3000, 2003), (1, 20000, 7813)):
        image, [cap] = made(context, f"threads{sectors}", blocks, sectors=sectors)
        words = (image, cap, 512 * sectors * leaves, 40, context.random("threads").randrange(1 << 30))
        yield compared(f"sixteen threads, {leaves} blocks of {512 * sectors}", (0, "right\n"), call(program, *words))
        yield compared(f"{leaves} blocks of {512 * sectors}: the image", 0, call(context.program, image, "check")[0])


def tried_both(context: Context) -> Iterator[Result]:
    """What the plugin in C writes the tree in Python reads, and the other way round."""
    import tsd
    from tsd.virtual_disk import VirtualDisk

    for sectors, blocks, size in SHAPES:
        image, cap, back = (context.folder / name for name in ("both.img", "both.cap", "back"))
        [pair] = tsd.format_disk(image, blocks=blocks, sectors=sectors, slots=2 * blocks, overwrite=True)
        cap.write_text(pair.write.reveal().hex())
        rng = context.random(f"both {sectors} {size}")
        content = bytearray(size)
        for _ in range(20):
            at, data = rng.randrange(size - 3000), rng.randbytes(rng.randrange(1, 3000))
            content[at:at + len(data)] = data
        (context.folder / "content").write_bytes(content)
        with served(context, f"image={image}", f"cap={cap}", f"size={size}") as server:
            call("nbdcopy", context.folder / "content", server.uri)
        with tsd.open(image) as disk, disk.session() as session:
            virtual = VirtualDisk(session, 0, pair.write)
            yield compared(f"{size} bytes of C's, read in Python", True, virtual.read(0, size) == content)
            for _ in range(STEPS):
                step(rng, virtual, content)
        with served(context, f"image={image}", f"cap={cap}") as server:
            call("nbdcopy", server.uri, back)
            yield compared(f"{size} bytes of Python's, read in C", True, back.read_bytes() == content)
            os.truncate(back, 0)
            os.truncate(back, size)
            yield compared(f"{size} bytes: zeros over all of it", (0, ""), call("nbdcopy", back, server.uri))
        with tsd.open(image) as disk:
            yield compared(f"{size} bytes: leave the tables alone", True, blocks - disk.free() < blocks // 20)


def run(context: Context) -> Iterator[Result]:
    """The tree, and the plugins where nbdkit is installed."""
    os.environ["TSD_PROGRAM"] = str(context.program)
    sys.path.insert(0, str(context.top / "python"))
    yield from tried_trees(context)
    yield from tried_leftovers(context)
    missing: Optional[str] = next((tool for tool in NBD_TOOLS if shutil.which(tool) is None), None)
    if missing is not None:
        yield skipped("the plugins", f"there is no {missing}")
        return
    parts = (tried_copies, tried_owners, tried_kills, tried_ends, tried_faults, *virtual_writes.BOTH)
    if call("nbdkit", "python", "--version")[0] == 0:
        Server.plugin = ["python", str(context.top / "contrib/nbdkit/tsd_disk.py")]
        yield from with_each(context, "Python", parts)
    else:
        yield skipped("the plugin in Python", "there is no Python plugin of nbdkit")
    if context.compiler is None or not any(Path(one).exists() for one in HEADERS):
        yield skipped("the plugin in C", "there is no C compiler, or no nbdkit-plugin.h")
        return
    told = compiled(context)
    yield compared("the plugin in C is compiled without a warning", "", told)
    if not told:
        Server.plugin = [str(context.folder / "tsd_disk.so")]
        yield from with_each(context, "C", (*parts, *virtual_writes.in_c(), tried_both, tried_threads))


def with_each(context: Context, name: str, parts: Tuple[Part, ...]) -> Iterator[Result]:
    """Parts, in a folder of their own."""
    folder = context.folder / name
    folder.mkdir()
    for part in parts:
        for result in part(replace(context, folder=folder)):
            yield result._replace(name=f"{name}: {result.name}")

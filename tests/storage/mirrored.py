"""Two storages as one disk: a loop device, and an NBD server that is killed in mid-run, as either side. The run goes on
with the side that is left and tells in the end which one is lost; the side that is left has each answered request, and
copied back, both have."""

from __future__ import annotations

import random
from pathlib import Path
from typing import Iterator, List

from blocks import Fuse, Server, attached, file_words, lack_of_fuse, served
from file_systems import MEBIBYTE
from judging import Different
from machine import Place, beside, loop, missing, sized
from parts import Result, passed, skipped
from sites import DEVICE_FAULT, REQUESTS, Running, Site

SIDE_LOST = 11
TURNS = 4
AFTER = 60
# After how many answers a server is killed, and how many come before the other one is.
SOON = (0, REQUESTS // 2)
BETWEEN = 40


class Mirrored(Site):
    """A disk in two images as one."""

    def __init__(self, program: Path, first: Path, second: Path, numbers: random.Random) -> None:
        self.second = second
        super().__init__(program, first, numbers)

    def command(self, *words: str) -> List[str]:
        """The command of a run over both."""
        return [str(self.program), "mirror", str(self.image), str(self.second), *words]

    def put_first(self, image: Path) -> None:
        """From here on this image is the first one."""
        if self.image != image:
            self.image, self.second = self.second, self.image

    def copy_back(self) -> None:
        """The first image is copied to the second one; a run goes on, and then both have the same bytes."""
        self.go_on(AFTER)
        if self.image.read_bytes() != self.second.read_bytes():
            raise Different(f"after a run over both, {self.image} and {self.second} differ")


def require(running: Running, status: int, line: str) -> None:
    """A run ended with this status, and with this line."""
    if running.status != status or line.encode() not in running.error.splitlines():
        raise Different(f"the run ended otherwise than by {line!r}: {running.told()}")


def lose(site: Mirrored, server: Server, lost: Path, left: Path) -> int:
    """The server of one side is killed in mid-run; after how many answers."""
    side = "first" if site.image == lost else "second"
    running = site.begin()
    with beside(running.ask):
        running.wait_for(site.numbers.randrange(*SOON))
        answered = running.answered
        server.kill()
    running.ask()
    running.end()
    require(running, SIDE_LOST, f"tsd: side lost, {side}")
    if running.answered != len(running.lines):
        raise Different(f"the run didn't go on: {running.told()}")
    site.look(running, left.read_bytes())
    return answered


def one_dies(place: Place) -> Iterator[Result]:
    """A loop device, and a server that is killed: first as the first side, then as the second one, and so on."""
    folder = place.inner("one")
    kept = sized(folder / "kept.raw", MEBIBYTE)
    socket = folder / "socket"
    client = Fuse(folder / "mount", socket)
    file = sized(folder / "served.raw", MEBIBYTE)
    counts = []
    with loop(kept) as left, served(socket, *file_words(file)) as server, attached(client) as dying:
        site = Mirrored(place.program, dying, left, place.numbers("one dies"))
        for turn in range(TURNS):
            site.put_first(left if turn % 2 else dying)
            counts.append(str(lose(site, server, dying, left)))
            client.detach()
            server.start()
            client.attach()
            site.put_first(left)
            site.copy_back()
    text = f"killed after {', '.join(counts)} answers, as the first side and as the second in turn: the runs go on"
    yield passed(f"a loop device and nbdkit as one disk: {text}, and copied back both are the disk")


def both_die(place: Place) -> Iterator[Result]:
    """Two servers: that of the first side is killed, and then that of the second one."""
    folder = place.inner("both")
    sockets = [folder / f"socket{number}" for number in (1, 2)]
    clients = [Fuse(folder / f"mount{number}", socket) for number, socket in enumerate(sockets)]
    words = [file_words(sized(folder / f"served{number}.raw", MEBIBYTE)) for number in (1, 2)]
    with served(sockets[0], *words[0]) as one, served(sockets[1], *words[1]) as other:
        with attached(clients[0]) as first, attached(clients[1]) as second:
            site = Mirrored(place.program, first, second, place.numbers("both die"))
            running = site.begin()
            with beside(running.ask):
                running.wait_for(BETWEEN)
                one.kill()
                running.wait_for(2 * BETWEEN)
                other.kill()
            running.ask()
            running.end()
            require(running, DEVICE_FAULT, "tsd: device fault")
            for client, server in zip(clients, (one, other)):
                client.detach()
                server.start()
                client.attach()
            site.put_first(second)
            site.look(running)
            site.copy_back()
    text = f"device fault after {running.answered} answers, the second one has each, and copied back both are the disk"
    yield passed(f"two nbdkits as one disk, the first killed and then the second: {text}")


def run(place: Place) -> Iterator[Result]:
    """One that dies, and both."""
    lack = lack_of_fuse() or missing(["losetup"], ["/dev/loop-control"])
    if lack:
        yield skipped("two storages as one disk", lack)
        return
    yield from one_dies(place)
    yield from both_die(place)

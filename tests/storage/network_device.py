"""An NBD server that is killed in mid-run and started again: with a client that gives up, and with one that sends
again."""

from __future__ import annotations

from contextlib import contextmanager
from pathlib import Path
from typing import Callable, Iterator, Optional, Union

from blocks import Fuse, Kernel, Server, attached, file_words, lack_of_fuse, lack_of_kernel, served
from file_systems import MEBIBYTE
from judging import Different
from machine import Place, beside, sized
from parts import Result, compared, passed, skipped
from sites import DEVICE_FAULT, REQUESTS, Site
from speeds import measured

KILLS = 5
AFTER = 60
# After how many answers a server is killed.
SOON = (0, REQUESTS // 2)
RETRY_FILTER = "--filter=retry"
RETRY_WORDS = ("retries=20", "retry-delay=1", "retry-exponential=no")

Client = Union[Fuse, Kernel]


def kill_one(site: Site, server: Server, client: Client) -> str:
    """A server that is killed in mid-run, and started again once the run has ended; how the run ended."""
    client.attach()
    running = site.begin()
    with beside(running.ask):
        running.wait_for(site.numbers.randrange(*SOON))
        server.kill()
    running.ask()
    running.end()
    client.detach()
    server.start()
    if running.status != DEVICE_FAULT:
        raise Different(f"the run ended otherwise: {running.told()}")
    with attached(client):
        site.look(running)
        site.go_on(AFTER)
    return f"{running.answered}"


def ends_by_a_fault(
    place: Place, name: str, client_of: Callable[[Path], Client], lack: Optional[str],
) -> Iterator[Result]:
    """A client that gives up when its server goes."""
    if lack:
        yield skipped(f"{name}: a server that is killed", lack)
        return
    socket = place.folder / "socket"
    file = sized(place.folder / "served.raw", MEBIBYTE)
    with served(socket, *file_words(file)) as server:
        client = client_of(socket)
        with attached(client) as path:
            site = Site(place.program, path, place.numbers(name))
            yield compared(f"{name}: a second opening is refused", None, site.refuse_second())
        counts = [kill_one(site, server, client) for _ in range(KILLS)]
        yield passed(f"{name}: killed {KILLS} times: a device fault after {', '.join(counts)} answers, each is there")
        with attached(client) as path:
            yield measured(f"nbdkit by {name}", place.program, path, path)


def killed_and_started(site: Site, server: Server) -> None:
    """A server that is killed in mid-run and started again at once, under a client that sends again."""
    running = site.begin()
    with beside(running.ask):
        running.wait_for(site.numbers.randrange(*SOON))
        server.kill()
        server.start()
    site.finish(running)


def tries_again(place: Place) -> Iterator[Result]:
    """A client that tries again what failed, as nbdkit's filter `retry` does: the run waits and goes on. The file keeps
    what a server wrote that was killed, so that a sync which is made again is worth what the first one was."""
    name = "a client that sends again"
    folder = place.inner("again")
    file = sized(folder / "served.raw", MEBIBYTE)
    with served(folder / "inner", *file_words(file)) as server, retrying(folder) as path:
        site = Site(place.program, path, place.numbers(name))
        for _ in range(KILLS):
            killed_and_started(site, server)
        site.go_on()
    yield passed(f"{name}: its server killed {KILLS} times: the runs wait, and all is answered")


@contextmanager
def retrying(folder: Path) -> Iterator[Path]:
    """A mount of the socket `inner` by way of a server that tries again."""
    words = [RETRY_FILTER, "nbd", f"socket={folder / 'inner'}", *RETRY_WORDS]
    with served(folder / "middle", *words), attached(Fuse(folder / "mount", folder / "middle")) as path:
        yield path


def run(place: Place) -> Iterator[Result]:
    """Each client."""
    mount = place.folder / "mount"
    lack = lack_of_fuse()
    yield from ends_by_a_fault(place, "nbdfuse", lambda socket: Fuse(mount, socket), lack)
    yield from ends_by_a_fault(place, "the kernel's nbd client", Kernel, lack_of_kernel())
    if lack:
        yield skipped("a client that sends again", lack)
    else:
        yield from tries_again(place)

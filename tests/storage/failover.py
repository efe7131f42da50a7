"""Failover between two hosts, each a network namespace with a client of one replicated volume: host A is cut off, and B
opens the same image. Afterwards A is connected again: it may write no more, whatever it had open. With the volume as it
comes a host that was idle does write on, which is shown too; fencing keeps it out, and so do strict locks."""

from __future__ import annotations

import os
import signal
import time
from pathlib import Path
from typing import Iterator, List

from gluster import ADDRESS, BRIDGE, NETWORK, PAUSE, Volume, lack
from machine import Place, beside, call, missing, wait_until
from parts import Result, compared, failed, passed, skipped
from sites import DEVICE_FAULT, REQUESTS, Running, Site, alone

LONG = 4 * REQUESTS
AFTER = 60
IDLE_AFTER = 20
CUT_AFTER = (0, REQUESTS)
TAKEOVER_SECONDS = 180
BACK_SECONDS = 15
# How soon a client and a brick find that the other is gone.
QUICK = {
    "network__ping_timeout": 5, "server__tcp_user_timeout": 5, "server__keepalive_time": 3,
    "server__keepalive_interval": 1, "server__keepalive_count": 3,
}


class Host:
    """A network namespace with an address on the bridge, and a mount of the volume by a client that is in it."""

    def __init__(self, volume: Volume, name: str, number: int) -> None:
        self.name = name
        self.link = f"to-{name}"
        self.before = ["nsenter", f"--net=/run/netns/{name}"]
        address = f"{ADDRESS.rpartition('.')[0]}.{number}/{NETWORK}"
        call("ip", "netns", "add", name)
        call("ip", "link", "add", self.link, "type", "veth", "peer", "name", "eth0", "netns", name)
        call("ip", "link", "set", self.link, "master", BRIDGE, "up")
        call(*self.before, "ip", "address", "add", address, "dev", "eth0")
        for device in ("lo", "eth0"):
            call(*self.before, "ip", "link", "set", device, "up")
        self.folder = volume.mounted(f"on-{name}", self.before)

    def cut(self) -> None:
        """Cuts it off."""
        call("ip", "link", "set", self.link, "down")

    def connect(self) -> None:
        """Connects it again."""
        call("ip", "link", "set", self.link, "up")

    def fence(self) -> None:
        """Ends all that runs on it at once, as when its power is cut."""
        for pid in call("ip", "netns", "pids", self.name).split():
            os.kill(int(pid), signal.SIGKILL)

    def command(self, program: Path, image: str, *words: str) -> List[str]:
        """The command of a run on this host."""
        return [*self.before, str(program), str(self.folder / image), *words]


class Pair:
    """Both hosts, and a disk in an image on the volume that A serves."""

    def __init__(self, place: Place, a: Host, b: Host, name: str) -> None:
        self.program, self.a, self.b, self.image = place.program, a, b, f"{name}.img"
        self.site = Site(place.program, a.folder / self.image, place.numbers(name), a.before, PAUSE)

    def move(self, host: Host) -> None:
        """From here on the disk is opened on this host."""
        self.site.image, self.site.before = host.folder / self.image, tuple(host.before)

    def is_open_to_b(self) -> bool:
        """Whether B can open the image: A's lock is gone, and `check` finds a disk."""
        return alone(self.b.command(self.program, self.image, "check")).returncode == 0

    def take_over(self, running: Running) -> float:
        """B opens the image once the lock lets it, finds each answered request, and goes on; how long that took."""
        waited = wait_until(self.is_open_to_b, TAKEOVER_SECONDS, "the lock of host A")
        self.move(self.b)
        self.site.look(running)
        self.site.go_on(AFTER)
        return waited

    def come_back(self, running: Running) -> bool:
        """A is connected again, and its run is asked on; whether it ended by a device fault and changed nothing. It may
        still answer what needs no call on the image, such as a request that is refused."""
        self.a.connect()
        time.sleep(BACK_SECONDS)
        before = running.course.prefixes[running.answered]
        running.ask(IDLE_AFTER)
        running.end()
        return running.status == DEVICE_FAULT and running.course.prefixes[running.answered] == before


def cut_in_mid_run(pair: Pair) -> Iterator[Result]:
    """A is cut off while it answers."""
    running = pair.site.begin(LONG)
    with beside(running.ask):
        running.wait_for(pair.site.numbers.randrange(*CUT_AFTER))
        pair.a.cut()
        waited = wait_until(pair.is_open_to_b, TAKEOVER_SECONDS, "the lock of host A")
    pair.take_over(running)
    yield passed(f"host A cut off after {running.answered} answers: B opens the image in {waited:.0f} s, each is there")
    if not pair.come_back(running):
        yield failed("host A, connected again, went on", running.told())
        return
    pair.site.go_on(AFTER)
    yield passed("host A, connected again: its run ended by a device fault, and B's disk is as B left it")


def cut_while_idle(pair: Pair, name: str) -> Iterator[Result]:
    """A is cut off while it has nothing to answer, B takes over, and A comes back with its file still open."""
    running = pair.site.begin(REQUESTS)
    running.ask(IDLE_AFTER)
    pair.a.cut()
    waited = pair.take_over(running)
    yield passed(f"{name}: B opens the image after {waited:.0f} s, each answered request is there")
    is_out = pair.come_back(running)
    yield compared(f"{name}: host A, connected again, writes no more", (True, ""),
                   (is_out, "" if is_out else running.told()))
    pair.site.go_on(AFTER)
    yield passed(f"{name}: B's disk is as B left it")


def not_fenced(pair: Pair) -> Iterator[Result]:
    """The same over a volume as it comes: A's client asks for its lock anew and goes on with the file it had open."""
    running = pair.site.begin(REQUESTS)
    running.ask(IDLE_AFTER)
    pair.a.cut()
    pair.take_over(running)
    name = "idle, locks as they come, not fenced"
    if pair.come_back(running):
        yield skipped(f"{name}: a second writer", "host A was kept out")
    else:
        yield passed(f"{name}: as the document says, host A writes on ({running.answered - IDLE_AFTER} answers more)")


def fenced(pair: Pair) -> Iterator[Result]:
    """The same, but A is fenced before B opens the image. It comes last, since A is gone then."""
    running = pair.site.begin(LONG)
    running.ask(IDLE_AFTER)
    pair.a.cut()
    pair.a.fence()
    waited = pair.take_over(running)
    pair.a.connect()
    running.end()
    pair.site.go_on(AFTER)
    yield passed(f"host A cut off and fenced: B opens the image after {waited:.0f} s, each answered request is there")


def run(place: Place) -> Iterator[Result]:
    """All over one volume."""
    why = lack() or missing(["nsenter"])
    if why:
        yield skipped("failover", why)
        return
    volume = Volume(place)
    volume.set(**QUICK)
    a, b = Host(volume, "host-a", 11), Host(volume, "host-b", 12)
    yield from cut_in_mid_run(Pair(place, a, b, "busy"))
    yield from not_fenced(Pair(place, a, b, "idle"))
    volume.set(client__strict_locks="on")
    yield from cut_while_idle(Pair(place, a, b, "strict"), "idle, strict locks")
    yield from fenced(Pair(place, a, b, "fenced"))

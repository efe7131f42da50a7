"""A device whose writes fail from some moment on, by nbdkit's filter `error`: under a file system, and by itself."""

from __future__ import annotations

from contextlib import contextmanager
from pathlib import Path
from typing import Iterator

from blocks import Fuse, attached, file_words, lack_of_fuse, served
from file_systems import MEBIBYTE, SIZES, lack_of, make, mounted
from machine import Place, beside, loop, sized, tried
from parts import Result, failed, passed, skipped
from sites import DEVICE_FAULT, REQUESTS, Running, Site

TURNS = 3
AFTER = 60
# After how many answers writes begin to fail.
SOON = (0, REQUESTS // 2)


@contextmanager
def failing(folder: Path, size: int) -> Iterator[Path]:
    """A file whose writes fail while the file `trigger` is in the folder."""
    words = file_words(sized(folder / "served.raw", size), "error")
    rules = [f"{rule}-{part}" for rule in ("error-pwrite", "error-zero", "error-trim")
             for part in ("rate=100%", f"file={folder / 'trigger'}")]
    with served(folder / "socket", *words, *rules), attached(Fuse(folder / "mount", folder / "socket")) as path:
        yield path


def run_into(site: Site, trigger: Path) -> Running:
    """A run in whose midst writes begin to fail; they fail no more when it has ended."""
    running = site.begin()
    with beside(running.ask):
        running.wait_for(site.numbers.randrange(*SOON))
        trigger.touch()
    running.end()
    return running


def by_itself(place: Place) -> Iterator[Result]:
    """The image is what is served."""
    folder = place.inner("itself")
    trigger = folder / "trigger"
    counts = []
    with failing(folder, MEBIBYTE) as path:
        site = Site(place.program, path, place.numbers("itself"))
        for _ in range(TURNS):
            running = run_into(site, trigger)
            trigger.unlink()
            if running.status != DEVICE_FAULT:
                yield failed("a device whose writes fail: the run ended otherwise", running.told())
                return
            counts.append(str(running.answered))
            site.look(running)
            site.go_on(AFTER)
    yield passed(f"a device whose writes fail: ended after {', '.join(counts)} answers, each is there")


def clear(device: Path, name: str) -> None:
    """Looks a file system over once its device is well again, where a mount alone doesn't."""
    if name == "ext4":
        # (1: errors were corrected)
        tried("e2fsck", "-p", device)


def under(name: str, place: Place) -> Iterator[Result]:
    """The image is a file of a file system on what is served. The file system is mounted anew before each look, so that
    nothing is read that only its cache has."""
    lack = lack_of(name) or lack_of_fuse()
    title = f"{name}, on a device whose writes fail"
    if lack:
        yield skipped(title, lack)
        return
    folder = place.inner(name)
    trigger, at, counts = folder / "trigger", folder / "system", []
    with failing(folder, SIZES[name]) as path, loop(path) as device:
        make(name, device)
        with mounted(name, device, at):
            site = Site(place.program, at / "disk.img", place.numbers(title))
        for _ in range(TURNS):
            with mounted(name, device, at):
                running = run_into(site, trigger)
            trigger.unlink()
            if running.status != DEVICE_FAULT:
                yield failed(f"{title}: the run ended otherwise", running.told())
                return
            counts.append(str(running.answered))
            clear(device, name)
            with mounted(name, device, at):
                site.look(running)
                site.go_on(AFTER)
    yield passed(f"{title}: ended after {', '.join(counts)} answers, each is there")


def run(place: Place) -> Iterator[Result]:
    """By itself, and under each file system."""
    lack = lack_of_fuse()
    if lack:
        yield skipped("a device whose writes fail", lack)
    else:
        yield from by_itself(place)
    for name in SIZES:
        yield from under(name, place)

"""Full file systems: the room goes in mid-run, or under a loop device, and comes back."""

from __future__ import annotations

from pathlib import Path
from typing import Iterator

from file_systems import MEBIBYTE, SIZES, lack_of, make, mounted
from machine import Place, call, loop, sized
from parts import Result, compared, failed, passed, skipped
from sites import DEVICE_FAULT, Running, Site
from speeds import measured

PIECES = (MEBIBYTE, 4096, 512)
# How many requests are answered before the room goes: few, so that most of the journal is a hole yet.
BEFORE = (1, 6)
SMALL_LOOP = 24 * MEBIBYTE


def fill(folder: Path) -> Path:
    """A file that takes all the room that is left, also what a file system gives back when a file is closed."""
    filler = folder / "filler"
    size = -1
    while not filler.exists() or filler.stat().st_size > size:
        size = filler.stat().st_size if filler.exists() else -1
        grow(filler)
        call("sync", "--file-system", folder)
    return filler


def grow(filler: Path) -> None:
    """Appends pieces, large ones first, until there is no room for any."""
    with filler.open("ab", buffering=0) as file:
        for size in PIECES:
            try:
                while file.write(bytes(size)) == size:
                    pass
            except OSError:
                pass


def sparse(image: Path) -> None:
    """Gives an image its holes back: what is zeros takes no room, so that writing there wants some."""
    call("fallocate", "--dig-holes", image)


def is_no_room(running: Running) -> bool:
    """Whether a run ended since a write found no room."""
    return running.status == DEVICE_FAULT and b"No space left on device" in running.error


def fills_up(name: str, place: Place, folder: Path) -> Iterator[Result]:
    """A file system that is filled in mid-run, and emptied."""
    site = Site(place.program, folder / "disk.img", place.numbers(f"full {name}"))
    sparse(site.image)
    running = site.begin()
    running.ask(site.numbers.randrange(*BEFORE))
    filler = fill(folder)
    running.ask()
    if not running.is_asked:
        site.finish(running)
        yield skipped(f"{name}, full: no write found too little room", "all that was written had room before")
    else:
        running.end()
        if not is_no_room(running):
            yield failed(f"{name}, full: the run ended otherwise", running.told())
            return
        site.look(running)
        yield passed(f"{name}, full: a device fault after {running.answered} answers, each of which is there")
    filler.unlink()
    site.go_on()
    yield passed(f"{name}, full: with room again the disk goes on")
    yield compared(f"{name}: a second opening is refused", None, site.refuse_second())


def one_system(name: str, place: Place) -> Iterator[Result]:
    """A file system on a loop device."""
    lack = lack_of(name)
    if lack:
        yield skipped(f"{name}, full", lack)
        return
    file = sized(place.folder / f"{name}.raw", SIZES[name])
    with loop(file) as device:
        make(name, device)
        with mounted(name, device, place.folder / name) as folder:
            yield from fills_up(name, place, folder)
            yield measured(f"{name} on a loop device", place.program, folder / "speed.img", folder / "probe")
    file.unlink()


def under_a_loop(place: Place) -> Iterator[Result]:
    """A loop device over a file of holes, on a file system that is filled in mid-run: the loop device's writes fail."""
    lack = lack_of("ext4")
    if lack:
        yield skipped("a loop device over a file that finds no room", lack)
        return
    with loop(sized(place.folder / "outer.raw", SIZES["ext4"])) as outer:
        make("ext4", outer)
        with mounted("ext4", outer, place.folder / "outer") as folder:
            file = sized(folder / "disk.raw", SMALL_LOOP)
            with loop(file) as device:
                yield from no_room_below(place, device, file, folder)


def no_room_below(place: Place, device: Path, file: Path, folder: Path) -> Iterator[Result]:
    """The run over that device. What it shows after the fault is what the file has, since its cache is flushed."""
    site = Site(place.program, device, place.numbers("no room below"))
    call("sync")
    sparse(file)
    running = site.begin()
    running.ask(1)
    filler = fill(folder)
    running.ask()
    running.end()
    name = "a loop device over a file that finds no room"
    if running.status != DEVICE_FAULT:
        yield failed(f"{name}: the run ended otherwise", running.told())
        return
    call("blockdev", "--flushbufs", device)
    site.look(running)
    yield passed(f"{name}: a device fault after {running.answered} answers, each of which is there")
    filler.unlink()
    site.go_on()
    yield passed(f"{name}: with room again the disk goes on")


def run(place: Place) -> Iterator[Result]:
    """Each file system, and a loop device."""
    for name in SIZES:
        yield from one_system(name, place)
    yield from under_a_loop(place)

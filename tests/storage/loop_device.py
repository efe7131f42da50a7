"""A loop device over a file: that is too short for the disk, and that is cut short in mid-run."""

from __future__ import annotations

import os
from pathlib import Path
from typing import Iterator, List

from disk_model import SECTOR, Request
from file_systems import MEBIBYTE
from image_reader import Layout
from machine import Place, call, loop, missing, sized
from parts import Result, compared, failed, passed, skipped
from sites import BLOCKS, DEVICE_FAULT, SECTORS, Site
from speeds import measured

PAGE = 4096
LAYOUT = Layout(SECTORS, BLOCKS, 1, 4 * BLOCKS)
# What is cut off in mid-run: the last blocks.
CUT = 4 * PAGE
# A length within the tables.
TABLES_CUT = LAYOUT.slot_area * SECTOR // PAGE * PAGE
OTHER = b"\xa5"
# So many requests fill the ring at least once, so that what came before is home.
CHECKPOINT = 16


def make_site(place: Place, device: Path, name: str) -> Site:
    """A disk on a device, with a run behind it."""
    site = Site(place.program, device, place.numbers(name))
    site.run_through()
    return site


def size_of_disk() -> int:
    """How many bytes a disk takes, up to the end of a page."""
    return -(-LAYOUT.all_sectors * SECTOR // PAGE) * PAGE


def too_short(place: Place, size: int) -> Iterator[Result]:
    """A device that ends within the tables of the disk that its file holds: no command opens it or changes it."""
    file = sized(place.folder / "short.raw", size)
    with loop(file) as device:
        site = make_site(place, device, "short")
    whole = file.read_bytes()
    os.truncate(file, TABLES_CUT)
    with loop(file) as device:
        site.image = device
        for words in (["check"], ["run", "low"]):
            ended = site.alone(*words)
            yield compared(f"a device that is cut short: `{words[0]}`", (DEVICE_FAULT, b"tsd: device fault"),
                           (ended.returncode, ended.stderr.splitlines()[0]))
    yield compared("a device that is cut short isn't changed", True, file.read_bytes() == whole[:TABLES_CUT])
    file.write_bytes(whole)
    with loop(file) as device:
        site.image = device
        site.go_on()
        yield passed("a device that is whole again goes on")


def cut_in_mid_run(place: Place, size: int) -> Iterator[Result]:
    """The file's end goes in mid-run, with the last blocks: what is there is answered, reading one that isn't is a
    device fault, and when the end is back each answered request is there."""
    file = sized(place.folder / "cut.raw", size)
    name = "a file that is cut short in mid-run"
    with loop(file) as device:
        site = Site(place.program, device, place.numbers("cut"))
        requests = [*filling(site), Request("read", 1, BLOCKS - 1)]
        running = site.begin_with(requests)
        running.ask(len(requests) - 1)
        call("blockdev", "--flushbufs", device)
        tail = file.read_bytes()[-CUT:]
        os.truncate(file, size - CUT)
        call("blockdev", "--flushbufs", device)
        answered = running.ask()
        running.end()
        if answered or running.status != DEVICE_FAULT:
            yield failed(f"{name}: the run ended otherwise", running.told())
            return
        yield passed(f"{name}: a device fault after {running.answered} answers")
        with file.open("r+b") as end:
            end.seek(size - CUT)
            end.write(tail)
        call("blockdev", "--flushbufs", device)
        site.look(running)
        site.go_on()
        yield passed(f"{name}: with its end back each answered request is there, and the disk goes on")


def filling(site: Site) -> List[Request]:
    """Requests that take all blocks, write the last one, and then write others until its bytes are home."""
    write = site.standing.caps[0][1]
    takes = [Request("alloc", 1, 0, write, count=count) for count in (32, BLOCKS - 33)]
    last = Request("write", 1, BLOCKS - 1, data=OTHER * SECTOR)
    return [Request("open", 1), *takes, last] + [Request("write", 1, 0, write, data=OTHER)] * CHECKPOINT


def run(place: Place) -> Iterator[Result]:
    """Each of these, a second opening, and the speed."""
    lack = missing(["losetup", "blockdev"], ["/dev/loop-control"])
    if lack:
        yield skipped("loop devices", lack)
        return
    size = size_of_disk()
    yield from too_short(place, size)
    yield from cut_in_mid_run(place, size)
    with loop(sized(place.folder / "speed.raw", MEBIBYTE)) as device:
        site = make_site(place, device, "lock")
        yield compared("a loop device: a second opening is refused", None, site.refuse_second())
        yield measured("a loop device over a file", place.program, device, device)

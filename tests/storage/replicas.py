"""A GlusterFS volume of three replicas: bricks that are killed and healed in mid-run, one, and then two."""

from __future__ import annotations

from pathlib import Path
from typing import Iterator, Sequence

from gluster import BRICKS, PAUSE, Volume, lack
from image_reader import read_image
from machine import Place, beside
from parts import Result, compared, failed, passed, skipped
from sites import DEVICE_FAULT, REQUESTS, Running, Site
from speeds import measured

LONG = 4 * REQUESTS
AFTER = 60
# After how many more answers something happens.
SOON = (0, REQUESTS // 3)
PAIRS = ((1, 2), (2, 3), (3, 1))
IMAGE = "disk.img"


def one_gone(volume: Volume, site: Site, number: int) -> int:
    """A brick that is killed in mid-run, comes back and is healed, all beside the run; how many answers it gave when
    healing was done."""
    running = site.begin(LONG)
    with beside(running.ask):
        running.wait_for(site.numbers.randrange(*SOON))
        volume.kill(number)
        running.wait_for(running.answered + site.numbers.randrange(*SOON))
        volume.start_again()
        volume.healed()
        answered = running.answered
    site.finish(running)
    volume.healed()
    return answered


def two_gone(volume: Volume, site: Site, pair: Sequence[int]) -> Running:
    """Two bricks that are killed in mid-run, one after the other; they are back when this returns."""
    running = site.begin(LONG)
    with beside(running.ask):
        for number in pair:
            running.wait_for(running.answered + site.numbers.randrange(*SOON))
            volume.kill(number)
    is_waiting = running.is_asked and not running.has_ended() and not running.ask()
    volume.start_again()
    volume.healed()
    if is_waiting:
        running.ask()
    running.end()
    return running


def with_one_gone(volume: Volume, site: Site) -> Iterator[Result]:
    """Each brick in its turn; afterwards each has the whole disk."""
    counts = [str(one_gone(volume, site, number)) for number in BRICKS]
    yield passed(f"one brick of three killed, healed by answer {', '.join(counts)}: all {LONG} requests are answered")
    worlds = [read_image(copy) == site.standing.outcome for copy in volume.copies(IMAGE)]
    yield compared("each brick has the disk as it stands", [True] * len(BRICKS), worlds)


def with_two_gone(volume: Volume, site: Site, other: Path) -> Iterator[Result]:
    """Each pair; the look is another client's, whose cache has nothing of the run."""
    counts = []
    for pair in PAIRS:
        running = two_gone(volume, site, pair)
        if running.status not in (0, DEVICE_FAULT):
            yield failed(f"bricks {pair} killed: the run ended otherwise", running.told())
            return
        site.look(running, other.read_bytes())
        site.go_on(AFTER)
        counts.append(f"{running.answered} ({'waited' if running.status == 0 else 'device fault'})")
    yield passed(f"two bricks of three killed: answers {', '.join(counts)}; each is there, and the disk goes on")


def run(place: Place) -> Iterator[Result]:
    """All over one volume."""
    why = lack()
    if why:
        yield skipped("a GlusterFS volume of three replicas", why)
        return
    volume = Volume(place)
    folder, other = volume.mounted("mount"), volume.mounted("other")
    site = Site(place.program, folder / IMAGE, place.numbers("replicas"), pause=PAUSE)
    yield compared("GlusterFS: a second opening is refused", None, site.refuse_second())
    yield compared("GlusterFS: a second opening by another client is refused", None, site.refuse_second(other / IMAGE))
    yield from with_one_gone(volume, site)
    yield from with_two_gone(volume, site, other / IMAGE)
    yield passed(f"GlusterFS: an opening had to wait {site.waited:.1f} s at most for the lock of a run that had ended")
    yield measured("GlusterFS, three replicas", place.program, folder / "speed.img", folder / "probe")

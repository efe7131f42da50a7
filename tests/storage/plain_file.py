"""A file on the file system that the folder is on: the measure of all others, and its lock."""

from __future__ import annotations

from typing import Iterator

from machine import Place, missing
from parts import Result, compared, passed, skipped
from sites import Site
from speeds import measured


def run(place: Place) -> Iterator[Result]:
    """A run, a second opening, and the speed."""
    site = Site(place.program, place.folder / "disk.img", place.numbers("plain file"))
    site.run_through()
    site.go_on()
    yield passed("a file: two runs are answered to their end")
    yield compared("a file: a second opening is refused", None, site.refuse_second())
    lack = missing(["fio"])
    if lack:
        yield skipped("a file: measured", lack)
        return
    yield measured("a file on this machine's disk", place.program, place.folder / "speed.img", place.folder / "probe")

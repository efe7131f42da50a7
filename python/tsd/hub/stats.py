"""What a hub counts, and its two texts."""

from __future__ import annotations

from enum import Enum
from typing import Iterator, List, Tuple

KINDS = (
    "none", "open", "close", "read", "write", "alloc", "contig", "free", "create", "delete", "caps", "sweep", "list",
)
RULE_NAMES = (
    "bad-request", "bad-session", "not-open", "already-open", "bad-count", "bad-size", "no-such-block", "free-block",
    "not-primary", "is-primary", "denied", "pointer-exists", "no-pointer", "full", "run", "pointers-full",
)


class Stay:
    """How many of something there are, and how long all that there ever were have stayed."""

    def __init__(self) -> None:
        self.count = 0
        self._micros = 0

    def come(self, count: int, now: float) -> None:
        """So many come."""
        self.count += count
        self._micros -= count * int(1e6 * now)

    def go(self, count: int, now: float) -> None:
        """So many go."""
        self.count -= count
        self._micros += count * int(1e6 * now)

    def seconds(self, now: float) -> float:
        """The seconds that all of them have stayed, together."""
        return (self._micros + self.count * int(1e6 * now)) / 1e6


class Turned(Enum):
    """Why a connection wasn't served: all sessions were taken; its user had as many as a user may have; its user joined
    too often."""

    FULL = "full"
    USER = "user"
    RATE = "rate"


class Stats:
    """The counts. Changes are those that were carried out, rounds those of changes that were sent to the disk."""

    def __init__(self, now: float) -> None:
        self.queue = Stay()
        self.at_disk = Stay()
        self.requests = [0] * len(KINDS)
        self.refusals = [0] * len(RULE_NAMES)
        self.changes = 0
        self.rounds = 0
        self.sessions = 0
        self.sessions_total = 0
        self.turned_away = {why: 0 for why in Turned}
        self.hung_up = 0
        self.idle = 0
        self._begun = now

    def _syncs(self, shares: bool) -> int:
        """How many syncs of the image the changes took at least: two for each that was carried out, or, where those
        that come together share them, for each round in which one may have been."""
        return 2 * (min(self.rounds, self.changes) if shares else self.changes)

    def _labelled(self) -> Iterator[Tuple[str, str, str, int]]:
        for value, count in zip(KINDS, self.requests):
            yield "requests_total", "kind", value, count
        for value, count in zip(RULE_NAMES, self.refusals):
            yield "refusals_total", "rule", value, count
        for why, count in self.turned_away.items():
            yield "turned_away_total", "why", why.value, count

    def _single(self, shares: bool, left_out: int, now: float) -> List[Tuple[str, str]]:
        return [
            ("changes_total", str(self.changes)),
            ("change_rounds_total", str(self.rounds)),
            ("syncs_at_least_total", str(self._syncs(shares))),
            ("sessions", str(self.sessions)),
            ("sessions_total", str(self.sessions_total)),
            ("hung_up_total", str(self.hung_up)),
            ("idle_closed_total", str(self.idle)),
            ("queue_requests", str(max(0, self.queue.count))),
            ("queue_seconds_total", f"{self.queue.seconds(now):.6f}"),
            ("disk_requests", str(max(0, self.at_disk.count))),
            ("disk_seconds_total", f"{self.at_disk.seconds(now):.6f}"),
            ("log_lines_left_out_total", str(left_out)),
            ("up_seconds_total", f"{now - self._begun:.6f}"),
        ]

    def plain(self, shares: bool, left_out: int, now: float) -> str:
        """A line for each number: its name, a label where it has one, and its value."""
        lines = [f"{name} {value} {count}\n" for name, _, value, count in self._labelled()]
        return "".join(lines + [f"{name} {value}\n" for name, value in self._single(shares, left_out, now)])

    def prometheus(self, shares: bool, left_out: int, now: float) -> str:
        """The same in Prometheus's form."""
        lines, last = [], ""
        rows = [(name, f'{{{label}="{value}"}}', str(count)) for name, label, value, count in self._labelled()]
        for name, label, value in rows + [(name, "", value) for name, value in self._single(shares, left_out, now)]:
            if name != last:
                lines.append(f"# TYPE tsd_hub_{name} {'counter' if name.endswith('_total') else 'gauge'}\n")
            lines.append(f"tsd_hub_{name}{label} {value}\n")
            last = name
        return "".join(lines)

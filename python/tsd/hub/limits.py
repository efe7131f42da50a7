"""How much of something is allowed: some at once, and then so many a second; and what each user may have."""

from __future__ import annotations

import pwd
from typing import Dict, Tuple

# So many connections of a user may come at once, and then so many a second; and so many may wait for that.
JOINS = (64.0, 100.0)
MOST_WAITING = 64
# So many of all users may: a process may have 1,024 files open, where nothing else is set.
MOST_OF_ALL = 512


class Allowance:
    """An allowance that grows again."""

    def __init__(self, most_and_a_second: Tuple[float, float], now: float) -> None:
        self._most, self._a_second = most_and_a_second
        self._left = self._most
        self._since = now

    def take(self, now: float) -> bool:
        """Takes one, if there is one."""
        self._left = min(self._most, self._left + max(0.0, now - self._since) * self._a_second)
        self._since = now
        is_there = self._left >= 1.0
        self._left -= is_there
        return is_there


class User:
    """What a user has: a name, as the log tells it; sessions; connections that wait to be served; and what may join."""

    def __init__(self, number: int, now: float) -> None:
        self.name = name_of(number)
        self.sessions = 0
        self.waiting = 0
        self.joins = Allowance(JOINS, now)


class Users:
    """The users that were seen."""

    def __init__(self) -> None:
        self._by_number: Dict[int, User] = {}

    def of(self, number: int, now: float) -> User:
        """A user."""
        user = self._by_number.get(number)
        if user is None:
            user = self._by_number[number] = User(number, now)
        return user


def name_of(number: int) -> str:
    """The name of a user."""
    try:
        return pwd.getpwuid(number).pw_name
    except KeyError:
        return "unknown"

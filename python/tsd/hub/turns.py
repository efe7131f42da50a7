"""Whose requests go to the disk next: one of each client that has one.

Reads go ahead, since they take microseconds and a change waits for syncs. While a change waits, one read of each client
goes, then the changes of one round, and then the next reads: so a read waits for one round of changes at most, and a
change for one read of each client. While no change waits, reads go as long as the disk has less than keeps it busy.

Where changes share their syncs, a round waits a little for the clients that the round before has answered: those that
change one thing after another come together then, in place of by turns in two rounds of half as many.
"""

from __future__ import annotations

import os
import time
from collections import deque
from typing import TYPE_CHECKING, Deque, Optional, Set

from tsd.errors import NoReply, Refused
from tsd.frames import frame
from tsd.hub.bodies import FOR_HUB, STATS_BODY, Asked, Kind, of_session
from tsd.hub.client import Client
from tsd.hub.places import READING, WRITING, Closing
from tsd.hub_words import greeting_body
from tsd.replies import Kind as Answer
from tsd.replies import Reply, decode_reply

if TYPE_CHECKING:
    from tsd.hub.serving import Hub

# So many requests keep the disk busy.
MOST_AT_DISK = 512
# A round of changes may take so many seconds where each waits for its own syncs. One goes in any case.
SECONDS_OF_ROUND = 0.001
# A round of changes that share their syncs has so many, or one of each client.
SHARING = 64
# By this part the last round counts in how long a change takes.
WEIGHT = 0.25
# A round that shares its syncs waits for clients this part of the time that the round before took, and at most so long.
PART_TO_WAIT = 0.25
MOST_SECONDS_TO_WAIT = 0.01
REFUSED = b"\x08\x00"


class Turns:
    """The row of the clients that have a request, and how the rounds of changes go."""

    def __init__(self, shares: bool) -> None:
        """Whether changes that come together share their syncs."""
        self.shares = shares
        self.row: Deque[int] = deque()
        self.changes_at_disk = 0
        self.reads_went = False
        self._awaited: Set[int] = set()
        self._waits_until = 0.0
        self._begun = 0.0
        self._count = 0
        self._seconds_of_change = SECONDS_OF_ROUND

    def note(self, slot: int, client: Client) -> None:
        """A client that has a request stands in the row, once."""
        if client.lying:
            self._awaited.discard(slot)
            if not client.is_in_row:
                client.is_in_row = True
                self.row.append(slot)

    def forget(self, slot: int) -> None:
        """A client is gone."""
        self._awaited.discard(slot)
        if slot in self.row:
            self.row.remove(slot)

    def await_change(self, slot: int, client: Client) -> None:
        """A client whose change was answered, and that has no other request: it may come with one soon."""
        if self.shares and not client.lying:
            self._awaited.add(slot)

    def waits(self, now: float) -> float:
        """How many seconds the next round waits for clients."""
        if not self._awaited or self.changes_at_disk:
            return 0.0
        return max(0.0, self._waits_until - now)

    def most_changes(self) -> int:
        """How many changes a round has."""
        if self.shares:
            return SHARING
        return max(1, min(SHARING, int(SECONDS_OF_ROUND / self._seconds_of_change)))

    def begin_round(self, count: int, now: float) -> None:
        """So many changes have gone to the disk."""
        self.changes_at_disk = self._count = count
        self.reads_went = False
        self._awaited.clear()
        self._begun = now

    def end_change(self, now: float) -> None:
        """One of them is answered."""
        self.changes_at_disk -= 1
        if self.changes_at_disk == 0:
            seconds = now - self._begun
            self._waits_until = now + min(PART_TO_WAIT * seconds, MOST_SECONDS_TO_WAIT)
            self._seconds_of_change += WEIGHT * (max(1e-6, seconds / self._count) - self._seconds_of_change)


def take_turn(hub: Hub) -> None:
    """Requests to the disk by one write, replies to each client by one; once more where replies made room for
    requests."""
    while True:
        fill(hub)
        hub.send_to_disk()
        if not hub.touched:
            return
        deliver(hub)


def fill(hub: Hub) -> None:
    """Puts the requests of a turn."""
    while hub.turns.changes_at_disk == 0 and hub.turns.row:
        if has_waiting_change(hub):
            fill_with_changes(hub)
            return
        if len(hub.order) >= MOST_AT_DISK or take_round(hub, False) == 0:
            return


def seconds_to_round(hub: Hub) -> Optional[float]:
    """How many whole milliseconds a round of changes waits, in seconds; None where none does. Where it is less than
    one, which the system can't wait, whoever has something to do may run meanwhile."""
    seconds = hub.turns.waits(hub.now)
    if seconds == 0 or not has_waiting_change(hub):
        return None
    if seconds < 0.001:
        os.sched_yield()
    return int(1000 * seconds) / 1000


def has_waiting_change(hub: Hub) -> bool:
    """Whether a client's next request is a change."""
    return any(is_change(hub.slots[slot].next()) for slot in hub.turns.row)  # type: ignore[union-attr]


def is_change(asked: Optional[Asked]) -> bool:
    """Whether a request changes the disk."""
    return asked is not None and asked.kind == Kind.CHANGE


def fill_with_changes(hub: Hub) -> None:
    """One read of each client; and once the disk has answered all, a round of changes."""
    if not hub.turns.reads_went:
        take_round(hub, False)
        hub.turns.reads_went = True
    if hub.order or hub.turns.waits(hub.now):
        return
    most = hub.turns.most_changes()
    count = taken = take_round(hub, True, None if hub.turns.shares else most)
    while hub.turns.shares and taken and count < most:
        taken = take_round(hub, True)
        count += taken
    hub.stats.rounds += 1
    hub.turns.begin_round(count, time.monotonic())


def take_round(hub: Hub, takes_changes: bool, most: Optional[int] = None) -> int:
    """Takes at most one request of each client in the row, changes or others, and at most so many; how many."""
    count = 0
    for _ in range(len(hub.turns.row)):
        if count == most:
            break
        slot = hub.turns.row.popleft()
        client = hub.slots[slot]
        assert isinstance(client, Client)
        count += take_one(hub, slot, client, takes_changes)
        client.is_in_row = False
        hub.turns.note(slot, client)
    return count


def take_one(hub: Hub, slot: int, client: Client, takes_changes: bool) -> bool:
    """Takes a client's next request, where it is one of this kind; whether it was."""
    asked = client.next()
    if asked is None or is_change(asked) != takes_changes or (asked.kind in FOR_HUB and client.at_disk):
        return False
    hub.stats.requests[asked.code] += 1
    hub.stats.queue.go(1, hub.now)
    body = client.front()
    client.take_front()
    if asked.kind in FOR_HUB:
        answer(hub, slot, client, asked)
        return True
    hub.disk.requests.put(frame(of_session(body, slot)))
    client.at_disk += 1
    hub.expect(slot, client.generation, asked)
    return True


def answer(hub: Hub, slot: int, client: Client, asked: Asked) -> None:
    """Answers what is asked of the hub itself."""
    body = REFUSED
    if asked.kind == Kind.HELLO and hub.geometry is not None:
        body = greeting_body(hub.geometry)
    elif asked.kind == Kind.STATS and client.user in (0, os.geteuid()):
        body = STATS_BODY + hub.stats.plain(hub.turns.shares, hub.log.left_out_total, hub.now).encode()
    client.give(body)
    hub.touched.append(slot)


def take_replies(hub: Hub, may_end: bool) -> bool:
    """Gives out the replies that have come; whether more may come."""
    goes_on = hub.disk.read(may_end)
    replies, at = hub.disk.replies, 0
    end = replies.frame_end(at)
    while end is not None and not hub.complaint:
        try:
            take_reply(hub, replies.body(at, end))
        except NoReply as error:
            hub.complaint = str(error)
            hub.disk.kill()
        at = end
        end = replies.frame_end(at)
    replies.consume(at)
    return goes_on and not hub.complaint


def take_reply(hub: Hub, body: bytes) -> None:
    """Gives out a reply; NoReply where it is none, or was not asked for."""
    reply = decode_reply(body)
    if not hub.order:
        raise NoReply("a reply came to no request")
    sent = hub.order.popleft()
    hub.stats.at_disk.go(1, hub.now)
    count_reply(hub, sent.asked, reply)
    if sent.generation:
        give(hub, sent.slot, sent.generation, sent.asked, body)
    elif sent.slot:
        free_number(hub, sent.slot)
    else:
        hub.open(reply.value if isinstance(reply.value, int) else 0)


def count_reply(hub: Hub, asked: Asked, reply: Reply) -> None:
    """Counts a reply."""
    if is_change(asked):
        hub.turns.end_change(hub.now)
        hub.stats.changes += reply.kind not in (Answer.REFUSED, Answer.NO_MEMORY)
    if isinstance(reply.value, Refused):
        hub.stats.refusals[reply.value.RULE] += 1


def give(hub: Hub, slot: int, generation: int, asked: Asked, body: bytes) -> None:
    """Gives a client its reply, where it is still there."""
    client = hub.slots.get(slot)
    if isinstance(client, Client) and client.generation == generation:
        client.at_disk -= 1
        client.give(body)
        hub.touched.append(slot)
        if is_change(asked):
            hub.turns.await_change(slot, client)


def free_number(hub: Hub, slot: int) -> None:
    """The disk has closed a session: its number is free."""
    gone = hub.slots.pop(slot)
    assert isinstance(gone, Closing)
    hub.users.of(gone.user, hub.now).sessions -= 1
    hub.stats.sessions -= 1


def deliver(hub: Hub) -> None:
    """Sends the replies, and reads on where that made room for requests."""
    touched, hub.touched = sorted(set(hub.touched)), []
    for slot in touched:
        send_to_client(hub, slot)
        if slot in hub.slots:
            hub.read_client(slot)


def send_to_client(hub: Hub, slot: int) -> None:
    """Sends a client what it takes at once, and waits for room where that isn't all."""
    client = hub.slots.get(slot)
    if not isinstance(client, Client):
        return
    before = client.lying
    is_all = client.send(hub.now)
    hub.stats.queue.go(before - client.lying, hub.now)
    if is_all == client.waits_for_room:
        client.waits_for_room = not is_all
        hub.poll.modify(client.connection.fileno(), READING if is_all else READING | WRITING)

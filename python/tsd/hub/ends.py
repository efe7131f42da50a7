"""How a hub ends: each client is told why, and the disk ends in order."""

from __future__ import annotations

import time
from typing import TYPE_CHECKING

from tsd.hub.client import Client
from tsd.hub.disk_side import Ending
from tsd.hub.joining import tell_joiners
from tsd.hub.places import ENDED, WRITABLE
from tsd.hub.turns import send_to_client
from tsd.hub_words import DISK_ENDED, STOPPED, told_body

if TYPE_CHECKING:
    from tsd.hub.serving import Hub

# What a client doesn't take within this time is lost.
SECONDS_TO_TAKE = 1.0
# A disk that has closed its output has so long to end.
SECONDS_TO_DIE = 5.0
TICK = 0.01
FAILED = 1


def stop(hub: Hub, number: int) -> int:
    """A signal came: the disk ends in order, or is killed where that takes too long. The status of the hub."""
    hub.log.always(f"stopped by signal {number}")
    until = hub.now + hub.given.stop_limit
    until_told = hub.now + SECONDS_TO_TAKE
    tell_all(hub, told_body(STOPPED))
    goes_on = True
    while goes_on and time.monotonic() < until:
        if not len(hub.disk.requests):
            hub.disk.end_requests()
        goes_on = wait_a_little(hub, until)
    while has_untold(hub) and time.monotonic() < until_told:
        wait_a_little(hub, until_told)
    ending = hub.disk.ending(until - time.monotonic())
    if ending.status != 0:
        tell_of(hub, ending)
    return over(hub, ending)


def after_the_disk(hub: Hub) -> int:
    """The disk ended by itself: each client is told how. The status of the hub, which isn't 0."""
    ending = hub.disk.ending(SECONDS_TO_DIE)
    ending = Ending(ending.status, hub.complaint or ending.words)
    tell_of(hub, ending)
    until = time.monotonic() + SECONDS_TO_TAKE
    tell_all(hub, told_body(DISK_ENDED, ending.status, ending.words))
    while has_untold(hub) and time.monotonic() < until:
        wait_a_little(hub, until)
    return max(over(hub, ending), FAILED)


def tell_of(hub: Hub, ending: Ending) -> None:
    """Logs how the disk ended."""
    hub.log.always(f"the disk ended with status {ending.status}: {ending.words}")


def over(hub: Hub, ending: Ending) -> int:
    """The status of the hub: the disk's, and 1 where it was killed."""
    if hub.given.metrics:
        hub.log.keep_file(hub.given.metrics, hub.metrics())
    hub.log.end()
    return FAILED if ending.status < 0 else ending.status


def tell_all(hub: Hub, body: bytes) -> None:
    """Tells each client a last frame, and takes no more."""
    if hub.is_open:
        hub.poll.unregister(hub.listener.fileno())
    tell_joiners(hub, body)
    for slot, client in hub.slots.items():
        if isinstance(client, Client):
            client.drop_requests()
            client.give(body)
            hub.touched.append(slot)
    send_all(hub)


def has_untold(hub: Hub) -> bool:
    """Whether there is a client that hasn't taken all."""
    return any(isinstance(client, Client) and client.waits_for_room for client in hub.slots.values())


def send_all(hub: Hub) -> None:
    """Sends what is taken at once; those that have all are closed."""
    touched, hub.touched = hub.touched, []
    for slot in touched:
        send_to_client(hub, slot)
        client = hub.slots.get(slot)
        if isinstance(client, Client) and not client.waits_for_room:
            del hub.slots[slot], hub.by_descriptor[client.connection.fileno()]
            client.connection.close()


def wait_a_little(hub: Hub, until: float) -> bool:
    """Takes what happens next, but no requests; whether the disk's output goes on."""
    goes_on = True
    for descriptor, bits in hub.poll.poll(max(0.0, min(TICK, until - time.monotonic()))):
        if descriptor == hub.disk.output:
            goes_on = hub.disk.read(bool(bits & ENDED))
        elif bits & WRITABLE and descriptor in hub.by_descriptor:
            hub.touched.append(hub.by_descriptor[descriptor])
    hub.disk.replies.clear()
    hub.send_to_disk()
    send_all(hub)
    return goes_on

"""Connections that come: who is served, who waits, and who is turned away.

A user may have so many sessions, and may join so often: whoever comes sooner waits. One that has hung up meanwhile is
dropped, and costs its user nothing; so a process that connects and closes in a loop delays neither other users nor, for
long, its own.
"""

from __future__ import annotations

import os
import socket
import struct
import time
from pathlib import Path
from typing import TYPE_CHECKING, NamedTuple, Optional

from tsd.frames import frame
from tsd.hub.bodies import Kind
from tsd.hub.client import Client
from tsd.hub.limits import MOST_OF_ALL, MOST_WAITING
from tsd.hub.places import GUESTS, READING, SESSIONS
from tsd.hub.stats import Turned
from tsd.hub.turns import answer
from tsd.hub_words import FULL, IDLE, told_body

if TYPE_CHECKING:
    from tsd.hub.serving import Hub

CREDENTIALS = struct.Struct("3i")
# So many connections are taken in a turn.
MOST_IN_TURN = 16
# So long a connection without a session may ask for the hub's numbers.
SECONDS_OF_GUEST = 0.1
NAP = 0.01


class Joiner(NamedTuple):
    """A connection that isn't served yet."""

    connection: socket.socket
    process: int
    user: int


def accept(hub: Hub) -> None:
    """Takes connections."""
    for _ in range(MOST_IN_TURN):
        try:
            connection, _ = hub.listener.accept()
        except BlockingIOError:
            return
        except OSError as error:
            hub.log.line(hub.now, f"a connection couldn't be taken: {error}")
            time.sleep(NAP)
            return
        if has_hung_up(connection):
            connection.close()
            hub.stats.hung_up += 1
            continue
        connection.setblocking(False)
        told = connection.getsockopt(socket.SOL_SOCKET, socket.SO_PEERCRED, CREDENTIALS.size)
        process, user, _ = CREDENTIALS.unpack(told)
        let_wait(hub, Joiner(connection, process, user & 0xFFFFFFFF))


def has_hung_up(connection: socket.socket) -> bool:
    """Whether the other end has ended its side, with no byte before."""
    try:
        return connection.recv(1, socket.MSG_PEEK | socket.MSG_DONTWAIT) == b""
    except BlockingIOError:
        return False
    except OSError:
        return True


def let_wait(hub: Hub, joiner: Joiner) -> None:
    """It waits until it is served, where not too many of its user do."""
    user = hub.users.of(joiner.user, hub.now)
    if user.waiting >= MOST_WAITING:
        drop_hung_up(hub, joiner.user)
    if user.waiting >= MOST_WAITING or len(hub.joiners) >= MOST_OF_ALL:
        turn_away(hub, joiner, Turned.RATE)
        return
    user.waiting += 1
    hub.joiners.append(joiner)


def drop_hung_up(hub: Hub, number: int) -> None:
    """Drops those of a user that have hung up."""
    user = hub.users.of(number, hub.now)
    for joiner in [joiner for joiner in hub.joiners if joiner.user == number and has_hung_up(joiner.connection)]:
        hub.joiners.remove(joiner)
        joiner.connection.close()
        user.waiting -= 1
        hub.stats.hung_up += 1


def let_join(hub: Hub) -> None:
    """Lets those join who may."""
    for _ in range(len(hub.joiners)):
        joiner = hub.joiners.popleft()
        user = hub.users.of(joiner.user, hub.now)
        if has_hung_up(joiner.connection):
            joiner.connection.close()
            user.waiting -= 1
            hub.stats.hung_up += 1
        elif user.joins.take(hub.now):
            user.waiting -= 1
            join(hub, joiner)
        else:
            hub.joiners.append(joiner)


def join(hub: Hub, joiner: Joiner) -> None:
    """It is served, or told why it isn't."""
    sessions = hub.users.of(joiner.user, hub.now).sessions
    slot = next((number for number in SESSIONS if number not in hub.slots), None)
    if slot is None:
        welcome_guest(hub, joiner, Turned.FULL)
    elif sessions >= hub.given.per_user:
        welcome_guest(hub, joiner, Turned.USER)
    else:
        begin(hub, joiner, slot)


def begin(hub: Hub, joiner: Joiner, slot: int) -> None:
    """It has a session's number from now on."""
    peer = peer_text(hub, joiner)
    hub.log.line(hub.now, f"session {slot}: connected: {peer}")
    hub.users.of(joiner.user, hub.now).sessions += 1
    hub.stats.sessions += 1
    hub.stats.sessions_total += 1
    take_place(hub, joiner, slot, peer)


def take_place(hub: Hub, joiner: Joiner, slot: int, peer: str) -> None:
    """It is a client, or a guest."""
    hub.generation += 1
    hub.slots[slot] = Client(joiner.connection, joiner.user, peer, hub.generation, hub.now)
    hub.by_descriptor[joiner.connection.fileno()] = slot
    hub.poll.register(joiner.connection.fileno(), READING)
    hub.read_client(slot)


def peer_text(hub: Hub, joiner: Joiner) -> str:
    """A peer's user and process, as the system knows them: `user alice (1000), process 42 ('backup')`."""
    try:
        command = f" ({Path(f'/proc/{joiner.process}/comm').read_text().strip()!r})"
    except (OSError, ValueError):
        command = ""
    return f"user {hub.users.of(joiner.user, hub.now).name} ({joiner.user}), process {joiner.process}{command}"


def reason_of(hub: Hub, why: Turned, number: int) -> str:
    """Why a connection isn't served, in words."""
    name = hub.users.of(number, hub.now).name
    if why == Turned.USER:
        return f"user {name} ({number}) has {hub.given.per_user} sessions"
    return "all sessions are taken" if why == Turned.FULL else f"user {name} ({number}) joins too often"


def refusal(why: Turned, reason: str) -> bytes:
    """What it is told."""
    return told_body(FULL, 0, "" if why == Turned.FULL else reason)


def welcome_guest(hub: Hub, joiner: Joiner, why: Turned) -> None:
    """A connection for which no session is left may still ask for the hub's numbers."""
    hub.stats.turned_away[why] += 1
    reason = reason_of(hub, why, joiner.user)
    hub.log.line(hub.now, f"refused, as {reason}: {peer_text(hub, joiner)}")
    slot = next((number for number in GUESTS if number not in hub.slots), None)
    if slot is None:
        tell(joiner.connection, refusal(why, reason))
    else:
        take_place(hub, joiner, slot, reason)


def turn_away(hub: Hub, joiner: Joiner, why: Turned) -> None:
    """A connection isn't even let wait."""
    hub.stats.turned_away[why] += 1
    reason = reason_of(hub, why, joiner.user)
    hub.log.line(hub.now, f"refused, as {reason}: process {joiner.process}")
    tell(joiner.connection, refusal(why, reason))


def meet_guest(hub: Hub, slot: int, guest: Client) -> None:
    """A guest may ask for the hub's numbers; whatever else it sends, it is told that no session is left."""
    asked = guest.next()
    while asked is not None and asked.kind == Kind.STATS:
        guest.take_front()
        hub.stats.queue.go(1, hub.now)
        answer(hub, slot, guest, asked)
        asked = guest.next()
    if asked is not None:
        dismiss_guest(hub, slot, guest)
    elif guest.is_done():
        hub.finish(slot, guest)


def dismiss_guest(hub: Hub, slot: int, guest: Client) -> None:
    """It is told, and closed."""
    why = Turned.FULL if guest.peer == reason_of(hub, Turned.FULL, guest.user) else Turned.USER
    guest.give(refusal(why, guest.peer))
    guest.send(hub.now)
    hub.finish(slot, guest)


def dismiss_guests(hub: Hub) -> None:
    """Those whose time is over."""
    for slot in GUESTS:
        guest = waiting_for(hub, slot, SECONDS_OF_GUEST)
        if guest is not None:
            dismiss_guest(hub, slot, guest)


def waiting_for(hub: Hub, slot: int, seconds: float) -> Optional[Client]:
    """The client of this number, where it waits for nothing and nothing was heard of it for so long."""
    client = hub.slots.get(slot)
    if isinstance(client, Client) and client.is_at_rest() and hub.now - client.last_heard > seconds:
        return client
    return None


def dismiss_idle(hub: Hub) -> None:
    """Closes clients that have asked nothing for longer than they may."""
    if not hub.given.idle:
        return
    for slot in SESSIONS:
        client = waiting_for(hub, slot, hub.given.idle)
        if client is not None:
            hub.stats.idle += 1
            client.give(told_body(IDLE, 0, f"nothing was asked for {hub.given.idle:g} seconds"))
            client.send(hub.now)
            hub.finish(slot, client)


def tell_joiners(hub: Hub, body: bytes) -> None:
    """Tells those who wait, and those whose connection wasn't taken, that all is over. What systemd holds stays for the
    next hub."""
    while hub.joiners:
        tell(hub.joiners.popleft().connection, body)
    while hub.given.socket:
        try:
            tell(hub.listener.accept()[0], body)
        except OSError:
            return


def tell(connection: socket.socket, body: bytes) -> None:
    """Tells a new connection one frame, for which there is room, and closes it."""
    connection.setblocking(False)
    try:
        os.write(connection.fileno(), frame(body))
    except OSError:
        pass
    connection.close()

"""The hub: clients come and go, each with a session's number of its own, until the disk ends or the hub is stopped. One
thread waits for whatever happens next, and then takes a turn: requests to the disk by one write, replies to each client
by one."""

from __future__ import annotations

import os
import select
import signal
import socket
import time
from argparse import Namespace
from collections import deque
from typing import Deque, Dict, List, Optional, Union

from tsd import requests
from tsd.frames import frame
from tsd.hub import ends, joining, turns
from tsd.hub.bodies import FREE, OF_FREE, OF_NOTHING, Asked
from tsd.hub.client import Client
from tsd.hub.disk_side import DiskSide, serving_command
from tsd.hub.limits import Users
from tsd.hub.log import Log, write_file
from tsd.hub.places import ENDED, GUESTS, READABLE, READING, WRITABLE, WRITING, Closing, Sent
from tsd.hub.stats import Stats
from tsd.hub_words import Greeting
from tsd.image_header import geometry_of
from tsd.programs import image_word, program_words

TICK = 0.01
BETWEEN_METRICS = 10.0
ENDING_SIGNALS = (signal.SIGHUP, signal.SIGINT, signal.SIGTERM)


class Hub:
    """Over a disk that runs. A number is a client's until the disk has closed its session."""

    def __init__(self, given: Namespace, listener: socket.socket, disk: DiskSide, command: str, waking: int) -> None:
        """The last one is the descriptor at which signals are noted."""
        self.now = time.monotonic()
        self.given = given
        self.listener = listener
        self.disk = disk
        self.command = command
        self.poll = select.epoll()
        self.waking = waking
        self.slots: Dict[int, Union[Client, Closing]] = {}
        self.by_descriptor: Dict[int, int] = {}
        self.joiners: Deque[joining.Joiner] = deque()
        self.users = Users()
        self.order: Deque[Sent] = deque()
        self.turns = turns.Turns(command == "group")
        self.touched: List[int] = []
        self.geometry: Optional[Greeting] = None
        self.stats = Stats(self.now)
        self.log = Log(self.now)
        self.next_metrics = self.now + BETWEEN_METRICS
        self.generation = 0
        self.is_open = False
        self.complaint = ""
        self.poll.register(disk.output, READING)
        self.poll.register(waking, READING)

    def run(self, signals: List[int]) -> int:
        """Serves until the disk ends or a signal was noted; the status that the hub ends with."""
        if self.given.metrics:
            write_file(self.given.metrics, self.metrics())
        self.disk.requests.put(frame(FREE))
        self.expect(0, 0, OF_FREE)
        self.send_to_disk()
        while True:
            happened = self.poll.poll(self._patience())
            self.now = time.monotonic()
            goes_on = all([self._meet(descriptor, bits) for descriptor, bits in happened])
            if signals:
                return ends.stop(self, signals[0])
            if not goes_on:
                return ends.after_the_disk(self)
            self._keep_time()
            turns.take_turn(self)

    def _patience(self) -> Optional[float]:
        """How many seconds may be waited."""
        to_round = turns.seconds_to_round(self)
        if to_round is not None:
            return to_round
        if self.joiners or any(guest in self.slots for guest in GUESTS):
            return TICK
        times = [max(self.given.idle / 4, TICK)] if self.given.idle else []
        if self.given.metrics:
            times.append(max(0.0, self.next_metrics - self.now))
        return min(times) if times else None

    def _meet(self, descriptor: int, bits: int) -> bool:
        """Takes what has happened; whether the disk goes on."""
        if descriptor == self.disk.output:
            return turns.take_replies(self, bool(bits & ENDED))
        if descriptor == self.listener.fileno():
            joining.accept(self)
        elif descriptor == self.disk.input and self.disk.takes_requests:
            self.send_to_disk()
        elif descriptor in self.by_descriptor:
            self._meet_client(self.by_descriptor[descriptor], bits)
        return True

    def _meet_client(self, slot: int, bits: int) -> None:
        client = self.slots[slot]
        assert isinstance(client, Client)
        if bits & WRITABLE and client.waits_for_room:
            self.touched.append(slot)
        if bits & READABLE:
            client.may_have_bytes = True
            client.may_end = client.may_end or bool(bits & ENDED)
            self.read_client(slot)

    def read_client(self, slot: int) -> None:
        """Reads what a client has sent, where there is room for its requests."""
        client = self.slots.get(slot)
        if not isinstance(client, Client):
            return
        self.stats.queue.come(client.read(self.now), self.now)
        if slot in GUESTS:
            joining.meet_guest(self, slot, client)
            return
        self.turns.note(slot, client)
        if client.is_done():
            self.finish(slot, client)

    def finish(self, slot: int, client: Client) -> None:
        """A client is gone: its session is closed, and then its number is free again."""
        self.stats.queue.go(client.lying, self.now)
        self.turns.forget(slot)
        del self.slots[slot], self.by_descriptor[client.connection.fileno()]
        client.connection.close()
        if slot in GUESTS:
            return
        self.log.line(self.now, f"session {slot}: ended after {client.requests} requests: {client.peer}")
        self.slots[slot] = Closing(client.user)
        self.disk.requests.put(frame(requests.End().encode(slot)))
        self.expect(slot, 0, OF_NOTHING)

    def expect(self, slot: int, generation: int, asked: Asked) -> None:
        """A request goes to the disk."""
        self.order.append(Sent(slot, generation, asked))
        self.stats.at_disk.come(1, self.now)

    def send_to_disk(self) -> None:
        """Sends the disk what it takes at once, and waits for room where that isn't all."""
        is_all = self.disk.send()
        if self.disk.takes_requests and is_all == self.disk.waits_for_room:
            self.disk.waits_for_room = not is_all
            if is_all:
                self.poll.unregister(self.disk.input)
            else:
                self.poll.register(self.disk.input, WRITING)

    def _keep_time(self) -> None:
        """What is done by the clock: connections that wait, idle clients, and the file of numbers."""
        joining.let_join(self)
        joining.dismiss_guests(self)
        joining.dismiss_idle(self)
        if self.given.metrics and self.now >= self.next_metrics:
            self.next_metrics = self.now + BETWEEN_METRICS
            self.log.keep_file(self.given.metrics, self.metrics())

    def metrics(self) -> str:
        """The numbers in Prometheus's form."""
        return self.stats.prometheus(self.turns.shares, self.log.left_out_total, self.now)

    def open(self, free: int) -> None:
        """The disk is open: from now on clients are served. The header is read only now, when no record of the journal
        waits to change it."""
        self.geometry = geometry_of(self.given.image)
        self.poll.register(self.listener.fileno(), select.EPOLLIN)
        self.is_open = True
        process = self.disk.process
        self.log.always(f"the disk is open in process {process}, {free} blocks are free, by {self.command}")


def note_signals(waking: int) -> List[int]:
    """The signals of those that end the hub that come from now on; a byte is put for each."""
    came: List[int] = []
    signal.set_wakeup_fd(waking, warn_on_full_buffer=False)
    for number in ENDING_SIGNALS:
        signal.signal(number, lambda number, _: came.append(number))
    return came


def run_in_batches() -> None:
    """Lets this process run when the processor has nothing that was woken sooner: then the disk isn't interrupted at
    each of its replies, and a turn has many. A way of scheduling that was chosen for this process stays."""
    try:
        if os.sched_getscheduler(0) == os.SCHED_OTHER:
            os.sched_setscheduler(0, os.SCHED_BATCH, os.sched_param(0))
    except OSError:
        pass


def serve(given: Namespace, listener: socket.socket) -> int:
    """Serves clients until the disk ends or a signal comes; the status that the hub ends with, which is the disk's."""
    listener.setblocking(False)
    woken, waking = socket.socketpair()
    waking.setblocking(False)
    signals = note_signals(waking.fileno())
    program = program_words(given.program)
    command = serving_command(program)
    disk = DiskSide(program + [image_word(given.image), command, given.place])
    run_in_batches()
    return Hub(given, listener, disk, command, woken.fileno()).run(signals)

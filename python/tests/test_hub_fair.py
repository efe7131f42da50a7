"""The hub between clients that want more than their part: sessions and connections of one user, turns, idle clients,
and logs that nobody reads."""

from __future__ import annotations

import contextlib
import fcntl
import os
import statistics
import subprocess
import sys
import threading
import time
from pathlib import Path
from typing import Dict, List

from support import MOST_SECONDS, PROGRAM, RawClient, RunningHub, WithHub, compiled, until

from disk_model import frame
from tsd import requests

OPENED = b"\1"
FREE = bytes([7])
FULL, IDLE = b"\xff\1\0\0\0\0", b"\xff\6\0\0\0\0"
F_SETPIPE_SZ = 1031
SLOW_WRITE = 0.05
# A stand-in for the disk: a write takes its time, everything else none.
SLOW_DISK = f"""#!{sys.executable}
import os, sys, time
if sys.argv[1] == "help":
    sys.exit(2)
left = b""
while piece := os.read(0, 65536):
    left += piece
    while len(left) >= 2 and len(left) >= 2 + int.from_bytes(left[:2], "little"):
        length = int.from_bytes(left[:2], "little")
        body, left = left[2:2 + length], left[2 + length:]
        if body[:1] == b"\\x04":
            time.sleep({SLOW_WRITE})
        reply = {{b"\\x07": b"\\x04\\x3f\\0\\0\\0", b"\\x03": b"\\x02" + bytes(512)}}.get(body[:1], b"\\x01")
        os.write(1, len(reply).to_bytes(2, "little") + reply)
"""
# A stand-in that shares syncs: what comes together takes its time together.
SHARING_DISK = f"""#!{sys.executable}
import os, sys, time
if sys.argv[1] == "help":
    sys.exit(0)
left = b""
while piece := os.read(0, 65536):
    left += piece
    replies, is_writing = b"", False
    while len(left) >= 2 and len(left) >= 2 + int.from_bytes(left[:2], "little"):
        length = int.from_bytes(left[:2], "little")
        body, left = left[2:2 + length], left[2 + length:]
        is_writing |= body[:1] == b"\\x04"
        reply = {{b"\\x07": b"\\x04\\x3f\\0\\0\\0"}}.get(body[:1], b"\\x01")
        replies += len(reply).to_bytes(2, "little") + reply
    if is_writing:
        time.sleep({SLOW_WRITE})
    os.write(1, replies)
"""
FLOOD = """
import socket, sys, time
until = time.monotonic() + float(sys.argv[2])
while time.monotonic() < until:
    with socket.socket(socket.AF_UNIX, socket.SOCK_STREAM) as one:
        one.connect(sys.argv[1])
"""


def median(times: List[float]) -> float:
    """The middle one, or an error where there are none."""
    return statistics.median(times)


class Sharing(WithHub):
    """What one user may have."""

    def test_one_user_has_16_sessions(self) -> None:
        self.make(blocks=64)
        for more, most in (([], 16), (["--per-user", "3"], 3)):
            with self.running_hub(more) as hub:
                clients = [RawClient(hub.path) for _ in range(most)]
                for client in clients:
                    self.assertEqual(OPENED, client.ask(requests.Begin().encode(1)))
                late = RawClient(hub.path)
                body = late.body() or b""
                self.assertEqual((FULL, None), (body[:6], late.body()))
                self.assertIn(f"has {most} sessions", body[6:].decode())
                clients.pop().close()
                until(lambda: "ended after 1 requests" in hub.log, "a session ends")
                time.sleep(0.1)
                clients += [RawClient(hub.path), late]
                self.assertEqual(OPENED, clients[-2].ask(requests.Begin().encode(1)))
                for client in clients:
                    client.close()

    def test_a_connection_that_closes_in_a_loop_delays_nobody_for_long(self) -> None:
        self.make(blocks=64)
        with self.running_hub() as hub:
            settled = RawClient(hub.path)
            seconds = 2.5
            flood = subprocess.Popen([sys.executable, "-c", FLOOD, str(hub.path), str(seconds)])
            times, joined, begun = [], 0, time.monotonic()
            try:
                while time.monotonic() - begun < seconds - 0.5:
                    asked = time.monotonic()
                    self.assertEqual(b"\4\x3f\0\0\0", settled.ask(FREE))
                    times.append(time.monotonic() - asked)
                    good = self.joined(hub.path)
                    self.assertEqual(b"\4\x3f\0\0\0", good.ask(FREE))
                    good.close()
                    joined += 1
            finally:
                flood.wait(MOST_SECONDS)
            settled.close()
            self.assertLess(median(times), 0.05)
            self.assertGreater(joined, 5)
            self.assertLess(len(hub.log), 100_000)

    def joined(self, path: Path) -> RawClient:
        """A client that connects once there is room."""
        client = None
        while client is None:
            with contextlib.suppress(BlockingIOError):
                client = RawClient(path)
        return client

    def test_a_log_that_nobody_reads_stops_nothing(self) -> None:
        self.make(blocks=64)
        path = self.folder / "disk.sock"
        reading, writing = os.pipe()
        fcntl.fcntl(writing, F_SETPIPE_SZ, 4096)
        hub = subprocess.Popen(self.hub_words + self.hub_image(path), stderr=writing)
        try:
            os.close(writing)
            until(path.exists, "the hub listens")
            for _ in range(100):
                client = RawClient(path)
                self.assertEqual(b"\4\x3f\0\0\0", client.ask(FREE))
                client.close()
            hub.terminate()
            self.assertEqual(0, hub.wait(MOST_SECONDS))
        finally:
            hub.kill()
            hub.wait()
            os.close(reading)

    def test_the_log_has_so_many_lines_and_tells_what_it_left_out(self) -> None:
        self.make(blocks=64)
        with self.running_hub() as hub:
            for _ in range(150):
                client = RawClient(hub.path)
                self.assertEqual(OPENED, client.ask(requests.Begin().encode(1)))
                client.close()
            hub.stop()
            self.assertIn("lines were left out, as too many came", hub.log)
            self.assertLess(hub.log.count("\n"), 300)

    def test_an_idle_client_is_closed_where_that_is_asked(self) -> None:
        self.make(blocks=64)
        with self.running_hub(["--idle", "1"]) as hub:
            idle, stuck, busy = (RawClient(hub.path) for _ in range(3))
            stuck.send(b"\x20\0\4")
            ended = time.monotonic() + 2.5
            while time.monotonic() < ended:
                self.assertEqual(b"\4\x3f\0\0\0", busy.ask(FREE))
                time.sleep(0.05)
            for client in (idle, stuck):
                body = client.body() or b""
                self.assertEqual(IDLE, body[:6])
                self.assertIn(b"nothing was asked for 1 seconds", body)
                client.close()
            self.assertEqual(b"\4\x3f\0\0\0", busy.ask(FREE))
            busy.close()


class Taking(WithHub):
    """Turns: one request of each client that has one."""

    def slow_disk(self, code: str = SLOW_DISK) -> List[str]:
        """The options for a hub over the stand-in."""
        program = self.folder / "slow"
        program.write_text(code)
        program.chmod(0o755)
        return ["--program", str(program)]

    def test_a_read_beside_a_writer_waits_for_one_write(self) -> None:
        with self.running_hub(self.slow_disk()) as hub:
            writer, reader = RawClient(hub.path), RawClient(hub.path)
            is_over = threading.Event()
            write, read = (frame(request.encode(1)) for request in (requests.Write(0, b"x"), requests.Read(0)))

            def keep_writing() -> None:
                writer.send(16 * write)
                while not is_over.is_set():
                    writer.body()
                    writer.send(write)

            thread = threading.Thread(target=keep_writing)
            thread.start()
            try:
                times = []
                for _ in range(10):
                    time.sleep(SLOW_WRITE / 2)
                    asked = time.monotonic()
                    reader.send(read)
                    self.assertEqual(b"\2" + bytes(512), reader.body())
                    times.append(time.monotonic() - asked)
            finally:
                is_over.set()
                thread.join(MOST_SECONDS)
            self.assertLess(median(times), 5 * SLOW_WRITE)
            reader.close()
            writer.close()

    def test_each_writer_has_its_turn(self) -> None:
        with self.running_hub(self.slow_disk()) as hub:
            greedy, modest = RawClient(hub.path), RawClient(hub.path)
            write = frame(requests.Write(0, b"x").encode(1))
            greedy.send(16 * write)
            self.assertEqual(b"\1", greedy.body())
            asked = time.monotonic()
            modest.send(write)
            self.assertEqual(b"\1", modest.body())
            self.assertLess(time.monotonic() - asked, 8 * SLOW_WRITE)
            self.assertEqual([b"\1"] * 15, [greedy.body() for _ in range(15)])
            greedy.close()
            modest.close()

    def test_requests_of_a_client_stay_in_order(self) -> None:
        [pair] = self.make(blocks=64)
        with self.running_hub() as hub:
            client, other = RawClient(hub.path), RawClient(hub.path)
            other.send(200 * frame(bytes([7])))
            text = frame(requests.Begin().encode(1))
            for number in range(100):
                text += frame(requests.Write(0, b"%d" % number, pair.write).encode(1))
                text += frame(requests.Read(0, pair.read).encode(1)) * (number % 3)
            client.send(text)
            self.assertEqual(OPENED, client.body())
            for number in range(100):
                self.assertEqual(b"\1", client.body())
                for _ in range(number % 3):
                    self.assertEqual(b"%d" % number, (client.body() or b"")[1:].rstrip(b"\0"))
            self.assertEqual([b"\4\x3f\0\0\0"] * 200, [other.body() for _ in range(200)])
            client.close()
            other.close()

    def test_the_program_is_asked_for_group_commit(self) -> None:
        for status, command in ((0, "group"), (2, "serve")):
            program, told = self.folder / "program", self.folder / "told"
            program.write_text(f"#!/bin/sh\n[ \"$1\" != help ] || exit {status}\necho \"$2\" >>'{told}'\nexit 3\n")
            program.chmod(0o755)
            with self.running_hub(["--program", str(program)]) as hub:
                self.assertEqual(3, hub.ended())
            self.assertEqual(command, told.read_text().split()[-1])

    def test_by_group_many_changes_go_in_a_round(self) -> None:
        [pair] = self.make(blocks=64)
        program = self.folder / "program"
        program.write_text(f"#!/bin/sh\n[ \"$1\" != help ] || exit 0\nexec '{PROGRAM}' \"$1\" serve \"$3\"\n")
        program.chmod(0o755)
        with self.running_hub(["--program", str(program)]) as hub:
            self.assertIn("by group", hub.log)
            clients = [RawClient(hub.path) for _ in range(8)]
            for number, client in enumerate(clients):
                write = frame(requests.Write(0, b"%d" % number, pair.write).encode(1))
                read = frame(requests.Read(0, pair.read).encode(1))
                client.send(frame(requests.Begin().encode(1)) + 16 * write + read + 16 * write)
            for client in clients:
                self.assertEqual([b"\1"] * 17, [client.body() for _ in range(17)])
                self.assertEqual((2, 513), ((body := client.body() or b"")[0], len(body)))
                self.assertEqual([b"\1"] * 16, [client.body() for _ in range(16)])
            found = self.numbers(hub)
            self.assertEqual("256", found["changes_total"])
            self.assertLess(int(found["change_rounds_total"]), 128)
            self.assertLessEqual(int(found["syncs_at_least_total"]), 256)
            for client in clients:
                client.close()

    def numbers(self, hub: RunningHub) -> Dict[str, str]:
        """What the hub tells of itself."""
        words = [*self.hub_words, "--stats", str(hub.path)]
        told = subprocess.run(words, capture_output=True, text=True, timeout=MOST_SECONDS).stdout
        return dict(line.rsplit(" ", 1) for line in told.splitlines())

    def test_those_that_change_one_thing_after_another_come_together(self) -> None:
        """Of eight clients each asks again once it is answered: a round has all of them, and not by turns one and
        seven."""
        turns = 20
        with self.running_hub(self.slow_disk(SHARING_DISK)) as hub:
            clients = [RawClient(hub.path) for _ in range(8)]
            write = frame(requests.Write(0, b"x").encode(1))
            for turn in range(turns + 1):
                for client in clients:
                    if turn > 0:
                        self.assertEqual(b"\1", client.body())
                    if turn < turns:
                        client.send(write)
            found = self.numbers(hub)
            self.assertEqual(str(8 * turns), found["changes_total"])
            self.assertLess(int(found["change_rounds_total"]), 3 * turns // 2)
            for client in clients:
                client.close()


globals().update(compiled(Sharing, Taking))

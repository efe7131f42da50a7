"""The hub: 64 clients at random beside a run alone, clients that misbehave, and the disk killed under them."""

from __future__ import annotations

import os
import random
import re
import shutil
import signal
import socket
import stat
import subprocess
import threading
import time
from collections import Counter
from pathlib import Path
from typing import List, Optional, Tuple

from support import (
    MOST_SECONDS, PROGRAM, SEED, RawClient, RunningHub, WithHub, compiled, run_alone, told_of, tsd, until,
)

from disk_model import Disk, cut_frames, frame, parse_body, seed_caps
from drawing import Drawer
from tsd import requests
from tsd.hub.bodies import of_session

LIMIT = 60.0
CLIENTS = 64
REQUESTS = 40
BLOCKS = 200
MOST_UNDER_WAY = 20
BAD_REQUEST, DENIED = b"\x08\x00", b"\x08\x0a"
ALL_OF_ONE = ("--per-user", "64")
END, FREE = 2, 7


class Talk:
    """What a client sends at random, and what it is answered. The requests are drawn beside a model of its own, so some
    of them are refused."""

    def __init__(self, number: int) -> None:
        rng = random.Random(number)
        caps = seed_caps(SEED)
        drawer = Drawer(rng, Disk.formatted(BLOCKS, 1, 4 * BLOCKS, 2, SEED), caps)
        self.sent = [b"\1\0\0\0\0"] + [drawer.ask().body for _ in range(REQUESTS)]
        self.answers: List[bytes] = []
        self.failure: Optional[BaseException] = None
        self._rng = rng

    def run(self, path: Path, all_there: threading.Barrier) -> None:
        """Talks, with several requests under way, and stays until all have talked."""
        try:
            client = RawClient(path)
            left = list(self.sent)
            while left or len(self.answers) < len(self.sent):
                under_way = len(self.sent) - len(left) - len(self.answers)
                count = min(len(left), self._rng.randint(0, MOST_UNDER_WAY - under_way))
                client.send(b"".join(map(frame, left[:count])))
                del left[:count]
                for _ in range(self._rng.randint(0, under_way + count)):
                    body = client.body()
                    assert body is not None, "the connection ended"
                    self.answers.append(body)
            all_there.wait(MOST_SECONDS)
            client.close()
        except BaseException as error:
            self.failure = error


def of_a_session(talk: List[Tuple[bytes, bytes]]) -> Tuple[Tuple[bytes, bytes], ...]:
    """The requests of a session with their answers, the session's number left out."""
    return tuple((body[:1] + body[5:], answer) for body, answer in talk if parse_body(body) and body[0] != FREE)


class AtRandom(WithHub):
    """All sessions at once."""

    def test_64_clients_are_answered_as_in_a_run_alone(self) -> None:
        self.make(blocks=BLOCKS, primaries=2)
        alone = self.folder / "alone.img"
        shutil.copy(self.image, alone)
        record = self.folder / "record"
        recorder = self.folder / "recorder"
        recorder.write_text(f"#!/bin/sh\ntee '{record}' | '{PROGRAM}' \"$@\"\n")
        recorder.chmod(0o755)
        talks = [Talk(number) for number in range(CLIENTS)]
        with self.running_hub(["--program", str(recorder), *ALL_OF_ONE]) as hub:
            all_there = threading.Barrier(CLIENTS)
            threads = [threading.Thread(target=talk.run, args=(hub.path, all_there)) for talk in talks]
            for thread in threads:
                thread.start()
            for thread in threads:
                thread.join()
            self.assertEqual([None] * CLIENTS, [talk.failure for talk in talks])
            asked = 1 + sum(len(talk.sent) for talk in talks) + CLIENTS
            until(lambda: len(cut_frames(record.read_bytes())[0]) == asked, "all sessions are closed")
        bodies, rest = cut_frames(record.read_bytes())
        status, replies = run_alone(alone, record.read_bytes())
        answers, more = cut_frames(replies)
        self.assertEqual((0, b"", b"", len(bodies)), (status, rest, more, len(answers)))
        self.check_talks(talks, list(zip(bodies, answers)))
        self.assertEqual(told_of(alone), told_of(self.image))

    def check_talks(self, talks: List[Talk], recorded: List[Tuple[bytes, bytes]]) -> None:
        """What the disk was asked is what the clients sent, each as one session, which the hub closed in the end."""
        sessions: List[List[Tuple[bytes, bytes]]] = [[] for _ in range(CLIENTS)]
        for body, answer in recorded:
            if len(body) >= 5:
                sessions[int.from_bytes(body[1:5], "little") - 1].append((body, answer))
        self.assertEqual({END}, {session.pop()[0][0] for session in sessions})
        expected = Counter(map(of_a_session, sessions))
        found = Counter(of_a_session(list(zip(talk.sent, talk.answers))) for talk in talks)
        self.assertEqual(expected, found)
        self.assertEqual(CLIENTS, len(found))
        kinds = Counter()  # type: Counter[int]
        for talk in talks:
            for body, answer in zip(talk.sent, talk.answers):
                kinds[answer[0]] += 1
                if parse_body(body) is None:
                    self.assertEqual(BAD_REQUEST, answer)
                if body == bytes([FREE]):
                    self.assertEqual((4, 5), (answer[0], len(answer)))
        self.assertLess({1, 2, 3, 4, 5, 6}, set(kinds), kinds)

    def test_sessions_are_set_in_every_request(self) -> None:
        rng = random.Random(5)
        drawer = Drawer(rng, Disk.formatted(BLOCKS, 1, 4 * BLOCKS, 2, SEED), seed_caps(SEED))
        for _ in range(2000):
            body = drawer.ask().body
            changed = of_session(body, 7)
            asked, new = parse_body(body), parse_body(changed)
            if asked is None:
                self.assertIsNone(new, body)
            else:
                self.assertEqual(asked._replace(session=7) if body[0] != FREE else asked, new)
        for code in range(256):
            body = bytes([code]) + b"\2\0\0\0" + bytes(20)
            self.assertIn(of_session(body, 7), (b"", bytes([code]) + b"\7\0\0\0" + bytes(20)))
        self.assertEqual(b"", of_session(bytes([13]) + bytes(8), 7))


class Sessions(WithHub):
    """A connection is a session, and no other one."""

    def test_no_client_speaks_as_another(self) -> None:
        [pair] = self.make()
        with self.running_hub() as hub, tsd.connect(hub.path, limit=LIMIT) as disk, disk.session() as owner:
            [block] = owner.alloc(0, 1, pair.write)
            owner.write(block, b"mine")
            with tsd.connect(hub.path, limit=LIMIT) as other:
                for claimed in (0, 1, 2, 64, 65, 2**32 - 1):
                    for request in (requests.Read(block), requests.Write(block, b"x"), requests.End()):
                        with self.assertRaises(tsd.NotOpen):
                            other.ask(request, claimed).result()
                other.ask(requests.Begin(), 1).result()
                for claimed in range(66):
                    with self.assertRaises(tsd.Denied):
                        other.ask(requests.Read(block), claimed).result()
                    with self.assertRaises(tsd.Denied):
                        other.ask(requests.Delete(0, block), claimed).result()
                other.ask(requests.End(), 1).result()
            self.assertEqual(b"mine", owner.read(block)[:4])

    def test_a_session_ends_with_its_connection(self) -> None:
        [pair] = self.make()
        with self.running_hub() as hub:
            first = RawClient(hub.path)
            self.assertEqual(b"\1", first.ask(requests.Begin().encode(9)))
            self.assertEqual(b"\3\1\0\0\0", first.ask(requests.Alloc(0, 1, pair.write).encode(9)))
            self.assertEqual(b"\1", first.ask(requests.Write(1, b"x").encode(9)))
            first.close()
            until(lambda: "session 1: ended after 3 requests" in hub.log, "the session ends")
            with tsd.connect(hub.path, limit=LIMIT) as disk, disk.session() as session:
                self.assertRaises(tsd.Denied, session.read, 1)

    def test_replies_come_also_after_the_client_has_ended_its_side(self) -> None:
        self.make(blocks=64)
        with self.running_hub() as hub:
            client = RawClient(hub.path)
            client.send(500 * frame(bytes([FREE])))
            client.socket.shutdown(socket.SHUT_WR)
            self.assertEqual([b"\4\x3f\0\0\0"] * 500 + [None], [client.body() for _ in range(501)])
            client.close()

    def test_a_65th_is_told_and_closed(self) -> None:
        self.make(blocks=64)
        with self.running_hub(ALL_OF_ONE) as hub:
            clients = [RawClient(hub.path) for _ in range(64)]
            for client in clients:
                self.assertEqual(b"\1", client.ask(requests.Begin().encode(1)))
            late = RawClient(hub.path)
            self.assertEqual((b"\xff\1\0\0\0\0", None), (late.body(), late.body()))
            late.close()
            with self.assertRaises(tsd.HubFull):
                tsd.connect(hub.path, limit=LIMIT).session()
            clients[10].close()
            until(lambda: "session 11: ended" in hub.log, "a session ends")
            time.sleep(0.1)
            with tsd.connect(hub.path, limit=LIMIT) as disk, disk.session():
                self.assertEqual(63, disk.free())
            for client in clients:
                client.close()

    def test_many_come_and_go(self) -> None:
        self.make(blocks=64)
        with self.running_hub() as hub:
            for _ in range(150):
                client = RawClient(hub.path)
                self.assertEqual(b"\1", client.ask(requests.Begin().encode(1)))
                client.close()


class BadClients(WithHub):
    """Clients that misbehave delay and disturb nobody."""

    def good(self, hub: RunningHub) -> None:
        """A good client is answered, and soon."""
        begun = time.monotonic()
        with tsd.connect(hub.path, limit=LIMIT) as disk, disk.session() as session:
            for _ in range(50):
                self.assertRaises(tsd.Denied, session.read, 0)
        self.assertLess(time.monotonic() - begun, MOST_SECONDS / 3)

    def test_rubbish(self) -> None:
        self.make(blocks=64)
        with self.running_hub() as hub:
            rng = random.Random(6)
            for _ in range(20):
                client = RawClient(hub.path)
                client.send(bytes(rng.randrange(256) for _ in range(rng.randint(1, 3000))))
                self.good(hub)
                client.close()
            client = RawClient(hub.path)
            for body in (b"", b"\0", b"\xff" * 9, bytes(65535), b"\1", b"\7\0", b"\3" + bytes(300),
                         b"\4" + bytes(5000)):
                self.assertEqual(BAD_REQUEST, client.ask(body))
            self.assertEqual(b"\4\x3f\0\0\0", client.ask(bytes([FREE])))
            client.close()

    def test_one_that_stops_reading(self) -> None:
        [pair] = self.make(blocks=64, sectors=8)
        with self.running_hub() as hub:
            client = RawClient(hub.path)
            self.assertEqual(b"\1", client.ask(requests.Begin().encode(1)))
            client.socket.settimeout(0.3)
            text = 100 * frame(requests.Read(0, pair.read).encode(1))
            with self.assertRaises(socket.timeout):
                for _ in range(1000):
                    client.send(text)
            self.good(hub)
            self.assertLess(memory(hub.process.pid), 200 * 2**20)
            client.close()
            until(lambda: "session 1: ended" in hub.log, "its session ends")
            self.good(hub)

    def test_one_that_goes_away_in_mid_frame(self) -> None:
        self.make(blocks=64)
        with self.running_hub() as hub:
            for text in (b"\5", b"\5\0", b"\5\0\1\2\3", frame(b"\1\0\0\0\0") + b"\x20\0\4"):
                client = RawClient(hub.path)
                client.send(text)
                client.close()
            until(lambda: hub.log.count(": ended after") == 4, "their sessions end")
            self.good(hub)

    def test_one_that_is_silent_in_mid_frame(self) -> None:
        self.make(blocks=64)
        with self.running_hub(ALL_OF_ONE) as hub:
            clients = [RawClient(hub.path) for _ in range(63)]
            for client in clients:
                client.send(b"\x20\0\4")
            self.good(hub)
            for client in clients:
                client.close()


class Hostile(WithHub):
    """One client that tries all that it can, beside one that keeps something."""

    def test_what_it_tries_changes_nothing(self) -> None:
        begun = time.monotonic()
        [pair] = self.make(blocks=64)
        with self.running_hub(ALL_OF_ONE) as hub, tsd.connect(hub.path, limit=LIMIT) as disk, disk.session() as owner:
            [block] = owner.alloc(0, 1, pair.write)
            owner.write(0, b"root", pair.write)
            owner.write(block, b"mine")
            self.steal(hub, block)
            self.send_bodies(hub, block)
            self.be_killed(hub, block)
            self.assertEqual((b"root", b"mine", [block], 62),
                             (owner.read(0, pair.read)[:4], owner.read(block)[:4],
                              list(owner.list(0, pair.read)), disk.free()))
            self.assertNotIn(pair.write.reveal().hex(), hub.log)
        self.assertLess(time.monotonic() - begun, MOST_SECONDS)

    def steal(self, hub: RunningHub, block: int) -> None:
        """It claims 70 numbers of sessions, the owner's among them."""
        client = RawClient(hub.path)
        self.assertEqual(b"\1", client.ask(requests.Begin().encode(1)))
        for claimed in (*range(69), 2**32 - 1):
            for request in (requests.Read(block), requests.Write(block, b"x"), requests.Delete(0, block)):
                self.assertEqual(DENIED, (client.ask(request.encode(claimed)) or b"")[:2])
        client.close()

    def send_bodies(self, hub: RunningHub, block: int) -> None:
        """It sends 6,000 bodies: any bytes, and requests of which some bytes are others, cut short or with more."""
        rng = random.Random(7)
        client = RawClient(hub.path)
        asked = [request.encode(1) for request in (
            requests.Read(block), requests.Write(block, b"x"), requests.Delete(0, block), requests.Alloc(block, 1),
            requests.Create(block, 0), requests.List64(block), requests.Sweep(), requests.GetFree())]
        for _ in range(400):
            bodies = [bad_body(rng, asked) for _ in range(15)]
            client.send(b"".join(map(frame, bodies)))
            self.assertNotIn(None, [client.body() for _ in bodies])
        client.close()

    def be_killed(self, hub: RunningHub, block: int) -> None:
        """40 processes of it are killed with a request half sent, and others under way."""
        write = frame(requests.Write(block, bytes(300)).encode(1))
        children = []
        for _ in range(40):
            client = RawClient(hub.path)
            client.send(10 * write + write[:100])
            child = os.fork()
            if child == 0:
                signal.pause()
                os._exit(0)
            client.close()
            children.append(child)
        for child in children:
            os.kill(child, signal.SIGKILL)
            os.waitpid(child, 0)
        until(lambda: hub.log.count(": ended after") == 2 + 40, "all sessions but the owner's end")


def bad_body(rng: random.Random, asked: List[bytes]) -> bytes:
    """Any bytes, or a request that somebody has been at."""
    if rng.random() < 0.3:
        return bytes(rng.randrange(256) for _ in range(rng.randrange(60)))
    body = bytearray(rng.choice(asked))
    for _ in range(rng.randrange(4)):
        body[rng.randrange(len(body))] = rng.randrange(256)
    body += bytes(rng.randrange(256) for _ in range(rng.choice((0, 0, 1, 16))))
    return bytes(body[:rng.randint(1, len(body))] if rng.random() < 0.3 else body)


def memory(process: int) -> int:
    """The bytes of memory that a process uses."""
    found = re.search(r"VmRSS:\s+(\d+) kB", Path(f"/proc/{process}/status").read_text())
    return 1024 * int(found[1]) if found else 0


class Ends(WithHub):
    """The disk or the hub ends."""

    def test_the_disk_is_killed_under_them(self) -> None:
        [pair] = self.make(blocks=64)
        with self.running_hub(ALL_OF_ONE) as hub:
            disks = [tsd.connect(hub.path, limit=LIMIT) for _ in range(20)]
            sessions = [disk.session() for disk in disks]
            silent = RawClient(hub.path)
            stuck = RawClient(hub.path)
            stuck.send(b"\x20\0\4")
            under_way = [session.ask(requests.Write(0, b"x", pair.write)) for session in sessions for _ in range(30)]
            os.kill(hub.disk_process, 9)
            for disk in disks:
                with self.assertRaises(tsd.DiskEnded) as caught:
                    while True:
                        disk.free()
                self.assertEqual(-9, caught.exception.status)
            for future in under_way:
                self.assertIn(type(future.exception(MOST_SECONDS)), (type(None), tsd.DiskEnded))
            for client in (silent, stuck):
                self.assertEqual((b"\xff\2\xf7\xff\xff\xff", None), (client.body(), client.body()))
                client.close()
            for disk in disks:
                self.assertRaises(tsd.DiskEnded, disk.close)
            self.assertEqual(1, hub.ended())
            self.assertFalse(hub.path.exists())
        with tsd.open(self.image, limit=LIMIT) as disk:
            self.assertEqual(63, disk.free())

    def test_a_stuck_client_does_not_hold_up_the_end(self) -> None:
        [pair] = self.make(blocks=64, sectors=8)
        with self.running_hub() as hub:
            stuck = RawClient(hub.path)
            stuck.send(frame(requests.Begin().encode(1)) + 300 * frame(requests.Read(0, pair.read).encode(1)))
            time.sleep(0.2)
            begun = time.monotonic()
            os.kill(hub.disk_process, 9)
            self.assertEqual(1, hub.ended())
            self.assertLess(time.monotonic() - begun, MOST_SECONDS / 3)
            stuck.close()

    def test_an_image_that_is_none(self) -> None:
        self.image.write_bytes(bytes(100000))
        with self.running_hub() as hub:
            self.assertEqual(3, hub.ended())
            self.assertIn("not-formatted", hub.log)
            self.assertFalse(hub.path.exists())

    def test_a_disk_that_answers_rubbish(self) -> None:
        program = self.folder / "program"
        program.write_text("#!/bin/sh\n[ \"$1\" != help ] || exit 2\n"
                           "printf '\\005\\000\\004\\007\\000\\000\\000'\nsleep 0.3\n"
                           "printf '\\001\\000\\377'\nsleep 60\n")
        program.chmod(0o755)
        with self.running_hub(["--program", str(program)]) as hub:
            client = RawClient(hub.path)
            body = client.ask(bytes([FREE])) or b""
            self.assertEqual(b"\xff\2\xf7\xff\xff\xff", body[:6])
            self.assertIn(b"is no reply", body)
            client.close()
            self.assertEqual(1, hub.ended())

    def test_the_hub_is_stopped(self) -> None:
        self.make(blocks=64)
        with self.running_hub() as hub, tsd.connect(hub.path, limit=LIMIT) as disk:
            session = disk.session()
            hub.process.terminate()
            with self.assertRaises(tsd.HubStopped):
                while True:
                    self.assertRaises(tsd.Denied, session.read, 0)
            self.assertEqual(0, hub.ended())
            self.assertFalse(hub.path.exists())
            with self.assertRaises(tsd.HubStopped):
                disk.close()


class Outside(WithHub):
    """The socket, the log, and systemd."""

    def test_the_socket_is_the_owners_unless_told_else(self) -> None:
        self.make(blocks=64)
        before = os.umask(0)
        self.addCleanup(os.umask, before)
        for more, mode in (([], 0o600), (["--mode", "660"], 0o660)):
            with self.running_hub(more) as hub:
                self.assertEqual(mode, stat.S_IMODE(hub.path.stat().st_mode))

    def test_paths_that_are_taken(self) -> None:
        self.make(blocks=64)
        with self.running_hub() as hub:
            with self.running_hub() as second:
                self.assertEqual(1, second.ended())
                self.assertIn("somebody listens", second.log)
            self.assertTrue(hub.path.exists())
            hub.process.kill()
            hub.ended()
            self.assertTrue(hub.path.exists())
        with self.running_hub() as hub:
            with tsd.connect(hub.path, limit=LIMIT) as disk:
                self.assertEqual(63, disk.free())
        hub.path.write_text("a file")
        with self.running_hub() as hub:
            self.assertEqual(1, hub.ended())
        self.assertEqual("a file", hub.path.read_text())

    def test_the_log_names_peers_and_no_capability(self) -> None:
        [pair] = self.make(blocks=64)
        with self.running_hub() as hub:
            with tsd.connect(hub.path, limit=LIMIT) as disk, disk.session() as session:
                session.write(0, pair.write.reveal(), pair.write)
                self.assertRaises(tsd.Denied, session.read, 0, tsd.Capability.new())
        self.assertIn(f"({os.getuid()}), process {os.getpid()}", hub.log)
        self.assertRegex(hub.log, r"session 1: connected: user \S+ \(\d+\), process \d+ \('.*'\)")
        for secret in (pair.read.reveal(), pair.write.reveal()):
            self.assertNotIn(secret.hex(), hub.log)
            self.assertNotIn(repr(secret)[2:-1], hub.log)

    def test_a_socket_of_systemd(self) -> None:
        self.make(blocks=64)
        path = self.folder / "systemd.sock"
        with socket.socket(socket.AF_UNIX, socket.SOCK_STREAM) as listener:
            listener.bind(str(path))
            listener.listen()
            script = f"exec 3<&{listener.fileno()}; export LISTEN_FDS=1 LISTEN_PID=$$; exec \"$@\""
            command = ["bash", "-c", script, "bash", *self.hub_words, str(self.image), "near"]
            os.set_inheritable(listener.fileno(), True)
            hub = subprocess.Popen(command, pass_fds=(listener.fileno(),), stderr=subprocess.DEVNULL)
            try:
                with tsd.connect(path, limit=LIMIT) as disk:
                    self.assertEqual(63, disk.free())
            finally:
                hub.terminate()
                self.assertEqual(0, hub.wait(MOST_SECONDS))
            self.assertTrue(path.exists())

    def test_no_socket(self) -> None:
        words = [*self.hub_words, str(self.image), "near"]
        done = subprocess.run(words, capture_output=True, timeout=MOST_SECONDS)
        self.assertEqual(2, done.returncode)
        self.assertIn(b"no --socket", done.stderr)


globals().update(compiled(AtRandom, Sessions, BadClients, Hostile, Ends, Outside))

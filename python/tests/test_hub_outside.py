"""The hub and the outside: its socket and lock, signals, its greeting, its numbers, and systemd's files."""

from __future__ import annotations

import os
import re
import shutil
import signal
import socket
import subprocess
import time
from pathlib import Path
from typing import Dict

from support import MOST_SECONDS, PROGRAM, TOP, RawClient, RunningHub, WithHub, compiled, tsd, until

from tsd import requests

FREE = bytes([7])
HELLO, STATS = b"\xff\4", b"\xff\5"
NO_REQUEST = b"\x08\0"
PROMETHEUS = re.compile(
    r'^(# TYPE tsd_hub_[a-z_]+ (counter|gauge)|tsd_hub_[a-z_]+(\{[a-z]+="[a-z-]+"\})? [0-9.]+)$')
MOST_EXPOSURE = 1.5
NOBODY = 65534


def numbers(*values: int) -> bytes:
    """Numbers as they stand in frames."""
    return b"".join(value.to_bytes(4, "little") for value in values)


def values_of(text: str) -> Dict[str, float]:
    """The numbers by their names and labels."""
    lines = [line.rsplit(" ", 1) for line in text.splitlines() if not line.startswith("#")]
    return {name: float(value) for name, value in lines}


class Greeting(WithHub):
    """The greeting, for who asks for it."""

    def test_it_tells_the_size_of_the_disk(self) -> None:
        for blocks, sectors, primaries in ((64, 1, 1), (200, 8, 3), (70000, 2, 16)):
            self.make(blocks=blocks, sectors=sectors, primaries=primaries, overwrite=True)
            with self.running_hub() as hub:
                client = RawClient(hub.path)
                self.assertEqual(HELLO + numbers(512 * sectors, blocks, primaries, 1), client.ask(HELLO))
                client.close()
        subprocess.run([PROGRAM, str(self.image), "upgrade"], check=True, capture_output=True)
        with self.running_hub() as hub:
            client = RawClient(hub.path)
            self.assertEqual(HELLO + numbers(1024, 70000, 16, 2), client.ask(HELLO))
            client.close()

    def test_it_comes_in_its_place_and_only_where_it_is_asked_for(self) -> None:
        [pair] = self.make(blocks=64)
        greeting = HELLO + numbers(512, 64, 1, 1)
        with self.running_hub() as hub:
            client = RawClient(hub.path)
            client.socket.settimeout(0.3)
            self.assertRaises(socket.timeout, client.body)
            client.socket.settimeout(MOST_SECONDS)
            text = b""
            for body in (HELLO, FREE, HELLO, requests.Begin().encode(1), requests.Write(0, b"x", pair.write).encode(1),
                         HELLO, FREE, HELLO):
                text += len(body).to_bytes(2, "little") + body
            client.send(text)
            free = b"\4\x3f\0\0\0"
            expected = [greeting, free, greeting, b"\1", b"\1", greeting, free, greeting]
            self.assertEqual(expected, [client.body() for _ in expected])
            self.assertEqual(NO_REQUEST, client.ask(HELLO + b"\0"))
            client.close()


class Numbers(WithHub):
    """`--stats` and `--metrics`."""

    def stats(self, path: Path) -> Dict[str, float]:
        """The numbers of the hub at a socket."""
        done = subprocess.run([*self.hub_words, "--stats", str(path)], capture_output=True, text=True,
                              timeout=MOST_SECONDS)
        self.assertEqual((0, ""), (done.returncode, done.stderr))
        return values_of(done.stdout)

    def test_what_was_asked_is_counted(self) -> None:
        [pair] = self.make(blocks=64)
        metrics = self.folder / "hub.prom"
        with self.running_hub(["--metrics", str(metrics)]) as hub:
            self.assertEqual(0, values_of(metrics.read_text())["tsd_hub_sessions"])
            client = RawClient(hub.path)
            asked = [requests.Begin(), requests.Read(0), requests.Read(0, pair.read), requests.Read(0, pair.read),
                     requests.Write(0, b"x", pair.write), requests.Alloc(0, 2, pair.write), requests.Read(99)]
            for request in asked:
                client.ask(request.encode(1))
            client.ask(FREE)
            client.ask(b"rubbish")
            found = self.stats(hub.path)
            expected = {
                "requests_total open": 1, "requests_total read": 4, "requests_total write": 1,
                "requests_total alloc": 1, "requests_total free": 1, "refusals_total denied": 1,
                "refusals_total no-such-block": 1,
                "refusals_total bad-request": 1, "changes_total": 2, "syncs_at_least_total": 4, "sessions": 2,
                "sessions_total": 2, "queue_requests": 0, "disk_requests": 0, "turned_away_total full": 0,
            }
            self.assertEqual(expected, {name: found[name] for name in expected})
            self.assertTrue(0 < found["disk_seconds_total"] < MOST_SECONDS)
            self.assertTrue(0 <= found["queue_seconds_total"] < MOST_SECONDS)
            client.close()
            hub.stop()
        last = values_of(metrics.read_text())
        self.assertEqual(4, last['tsd_hub_requests_total{kind="read"}'])
        self.assertEqual(1, last['tsd_hub_refusals_total{rule="denied"}'])
        self.assertEqual(2, last["tsd_hub_changes_total"])
        self.assertEqual(2, last["tsd_hub_sessions_total"])
        for line in metrics.read_text().splitlines():
            self.assertRegex(line, PROMETHEUS)

    def test_they_are_told_where_all_sessions_are_taken(self) -> None:
        self.make(blocks=64)
        with self.running_hub(["--per-user", "2"]) as hub:
            clients = [RawClient(hub.path) for _ in range(2)]
            for client in clients:
                client.ask(FREE)
            self.assertEqual(2, self.stats(hub.path)["sessions"])
            for client in clients:
                client.close()

    def test_others_are_not_told(self) -> None:
        if os.geteuid() != 0:
            self.skipTest("only root may act as another user")
        self.make(blocks=64)
        self.folder.chmod(0o755)
        with self.running_hub(["--mode", "666"]) as hub:
            code = ("import socket, os, sys; os.setuid(%d); s = socket.socket(socket.AF_UNIX); s.connect(sys.argv[1])\n"
                    "s.sendall(b'\\2\\0\\xff\\5'); sys.stdout.write(s.recv(100).hex())" % NOBODY)
            done = subprocess.run(["python3", "-c", code, str(hub.path)], capture_output=True, text=True)
            self.assertEqual(("02000800", ""), (done.stdout, done.stderr))

    def test_a_place_that_is_none_is_named(self) -> None:
        self.make(blocks=64)
        with self.running_hub(["--metrics", "/nowhere/hub.prom"]) as hub:
            self.assertEqual(1, hub.ended())
            self.assertIn("/nowhere/hub.prom", hub.log)
            self.assertFalse(hub.path.exists())
        done = subprocess.run([*self.hub_words, "--stats", "/nowhere/x"], capture_output=True, text=True)
        self.assertEqual(1, done.returncode)
        self.assertIn("/nowhere/x", done.stderr)


class Socket(WithHub):
    """The socket's path."""

    def test_a_socket_of_another_hub_stays(self) -> None:
        self.make(blocks=64)
        with self.running_hub() as first:
            first.path.unlink()
            Path(f"{first.path}.lock").unlink()
            other = self.folder / "other.img"
            shutil.copy(self.image, other)
            words = [*self.hub_words, str(other), "near", "--socket", str(first.path)]
            second = RunningHub(other, first.path, command=words)
            try:
                first.stop()
                with tsd.connect(first.path) as disk:
                    self.assertEqual(63, disk.free())
            finally:
                second.stop()
            self.assertFalse(first.path.exists())

    def test_of_many_starts_over_a_stale_socket_one_listens(self) -> None:
        self.make(blocks=64)
        for _ in range(2):
            path = self.folder / "stale.sock"
            with socket.socket(socket.AF_UNIX) as stale:
                stale.bind(str(path))
            images = [self.folder / f"{number}.img" for number in range(4)]
            for image in images:
                shutil.copy(self.image, image)
            hubs = [subprocess.Popen([*self.hub_words, str(image), "near", "--socket", str(path)],
                                     stderr=subprocess.PIPE) for image in images]
            try:
                until(lambda: sum(hub.poll() is not None for hub in hubs) == 3, "three end")
                time.sleep(0.1)
                [last] = [hub for hub in hubs if hub.poll() is None]
                with tsd.connect(path) as disk:
                    self.assertEqual(63, disk.free())
                last.terminate()
                self.assertEqual([0] + [1] * 3, sorted(hub.wait(MOST_SECONDS) for hub in hubs))
            finally:
                for hub in hubs:
                    hub.kill()
                    hub.communicate()
            self.assertFalse(path.exists())

    def test_the_path_may_be_as_long_as_the_system_takes(self) -> None:
        self.make(blocks=64)
        room = 107 - len(os.fsencode(self.folder)) - 1
        with self.running_hub(name="s" * room) as hub:
            self.assertEqual(107, len(os.fsencode(hub.path)))
            with tsd.connect(hub.path) as disk:
                self.assertEqual(63, disk.free())
        with self.running_hub(name="s" * (room + 1)) as hub:
            self.assertEqual(1, hub.ended())
            self.assertIn("107 bytes", hub.log)
            self.assertIn("s" * room, hub.log)

    def test_a_path_that_is_none_is_named(self) -> None:
        self.make(blocks=64)
        with self.running_hub(name="nowhere/disk.sock") as hub:
            self.assertEqual(1, hub.ended())
            self.assertIn("nowhere/disk.sock", hub.log)


class Stops(WithHub):
    """How a hub is stopped."""

    def test_each_signal_ends_it_in_order(self) -> None:
        self.make(blocks=64)
        for number in (signal.SIGHUP, signal.SIGINT, signal.SIGTERM):
            with self.running_hub() as hub:
                client = RawClient(hub.path)
                self.assertEqual(b"\4\x3f\0\0\0", client.ask(FREE))
                hub.process.send_signal(number)
                self.assertEqual((b"\xff\3\0\0\0\0", None), (client.body(), client.body()))
                self.assertEqual(0, hub.ended())
                self.assertEqual([], [name for name in os.listdir(self.folder) if "sock" in name])
                client.close()

    def test_a_disk_that_hangs_is_killed(self) -> None:
        self.make(blocks=64)
        with self.running_hub(["--stop-limit", "1"]) as hub:
            client = RawClient(hub.path)
            self.assertEqual(b"\4\x3f\0\0\0", client.ask(FREE))
            os.kill(hub.disk_process, signal.SIGSTOP)
            hub.process.terminate()
            self.assertEqual(1, hub.ended())
            self.assertIn("status -9", hub.log)
            client.close()

    def test_words_that_are_no_command(self) -> None:
        for words in ([], ["x.img"], ["x.img", "here"], ["x.img", "near", "--per-user", "0"],
                      ["x.img", "near", "--what"], ["x.img", "near", "--idle", "nan"],
                      ["x.img", "near", "--mode", "888"], ["x.img", "near", "--socket"]):
            done = subprocess.run([*self.hub_words, *words], capture_output=True, text=True, timeout=MOST_SECONDS)
            self.assertEqual((2, ""), (done.returncode, done.stdout), words)
            self.assertIn("usage: tsd-hub", done.stderr)
        for word in ("--help", "--version"):
            done = subprocess.run([*self.hub_words, word], capture_output=True, text=True, timeout=MOST_SECONDS)
            self.assertEqual((0, ""), (done.returncode, done.stderr))
        self.assertTrue(done.stdout.startswith(f"tsd-hub {tsd.__version__} ("), done.stdout)


class Systemd(WithHub):
    """The files in contrib."""

    SERVICE = TOP / "contrib" / "tsd-hub@.service"

    def test_a_fault_of_the_image_is_not_tried_again(self) -> None:
        text = self.SERVICE.read_text()
        self.assertIn("\nRestartPreventExitStatus=2 3 4 10\n", text)
        self.assertIn("\nLimitCORE=0\n", text)

    def test_the_service_is_confined(self) -> None:
        if shutil.which("systemd-analyze") is None:
            self.skipTest("there is no systemd-analyze")
        words = ["systemd-analyze", "security", "--offline=true", "--no-pager", str(self.SERVICE)]
        done = subprocess.run(words, capture_output=True, text=True)
        found = re.search(r"Overall exposure level for \S+: ([\d.]+)", done.stdout)
        if found is None:
            self.skipTest(f"systemd-analyze tells nothing: {done.stderr}")
        self.assertLessEqual(float(found[1]), MOST_EXPOSURE, done.stdout)


globals().update(compiled(Greeting, Numbers, Socket, Stops))

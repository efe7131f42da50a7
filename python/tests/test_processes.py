"""The client where there are several processes: after a fork, over a hub that ends and comes again, and with locks."""

from __future__ import annotations

import os
import signal
import socket
import subprocess
import sys
import threading
import time
from pathlib import Path
from typing import List, Tuple

from support import MOST_SECONDS, PYTHON, InFolder, RunningHub, fake, running_hub, tsd, until

from tsd import requests

OF_ADDING = """
import sys, tsd
path, cap, first, second, count = sys.argv[1:]
cap, first, second = tsd.Capability.from_file(cap), int(first), int(second)
with tsd.connect(path) as disk, disk.session() as session:
    session.read(0, cap)
    session.read(first)
    for _ in range(int(count)):
        with session.lock(0, second, cap):
            number = int.from_bytes(session.read(second)[:8], "little")
            session.write(second, (number + 1).to_bytes(8, "little"))
"""

OF_SHARING = """
import multiprocessing, tsd
def send_back(queue, cap):
    queue.put(cap.reveal().hex())
if __name__ == "__main__":
    cap = tsd.Capability(b"\\x70" * 16)
    for method in ("fork", "spawn"):
        context = multiprocessing.get_context(method)
        queue = context.SimpleQueue()
        process = context.Process(target=send_back, args=(queue, cap.share()))
        process.start()
        print(queue.get())
        process.join()
"""


def told_by_child(disk: tsd.Disk, session: tsd.Session, cap: tsd.Capability) -> List[str]:
    """What a child of a fork is told of each use."""
    reading, writing = os.pipe()
    child = os.fork()
    if child == 0:
        told = []
        for call in (disk.free, disk.session, lambda: session.read(0, cap), session.close, disk.close):
            try:
                call()
                told.append("done")
            except BaseException as error:
                told.append(repr(error))
        os.write(writing, "\n".join(told).encode())
        os._exit(0)
    os.close(writing)
    with open(reading) as file:
        text = file.read()
    os.waitpid(child, 0)
    return text.split("\n")


class Forks(InFolder):
    """A disk is for the process that opened it."""

    def check(self, disk: tsd.Disk, pair: tsd.Pair) -> None:
        """A child is refused at each use, and the parent goes on."""
        with disk.session() as session:
            session.write(0, b"parent", pair.write)
            told = told_by_child(disk, session, pair.read)
            refused = f"WrongProcess(opened={os.getpid()}, here"
            self.assertEqual([refused] * 5, [one.rpartition("=")[0] for one in told])
            self.assertEqual(b"parent", session.read(0, pair.read).rstrip(b"\0"))

    def test_over_a_program(self) -> None:
        [pair] = self.make()
        with tsd.open(self.image) as disk:
            self.check(disk, pair)

    def test_over_a_hub(self) -> None:
        [pair] = self.make()
        with running_hub(self.image) as hub, tsd.connect(hub.path) as disk:
            self.check(disk, pair)
        with running_hub(self.image) as hub, tsd.connect(hub.path, reconnect=True) as disk:
            self.check(disk, pair)

    def test_the_error_says_what_to_do(self) -> None:
        self.assertIn("Open another one here: tsd.connect joins a hub", str(tsd.WrongProcess(1, 2)))

    def test_a_child_that_lives_on_holds_nothing_up(self) -> None:
        """The child has copies of the pipes: were they kept, the program would see no end of its input."""
        self.make()
        disk = tsd.open(self.image)
        child = os.fork()
        if child == 0:
            time.sleep(MOST_SECONDS)
            os._exit(0)
        begun = time.monotonic()
        disk.close()
        self.assertLess(time.monotonic() - begun, MOST_SECONDS / 4)
        os.kill(child, signal.SIGKILL)
        os.waitpid(child, 0)

    def test_a_capability_goes_to_a_child(self) -> None:
        script = self.folder / "sharing.py"
        script.write_text(OF_SHARING)
        done = subprocess.run([sys.executable, str(script)], env={**os.environ, "PYTHONPATH": str(PYTHON)}, text=True,
                              capture_output=True, timeout=MOST_SECONDS)
        self.assertEqual("70" * 16 + "\n" + "70" * 16 + "\n", done.stdout + done.stderr)


class Joining(InFolder):
    """Hubs that are full, end and come again."""

    def test_a_full_socket_waits_within_the_limit(self) -> None:
        path = self.folder / "slow.sock"
        with socket.socket(socket.AF_UNIX) as listener:
            listener.bind(str(path))
            listener.listen(0)
            waiting = [socket.socket(socket.AF_UNIX)]
            waiting[0].connect(str(path))
            begun = time.monotonic()
            with self.assertRaises(tsd.Silent):
                tsd.connect(path, limit=0.7)
            self.assertGreater(time.monotonic() - begun, 0.6)
            answering = threading.Thread(target=answer_later, args=(listener,))
            answering.start()
            disk = tsd.connect(path, limit=MOST_SECONDS)
            answering.join()
            disk.close()
            waiting[0].close()

    def test_the_greeting(self) -> None:
        """A hub tells of its disk; one of before tells nothing, and is joined all the same."""
        self.make(blocks=40, sectors=2, primaries=3)
        with tsd.open(self.image) as disk:
            self.assertEqual((1024, 40, 3, 1), disk.geometry)
        with running_hub(self.image) as hub, tsd.connect(hub.path) as disk:
            self.assertIn(disk.geometry, (None, (1024, 40, 3, 1)))
            self.assertEqual(37, disk.free())
        greets = fake("numbers = b''.join(n.to_bytes(4, 'little') for n in (512, 9, 1, 2))\n"
                      "take(); out(b'\\x14\\0\\xff\\4' + numbers + b'..')\n"
                      "take(); out(b'\\5\\0\\4\\7\\0\\0\\0'); take()", is_asked=False)
        with tsd.open("x", program=greets) as disk:
            self.assertEqual(tsd.Greeting(block_length=512, blocks=9, primaries=1, version=2), disk.geometry)
            self.assertEqual(7, disk.free())

    def test_a_greeting_that_nobody_asked_for_is_passed_over(self) -> None:
        code = "take(); out(b'\\x12\\0\\xff\\4' + bytes(16) + b'\\5\\0\\4\\7\\0\\0\\0'); take()"
        with tsd.open("x", program=fake(code)) as disk:
            self.assertEqual(7, disk.free())

    def test_a_hub_that_comes_again(self) -> None:
        [pair] = self.make()
        path = self.image.with_suffix(".sock")
        hub = RunningHub(self.image, path)
        with tsd.connect(path, reconnect=True) as disk:
            session = disk.session()
            session.write(0, b"one", pair.write)
            os.kill(hub.disk_process, signal.SIGSTOP)
            under_way = [session.ask(request) for request in (requests.Write(0, b"two", pair.write), requests.Read(0))]
            hub.process.kill()
            for future, name in zip(under_way, ("Write", "Read")):
                with self.assertRaises(tsd.Unknown) as caught:
                    future.result(MOST_SECONDS)
                self.assertIn(f"whether {name} was carried out isn't known", str(caught.exception))
            os.kill(hub.disk_process, signal.SIGCONT)
            hub.stop()
            until(lambda: not Path(f"/proc/{hub.disk_process}").exists(), "the disk of the hub before ends")
            self.assertRaises(tsd.LinkError, session.read, 0, pair.read)
            [unknown] = disk.take_unknown()
            self.assertEqual((requests.Write, b"two"), (type(unknown), unknown.data))
            self.assertEqual([], disk.take_unknown())
            hubs: List[RunningHub] = []
            coming = threading.Thread(target=lambda: (time.sleep(0.5), hubs.append(RunningHub(self.image, path))))
            coming.start()
            with disk.session() as again:
                self.assertIn(again.read(0, pair.read).rstrip(b"\0"), (b"one", b"two"))
            coming.join()
            self.assertRaises(tsd.LinkError, session.read, 0, pair.read)
            hubs[0].stop()
        self.assertRaises(tsd.Closed, disk.free)

    def test_a_hub_that_does_not_come_again(self) -> None:
        self.make()
        path = self.image.with_suffix(".sock")
        hub = RunningHub(self.image, path)
        disk = tsd.connect(path, limit=0.5, reconnect=True)
        hub.stop()
        until(lambda: disk.failure is not None, "the end of the hub is seen")
        self.assertRaises((OSError, tsd.LinkError), disk.free)
        hub = RunningHub(self.image, path)
        self.assertEqual(63, disk.free())
        disk.close()
        hub.stop()


def answer_later(listener: socket.socket) -> None:
    """Takes what waits, and answers the second one as a hub of before does."""
    time.sleep(0.3)
    first, _ = listener.accept()
    second, _ = listener.accept()
    second.recv(100)
    second.sendall(b"\2\0\x08\0")
    time.sleep(0.2)
    first.close()
    second.close()


class Locks(InFolder):
    """Programs that change one number."""

    def laid_out(self, disk: tsd.Disk, cap: tsd.Capability) -> Tuple[int, int]:
        """A block under block 0, and one under that for the number."""
        with disk.session() as session:
            [first] = session.alloc(0, 1, cap)
            [second] = session.alloc(first)
        return first, second

    def test_no_increment_is_lost(self) -> None:
        """Four processes, fifty increments each, over a hub."""
        [pair] = self.make()
        pair.write.to_file(self.folder / "cap")
        with running_hub(self.image) as hub:
            with tsd.connect(hub.path) as disk:
                first, second = self.laid_out(disk, pair.write)
            words = [sys.executable, "-c", OF_ADDING, hub.path, self.folder / "cap", str(first), str(second), "50"]
            environment = {**os.environ, "PYTHONPATH": str(PYTHON)}
            adding = [subprocess.Popen(words, env=environment) for _ in range(4)]
            self.assertEqual([0] * 4, [one.wait(5 * MOST_SECONDS) for one in adding])
            with tsd.connect(hub.path) as disk, disk.session() as session:
                session.read(0, pair.write)
                session.read(first)
                self.assertEqual(200, int.from_bytes(session.read(second)[:8], "little"))

    def test_what_a_crash_leaves(self) -> None:
        [pair] = self.make()
        with tsd.open(self.image) as disk:
            first, second = self.laid_out(disk, pair.write)
            crashed, other = disk.session(), disk.session()
            for session in (crashed, other):
                session.read(0, pair.write)
                session.read(first)
            crashed.lock(0, second, pair.write).__enter__()
            crashed.close()
            with self.assertRaises(tsd.LockTaken) as caught:
                with other.lock(0, second, pair.write, limit=0.2):
                    pass
            self.assertIn("stays held until that pointer is deleted", str(caught.exception))
            other.delete(0, second, pair.write)
            with self.assertRaises(tsd.NoPointer):
                with other.lock(0, second, pair.write, limit=0.2) as lock:
                    self.assertEqual(f"<lock: the pointer from block 0 to block {second}>", repr(lock))
                    other.delete(0, second, pair.write)
            with self.assertRaises(KeyError):
                with other.lock(0, second, pair.write):
                    raise KeyError
            with other.lock(0, second, pair.write, limit=0.2):
                pass
            other.close()

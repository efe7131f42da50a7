"""What is given wrongly: the error names the argument, and nothing is sent. No error and no log has a capability."""

from __future__ import annotations

import logging
import os
import pickle
import stat
from typing import Any, Callable, List, Tuple

from support import PROGRAM, InFolder, running_hub, tsd

from tsd import disk as disk_module

CAP = tsd.Capability(bytes(range(0x70, 0x80)))
DIGITS = CAP.reveal().hex()
NAN = float("nan")
Calls = List[Tuple[str, Callable[[], Any]]]


class Arguments(InFolder):
    """Each call with an argument of a wrong type, or out of its range."""

    def check(self, kind: type, calls: Calls) -> None:
        """Each call fails so, in words that have the name at their start and no capability."""
        for name, call in calls:
            with self.subTest(name), self.assertRaises(kind) as caught:
                call()
            self.assertTrue(str(caught.exception).startswith(f"{name} is "), str(caught.exception))
            self.assertNotIn(DIGITS, str(caught.exception))

    def test_calls_of_a_session(self) -> None:
        self.make()
        with tsd.open(self.image) as disk, disk.session() as session:
            some: Any = session
            self.check(TypeError, [
                ("block", lambda: some.read("0")), ("cap", lambda: some.read(0, DIGITS)),
                ("cap", lambda: some.read(0, CAP.reveal())), ("data", lambda: some.write(0, "text")),
                ("data", lambda: some.write(0, 5)), ("block", lambda: some.write(None, b"")),
                ("source", lambda: some.alloc(1.5)), ("count", lambda: some.alloc(0, "1")),
                ("hint", lambda: some.alloc(0, 1, None, "7")), ("target", lambda: some.create(0, "1")),
                ("target", lambda: some.delete(0, None)), ("read", lambda: some.set_capabilities(0, DIGITS, CAP)),
                ("write", lambda: some.set_capabilities(0, CAP, None)), ("source", lambda: some.list("0")),
                ("start", lambda: some.list(0, None, "1")), ("session", lambda: disk.session("1")),  # type: ignore
                ("block", lambda: some.read(True)), ("limit", lambda: some.lock(0, 1, limit="soon")),
            ])
            self.check(ValueError, [
                ("block", lambda: some.read(-1)), ("target", lambda: some.create(0, 2**32)),
                ("session", lambda: disk.session(-1)), ("limit", lambda: some.lock(0, 1, limit=0)),
            ])
            self.assertEqual(63, disk.free())
            self.assertEqual(2, disk.session().number)

    def test_opening(self) -> None:
        some: Any = tsd
        self.check(TypeError, [
            ("image", lambda: some.open(None)), ("image", lambda: some.open(b"disk.img")),
            ("limit", lambda: some.open("x", limit=None)), ("limit", lambda: some.open("x", limit="60")),
            ("limit", lambda: some.connect("x", limit=True)), ("path", lambda: some.connect(5)),
            ("program", lambda: some.open("x", program=5)), ("image", lambda: some.format_disk(5, blocks=8)),
            ("blocks", lambda: some.format_disk("x", blocks="8")),
            ("seed", lambda: some.format_disk("x", blocks=8, seed="s")),
            ("slots", lambda: some.format_disk("x", blocks=8, slots=1.5)),
        ])
        self.check(ValueError, [
            ("place", lambda: some.open("x", "here")), ("limit", lambda: some.open("x", limit=NAN)),
            ("limit", lambda: some.open("x", limit=0)), ("limit", lambda: some.open("x", limit=-1)),
            ("limit", lambda: some.connect("x", limit=float("inf"))),
        ])

    def test_capabilities(self) -> None:
        some: Any = tsd.Capability
        self.check(TypeError, [("secret", lambda: some(DIGITS)), ("secret", lambda: some([1] * 16)),
                               ("digits", lambda: some.from_hex(CAP.reveal())), ("path", lambda: some.from_file(3))])
        (self.folder / "cap").write_text("zz")
        with self.assertRaisesRegex(ValueError, "cap: a capability has 32 hexadecimal digits, not 2"):
            tsd.Capability.from_file(self.folder / "cap")

    def test_a_path_in_the_error(self) -> None:
        for path in (self.folder / "none", self.folder / ("x" * 200)):
            with self.assertRaises(OSError) as caught:
                tsd.connect(path)
            self.assertEqual(str(path), caught.exception.filename)


class Secrets(InFolder):
    """What becomes of capabilities."""

    def test_a_file(self) -> None:
        path = self.folder / "cap"
        CAP.to_file(path)
        self.assertEqual((CAP, 0o600), (tsd.Capability.from_file(path), stat.S_IMODE(os.stat(path).st_mode)))
        self.assertRaises(FileExistsError, CAP.to_file, path)
        os.symlink(self.folder / "elsewhere", self.folder / "link")
        self.assertRaises(FileExistsError, CAP.to_file, self.folder / "link")
        self.assertEqual(["cap", "link"], sorted(os.listdir(self.folder)))

    def test_pickles(self) -> None:
        self.assertRaises(TypeError, pickle.dumps, CAP)
        shared = CAP.share()
        there = pickle.loads(pickle.dumps(shared))
        self.assertEqual((CAP, "<capability>", "<capability>"), (there, repr(there), repr(shared)))
        self.assertRaises(TypeError, pickle.dumps, there)

    def test_no_log_has_a_capability(self) -> None:
        [pair] = self.make()
        logger = logging.getLogger("tsd")
        with self.assertLogs(logger, logging.DEBUG) as logs:
            with running_hub(self.image) as hub, tsd.connect(hub.path) as disk, disk.session() as session:
                session.write(0, DIGITS.encode(), pair.write)
                self.assertRaises(tsd.Denied, session.read, 0, CAP)
                session.set_capabilities(0, CAP, CAP, pair.write)
        text = "\n".join(logs.output)
        for secret in (DIGITS, pair.write.reveal().hex(), pair.read.reveal().hex(), repr(CAP.reveal())):
            self.assertNotIn(secret, text)
        opened = f"open: <link to hub at '{hub.path}', open>"
        for word in (opened, "asked: SetCapabilities of session 1", "closed: hub"):
            self.assertIn(word, text)

    def test_opening_warns_of_nothing(self) -> None:
        """Also where the program has no command `group`, and is then asked to serve."""
        self.make()
        self.assertRaises(AssertionError, self.opened_with_warnings)

    def opened_with_warnings(self) -> None:
        """An AssertionError where there are none."""
        disk_module.WITHOUT_GROUP.clear()
        with self.assertLogs("tsd", logging.WARNING), tsd.open(self.image):
            pass

    def test_a_failure_is_logged(self) -> None:
        [pair] = self.make()
        with self.assertLogs("tsd", logging.WARNING) as logs:
            disk = tsd.open(self.image)
            os.kill(disk._link._peer.process, 9)  # type: ignore[attr-defined]
            self.assertRaises(tsd.ProgramEnded, disk.free)
            self.assertRaises(tsd.ProgramEnded, disk.close)
        self.assertIn("failed: program", logs.output[0])

    def test_a_geometry_of_elsewhere(self) -> None:
        """A program of several words may be on another machine: a file of that name here tells nothing of its disk."""
        self.make()
        for program, is_told in ((PROGRAM, True), (["env", PROGRAM], False)):
            with tsd.open(self.image, program=program) as disk:
                self.assertEqual(is_told, disk.geometry is not None)

    def test_all_print(self) -> None:
        self.make()
        disk = tsd.open(self.image)
        session = disk.session()
        self.assertRegex(repr(session), r"^<session 1, open, <link to program '\w+' in process \d+, open>>$")
        session.close()
        disk.close()
        self.assertRegex(repr(disk), r"^<disk, <link to program '\w+' in process \d+, closed>>$")
        self.assertTrue(repr(session).startswith("<session 1, closed, "))

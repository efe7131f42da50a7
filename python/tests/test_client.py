"""The client over the program: each call, each refusal with its numbers, many requests under way, many threads."""

from __future__ import annotations

import os
import subprocess
import threading
import time
import unittest
from typing import List
from unittest import mock

from support import PROGRAM, InFolder, fake, tsd

from tsd import requests
from tsd.errors import Level

# So long a start of Python may take on a busy machine.
QUIET = 5.0
LIMIT = 60.0
MANY = 600


class Calls(InFolder):
    """Each call of a session."""

    def test_worked_session(self) -> None:
        [pair] = self.make(blocks=16)
        with tsd.open(self.image, "near", limit=LIMIT) as disk, disk.session() as session:
            session.write(0, b"hi", pair.write)
            self.assertEqual(b"hi".ljust(512, b"\0"), session.read(0, pair.read))
            self.assertEqual([1, 2, 3], session.alloc(0, 3, pair.write))
            self.assertEqual([5, 6], session.alloc_contiguous(1, 2, hint=5))
            session.create(2, 3)
            self.assertEqual([1, 2, 3], list(session.list(0, pair.write)))
            self.assertEqual([2, 3], list(session.list(0, pair.write, start=2)))
            self.assertEqual(10, disk.free())
            self.assertEqual(0, session.delete(0, 3, pair.write))
            session.create(3, 2)
            self.assertEqual(3, session.delete(0, 1, pair.write))
            self.assertEqual(0, session.delete(0, 2, pair.write))
            self.assertEqual(2, session.sweep(pair.write))
            self.assertEqual(15, session.free())
            new = tsd.Pair(tsd.Capability.new(), tsd.Capability.new())
            session.set_capabilities(0, new.read, new.write, pair.write)
            self.assertRaises(tsd.Denied, session.read, 0, pair.read)
            self.assertEqual(b"hi", session.read(0, new.read)[:2])
        with tsd.open(self.image, limit=LIMIT) as disk, disk.session() as session:
            self.assertEqual(b"hi", session.read(0, new.write)[:2])

    def test_list_goes_through_all_targets(self) -> None:
        [pair] = self.make(blocks=300)
        with tsd.open(self.image, "low", limit=LIMIT) as disk, disk.session() as session:
            for count in (63, 1, 1, 63, 72):
                for part in [32] * (count // 32) + [count % 32] * (count % 32 > 0):
                    session.alloc(0, part, pair.write)
                held = 299 - disk.free()
                self.assertEqual(list(range(1, held + 1)), list(session.list(0, pair.read)))
            self.assertEqual(200, held)
            some = session.list(0, pair.read)
            self.assertEqual([1, 2], [next(some), next(some)])
            with self.assertRaises(tsd.Denied):
                session.list(0)

    def test_sessions_have_numbers_of_their_own(self) -> None:
        self.make()
        with tsd.open(self.image, limit=LIMIT) as disk:
            first, second = disk.session(), disk.session()
            self.assertEqual((1, 2), (first.number, second.number))
            first.close()
            first.close()
            self.assertEqual((1, 9, 3), (disk.session().number, disk.session(9).number, disk.session().number))
            with self.assertRaises(tsd.NotOpen):
                first.read(0)

    def test_what_is_held_ends_with_the_session(self) -> None:
        [pair] = self.make()
        with tsd.open(self.image, limit=LIMIT) as disk:
            with disk.session() as session:
                [block] = session.alloc(0, 1, pair.write)
                session.write(block, b"x")
            with disk.session() as session:
                self.assertRaises(tsd.Denied, session.read, block)

    def test_making_a_disk(self) -> None:
        pairs = self.make(blocks=20, primaries=3, sectors=8, slots=5)
        self.assertEqual(3, len(pairs))
        before = self.image.read_bytes()
        with self.assertRaises(FileExistsError) as refused:
            tsd.format_disk(self.image, blocks=20, primaries=3)
        self.assertIn(str(self.image), str(refused.exception))
        self.assertEqual(before, self.image.read_bytes())
        self.assertEqual(pairs, self.make(blocks=20, primaries=3, overwrite=True))
        self.assertNotEqual(pairs, tsd.format_disk(self.image, blocks=20, primaries=3, overwrite=True))
        with self.assertRaises(tsd.ProgramEnded) as caught:
            self.make(blocks=7, overwrite=True)
        self.assertEqual(2, caught.exception.status)
        self.assertIn("BLOCKS is 8 to 1048576, not 7", caught.exception.words)
        digits = "5f" * 32
        with mock.patch.object(subprocess, "run", side_effect=OSError) as run:
            self.assertRaises(OSError, tsd.format_disk, self.folder / "other.img", blocks=8, seed=bytes.fromhex(digits))
        self.assertNotIn(digits, " ".join(run.call_args.args[0]))

    def test_images_of_any_name(self) -> None:
        self.addCleanup(os.chdir, os.getcwd())
        os.chdir(self.folder)
        for name in ("help", "mirror", "-x", "a b"):
            tsd.format_disk(name, blocks=8)
            with tsd.open(name, limit=LIMIT) as disk:
                self.assertEqual(7, disk.free())


class Refusals(InFolder):
    """Each refusal is an exception of its own, with its numbers."""

    def test_each_rule(self) -> None:
        [pair] = self.make(blocks=12, slots=9)
        write = pair.write
        with tsd.open(self.image, "low", limit=LIMIT) as disk, disk.session() as session:
            self.assertEqual([1, 2, 3, 4, 5, 6, 7], session.alloc(0, 7, write))
            session.delete(0, 6, write)
            with self.subTest("bad-request"):
                self.refused(tsd.BadRequest(), session.write, 0, bytes(4097), write)
            with self.subTest("bad-session"):
                self.refused(tsd.BadSession(), disk.session, 65)
                self.refused(tsd.BadSession(), disk.session, 0)
            for error, call in (
                (tsd.NotOpen(), lambda: disk.ask(requests.Read(0), 7).result()),
                (tsd.AlreadyOpen(), lambda: disk.session(1)),
                (tsd.BadCount(), lambda: session.alloc(0, 33, write)),
                (tsd.BadCount(), lambda: session.alloc_contiguous(0, 0, write)),
                (tsd.BadSize(), lambda: session.write(0, bytes(513), write)),
                (tsd.NoSuchBlock(), lambda: session.read(12)),
                (tsd.FreeBlock(), lambda: session.read(11)),
                (tsd.NotPrimary(), lambda: session.set_capabilities(1, pair.read, write, write)),
                (tsd.IsPrimary(), lambda: session.create(1, 0)),
                (tsd.Denied(Level.READ, Level.WRITE), lambda: session.write(0, b"", pair.read)),
                (tsd.Denied(Level.NONE, Level.READ), lambda: session.read(0)),
                (tsd.Denied(Level.NONE, Level.WRITE), lambda: session.sweep(None)),
                (tsd.PointerExists(), lambda: session.create(0, 1, write)),
                (tsd.NoPointer(), lambda: session.delete(1, 2)),
                (tsd.Full(5, 6), lambda: session.alloc(0, 6, write)),
                (tsd.NoRun(5, 5), lambda: session.alloc_contiguous(0, 5, write)),
                (tsd.PointersFull(6, 9), lambda: session.alloc(0, 4, write)),
            ):
                with self.subTest(repr(error)):
                    self.refused(error, call)
            self.assertEqual(5, disk.free())

    def refused(self, expected: tsd.Refused, call: object, *given: object) -> None:
        """A call that is refused so."""
        with self.assertRaises(type(expected)) as caught:
            call(*given)  # type: ignore[operator]
        self.assertEqual((type(expected), expected.args), (type(caught.exception), caught.exception.args))
        self.assertTrue(str(caught.exception))

    def test_the_numbers_have_names(self) -> None:
        denied = tsd.Denied(Level.READ, Level.WRITE)
        self.assertEqual((Level.READ, Level.WRITE), (denied.attained, denied.needed))
        self.assertEqual("denied: read attained, write needed", str(denied))
        self.assertEqual((5, 9), (tsd.Full(5, 9).free, tsd.NoRun(5, 9).wanted))
        self.assertEqual((5, 9), (tsd.PointersFull(5, 9).held, tsd.PointersFull(5, 9).most))

    def test_all_print(self) -> None:
        self.assertEqual("Denied(attained=read, needed=write)", repr(tsd.Denied(Level.READ, Level.WRITE)))
        self.assertEqual("DiskEnded(status=-9, words='a\\x1b')", repr(tsd.DiskEnded(-9, "a\x1b")))
        self.assertEqual("HubFull(words='16 are yours')", repr(tsd.HubFull("16 are yours")))
        self.assertEqual("Unknown(request=Read(block=3, cap=<capability>), cause=HubStopped())",
                         repr(tsd.Unknown(requests.Read(3, tsd.Capability.new()), tsd.HubStopped())))
        for error in (tsd.DiskEnded(4, "a\x1b[2Jb\nc"), tsd.ProgramEnded(4, "a\x1b[2Jb\nc")):
            self.assertTrue(str(error).endswith("with status 4: a?[2Jb\nc"))

    def test_no_memory(self) -> None:
        program = fake(r"take(); out(b'\1\0\7'); take()")
        with tsd.open("x", program=program, limit=LIMIT) as disk:
            self.assertRaises(tsd.NoMemory, disk.session)


class Together(InFolder):
    """Several requests under way at once."""

    def test_replies_come_to_their_requests(self) -> None:
        [pair] = self.make(blocks=64, sectors=8)
        with tsd.open(self.image, limit=LIMIT) as disk, disk.session() as session:
            blocks = session.alloc(0, 32, pair.write)
            for count in range(MANY):
                session.ask(requests.Write(blocks[count % 32], b"%d" % count))
            reads = [session.ask(requests.Read(blocks[count % 32])) for count in range(MANY)]
            last = {number % 32: number for number in range(MANY)}
            for count, future in enumerate(reads):
                self.assertEqual(b"%d" % last[count % 32], future.result().rstrip(b"\0"))

    def test_closing_waits_for_what_is_under_way(self) -> None:
        [pair] = self.make()
        disk = tsd.open(self.image, limit=LIMIT)
        session = disk.session()
        futures = [session.ask(requests.Write(0, b"%d" % count, pair.write)) for count in range(MANY)]
        disk.close()
        self.assertEqual([None] * MANY, [future.result(0) for future in futures])
        self.assertRaises(tsd.Closed, disk.free)
        disk.close()

    def test_threads(self) -> None:
        [pair] = self.make(blocks=64)
        failures: List[BaseException] = []
        with tsd.open(self.image, limit=LIMIT) as disk:
            def work() -> None:
                try:
                    with disk.session() as session:
                        [block] = session.alloc(0, 1, pair.write)
                        for count in range(60):
                            session.write(block, b"%d of %d" % (count, block))
                            assert session.read(block).rstrip(b"\0") == b"%d of %d" % (count, block)
                except BaseException as error:
                    failures.append(error)
            threads = [threading.Thread(target=work) for _ in range(8)]
            for thread in threads:
                thread.start()
            for thread in threads:
                thread.join()
        self.assertEqual([], failures)


class Ends(InFolder):
    """A program that ends, and peers that are none: errors, and never a hang."""

    def asked(self, code: str, limit: float = 30.0) -> tsd.TsdError:
        """The error of a request to a program of this code; the next one and the closing have it too."""
        disk = tsd.open("x", program=fake(code), limit=limit)
        begun = time.monotonic()
        with self.assertRaises(tsd.LinkError) as caught:
            disk.free()
        with self.assertRaises(type(caught.exception)):
            disk.free()
        with self.assertRaises(type(caught.exception)):
            disk.close()
        self.assertLess(time.monotonic() - begun, 4 * limit + 10)
        return caught.exception

    def test_status_and_words(self) -> None:
        error = self.asked("take(); sys.stderr.write('tsd: device fault\\nwhy\\n'); os._exit(4) if "
                           "sys.stderr.flush() is None else 0")
        assert isinstance(error, tsd.ProgramEnded)
        self.assertEqual((4, "tsd: device fault\nwhy", False), error.args)

    def test_images_that_are_none(self) -> None:
        """Opening them fails, and not only what is asked later."""
        self.image.write_bytes(bytes(100000))
        for image, status, words in ((self.image, 3, "not-formatted"), (self.folder / "no" / "file", 4, "No such")):
            with self.assertRaises(tsd.ProgramEnded) as caught:
                tsd.open(image, limit=LIMIT)
            self.assertEqual(status, caught.exception.status)
            self.assertIn(words, caught.exception.words)

    def test_what_is_said_in_place_of_a_greeting(self) -> None:
        for code, error, limit in (
            ("take(); out(b'\\1\\0\\1'); time.sleep(60)", tsd.NoReply, LIMIT), ("time.sleep(60)", tsd.Silent, QUIET),
            ("take()", tsd.ProgramEnded, LIMIT), ("out(b'\\1\\0\\1'); time.sleep(60)", tsd.NoReply, LIMIT),
        ):
            with self.subTest(code), self.assertRaises(error):
                tsd.open("x", program=fake(code, is_asked=False), limit=limit)

    def test_a_program_that_is_killed(self) -> None:
        error = self.asked("take(); os.kill(os.getpid(), 9)")
        assert isinstance(error, tsd.ProgramEnded)
        self.assertEqual(-9, error.status)

    def test_rubbish(self) -> None:
        for body in (b"", b"\0", b"\xff", b"\1\0", b"\2", b"\2" + bytes(511), b"\3", b"\4\0\0\0", b"\x08", b"\x08\x10",
                     b"\x08\x0a\0\3", b"\x09", b"\xff\1\0\0\0\0"):
            with self.subTest(body.hex()):
                text = len(body).to_bytes(2, "little") + body
                self.assertIs(tsd.NoReply, type(self.asked(f"take(); out({text!r}); time.sleep(60)")))

    def test_another_kind_of_reply(self) -> None:
        self.assertIs(tsd.NoReply, type(self.asked(r"take(); out(b'\1\0\1'); time.sleep(60)")))

    def test_a_reply_to_nothing(self) -> None:
        self.assertIs(tsd.NoReply, type(self.asked(r"take(); out(2 * b'\1\0\1'); time.sleep(60)")))
        disk = tsd.open("x", program=fake(r"out(b'\1\0\1'); time.sleep(60)"), limit=30)
        with self.assertRaises(tsd.NoReply):
            while True:
                disk.free()
        self.assertRaises(tsd.NoReply, disk.close)

    def test_cut_off_frames(self) -> None:
        for text in (b"\5", b"\5\0", b"\5\0\4\1\0\0"):
            error = self.asked(f"take(); out({text!r})")
            assert isinstance(error, tsd.ProgramEnded)
            self.assertEqual((0, True), (error.status, error.is_cut_off))
            self.assertIn("inside a frame", str(error))

    def test_silence(self) -> None:
        for code in ("time.sleep(60)", "take(); out(b'\\5\\0'); time.sleep(60)"):
            error = self.asked(code, limit=QUIET)
            assert isinstance(error, tsd.Silent)
            self.assertEqual(QUIET, error.seconds)

    def test_drops_of_a_frame_are_silence_too(self) -> None:
        code = "take(); out(b'\\xff\\xff')\nwhile True: out(b'\\2'); time.sleep(0.02)"
        self.assertIs(tsd.Silent, type(self.asked(code, limit=QUIET)))

    def test_one_that_takes_nothing(self) -> None:
        disk = tsd.open("x", program=fake("time.sleep(60)"), limit=QUIET)
        with self.assertRaises(tsd.Silent):
            for _ in range(1000):
                disk.ask(requests.Write(0, bytes(4096)), 1)
        self.assertRaises(tsd.Silent, disk.close)

    def test_one_that_closes_its_pipes_and_stays(self) -> None:
        error = self.asked("os.close(0); os.close(1); time.sleep(60)", limit=QUIET)
        assert isinstance(error, tsd.ProgramEnded)
        self.assertEqual(-9, error.status)

    def test_a_long_rest_between_requests_is_no_silence(self) -> None:
        self.make()
        with tsd.open(self.image, limit=3.0) as disk:
            disk.free()
            time.sleep(3.3)
            disk.free()
            self.assertIsNone(disk.failure)

    def test_no_program(self) -> None:
        self.assertRaises(FileNotFoundError, tsd.open, self.image, program=self.folder / "none")
        self.assertRaises(FileNotFoundError, tsd.connect, self.folder / "none")
        with mock.patch.dict(os.environ, {"TSD_PROGRAM": PROGRAM}):
            self.assertRaises(tsd.ProgramEnded, tsd.open, self.folder / "none")

    def test_an_error_inside_is_not_hidden_by_the_closing(self) -> None:
        with self.assertRaisesRegex(KeyError, "mine"):
            with tsd.open("x", program=fake("take()"), limit=30) as disk:
                self.assertRaises(tsd.ProgramEnded, disk.free)
                raise KeyError("mine")


if __name__ == "__main__":
    unittest.main()

"""What the calls of a mounted folder ask of the disk, over the model of tests/. What they answer is tried by the part
`mounts`."""

from __future__ import annotations

import io
import os
import unittest
from typing import List

from model_program import files_of, new_model, puts_of

from tsd.mount.operations import Operations
from tsd.shell.asks import CODES

LONG = bytes(range(256)) * 40


class Asked(unittest.TestCase):
    """Over a tree with a long file and a short one."""

    def setUp(self) -> None:
        model = new_model("inode")
        for path, data in (("/long", LONG), ("/short", b"short")):
            puts_of(model).put(io.BytesIO(data), path)
        self.files = files_of(model)
        self.calls = Operations(self.files, 4000)

    def asked(self) -> List[str]:
        """What was asked since it was last told."""
        names = {code: name for name, code in CODES.items()}
        bodies = self.files._program.bodies  # type: ignore[attr-defined]
        asked = [names[body[0]] for body in bodies]
        bodies.clear()
        return asked

    def test_a_size_is_one_ask_and_reads_nothing(self) -> None:
        for path, size in (("/long", len(LONG)), ("/short", 5)):
            self.assertEqual(size, self.calls("getattr", path)["st_size"])
            self.assertEqual(["size"], self.asked())
            self.assertEqual(size, self.calls("getattr", path)["st_size"])
            self.assertEqual([], self.asked())

    def test_a_file_that_is_emptied_is_not_read(self) -> None:
        handle = self.calls("open", "/long", os.O_WRONLY | os.O_TRUNC)
        self.calls("write", None, b"new", 0, handle)
        self.calls("release", None, handle)
        self.assertEqual(["size", "put"], [name for name in self.asked() if name != "df"])
        self.assertEqual(3, self.calls("getattr", "/long")["st_size"])

    def test_a_file_that_is_opened_is_read_once(self) -> None:
        for _ in range(2):
            handle = self.calls("open", "/long", os.O_RDONLY)
            self.assertEqual(LONG[5000:], self.calls("read", None, len(LONG), 5000, handle))
            self.calls("release", None, handle)
        self.assertEqual(["size", "cat"], self.asked())

"""The shell's program as the model of tests/, in this process: to be cut off at each ask, and to have any room."""

from __future__ import annotations

from typing import Iterator, List, Optional

import support  # noqa: F401  (it makes the folder of the model one to import from)
from file_model import FileModel

from tsd.errors import LinkError
from tsd.shell.files import Files
from tsd.shell.program import ShellProgram
from tsd.shell.puts import Puts
from tsd.shell.refusals import Limits, refusal

LENGTH = 512
# Answers come in pieces that end inside a byte and inside a letter.
PIECE = 1001


class Gone(LinkError):
    """The program was killed before an ask, or behind it."""


class ModelProgram(ShellProgram):
    """Answers by a model; after so many asks it is gone."""

    def __init__(self, model: FileModel, asks: Optional[int] = None) -> None:
        self.model = model
        self.left = asks
        self.bodies: List[bytes] = []

    def pieces(self, body: bytes) -> Iterator[bytes]:
        if self.left is not None:
            if self.left == 0:
                raise Gone
            self.left -= 1
        self.bodies.append(body)
        answer = self.model.answer_body(body).rstrip(b"\n")
        if answer.startswith(b"no "):
            raise refusal(answer[3:].decode())
        for at in range(0, len(answer), PIECE):
            yield answer[at:at + PIECE]


def new_model(kind: str) -> FileModel:
    """An empty tree over blocks of 512 bytes, with much room."""
    model = FileModel(kind, LENGTH, 4000, 0, 16000)
    assert model.answer(b"mkfs") == b"ok\n"
    return model


def files_of(model: FileModel, asks: Optional[int] = None, knows_length: bool = True) -> Files:
    """Files over a model."""
    return Files(ModelProgram(model, asks), Limits(model.kind, LENGTH if knows_length else None))


def puts_of(model: FileModel, asks: Optional[int] = None) -> Puts:
    """Puts over a model."""
    return Puts(files_of(model, asks))


def content_of(files: Files, path: str) -> bytes:
    """The bytes of a file."""
    return b"".join(files.get(path))

"""The program `tsd`: where it is, and how it is started so that no capability stands on a command line."""

from __future__ import annotations

import errno
import os
import shutil
import signal
import stat
import subprocess
import tempfile
from contextlib import contextmanager
from pathlib import Path
from typing import IO, Iterator, List, Optional, Sequence, Tuple, Union

from tsd.arguments import PathWord, content, kind_of, path_word, whole_number
from tsd.capability import Capability, Pair
from tsd.errors import ProgramEnded

Program = Union[None, PathWord, Sequence[str]]
PLACES = ("low", "near", "spread", "zone")
COMMAND_WORDS = ("help", "mirror")
PROGRAM_VARIABLE = "TSD_PROGRAM"
SEED_BYTES = 32
MOST_WORDS = 4096
MOST_SECONDS = 600


def program_words(program: Program = None) -> List[str]:
    """The first words of a command: those given (a path, or words such as `["ssh", "HOST", "tsd"]`), else the
    variable TSD_PROGRAM, else the program that was installed with this package or stands in its clone, else `tsd` on
    the path."""
    if isinstance(program, (str, os.PathLike)):
        return [os.fspath(program)]
    if program is not None:
        if not isinstance(program, Sequence) or not all(isinstance(word, str) for word in program) or not program:
            raise TypeError(f"program is a path or a list of words, not {kind_of(program)}")
        return list(program)
    if os.environ.get(PROGRAM_VARIABLE):
        return [os.environ[PROGRAM_VARIABLE]]
    folder = Path(__file__).resolve().parent.parent
    beside = [folder.parent / "tsd"] + [above / "bin" / "tsd" for above in list(folder.parents)[2:3]]
    found = next((str(path) for path in beside if path.is_file() and os.access(path, os.X_OK)), None)
    found = found or shutil.which("tsd")
    if found is None:
        raise FileNotFoundError(f"no program tsd was found; {PROGRAM_VARIABLE} may name it")
    return [found]


def image_word(image: PathWord) -> str:
    """The image as a word that the program takes for no other: `help`, `mirror` and what begins with a dash get a
    `./`."""
    word = path_word(image, "image")
    return f"./{word}" if word != "-" and (word.startswith("-") or word in COMMAND_WORDS) else word


def words_of(error: IO[bytes]) -> str:
    """What a program has put on standard error, which is a file."""
    error.seek(0)
    return error.read(MOST_WORDS).decode(errors="replace").strip()


def kill_session(process: int) -> None:
    """Ends a program that was started in a session of its own, with what it has started itself in there."""
    try:
        os.killpg(process, signal.SIGKILL)
    except ProcessLookupError:
        pass


@contextmanager
def secret_word(digits: str) -> Iterator[Tuple[str, int]]:
    """A word `@FILE` that stands for these digits, and the descriptor that the child needs for it: a pipe, so that
    the digits stand neither on a command line nor in a file."""
    reading, writing = os.pipe()
    try:
        os.write(writing, digits.encode() + b"\n")
        os.close(writing)
        yield f"@/dev/fd/{reading}", reading
    finally:
        os.close(reading)


def refuse_content(image: PathWord) -> None:
    """Raises FileExistsError where a new disk would take the place of something."""
    try:
        found = os.stat(path_word(image, "image"))
    except FileNotFoundError:
        return
    if stat.S_ISBLK(found.st_mode) or found.st_size:
        raise FileExistsError(errno.EEXIST, "it isn't empty, and overwrite=True wasn't given", os.fspath(image))


def format_disk(
    image: PathWord,
    *,
    blocks: int,
    sectors: int = 1,
    slots: Optional[int] = None,
    primaries: int = 1,
    seed: Optional[bytes] = None,
    program: Program = None,
    overwrite: bool = False,
) -> List[Pair]:
    """Makes a disk in the image by `tsd IMAGE format`; the capabilities of each primary block. FileExistsError where the
    image is a device or a file that isn't empty, unless `overwrite` lets that be lost, whatever it is. Blocks have so
    many sectors of 512 bytes; there are four pointer slots for each block where nothing else is said. Without a seed
    of 32 bytes the capabilities can't be guessed. ProgramEnded where it isn't made."""
    digits = (os.urandom(SEED_BYTES) if seed is None else content(seed, "seed")).hex()
    blocks = whole_number(blocks, "blocks")
    slots = 4 * blocks if slots is None else whole_number(slots, "slots")
    numbers = map(str, (blocks, whole_number(sectors, "sectors"), slots, whole_number(primaries, "primaries")))
    if not overwrite:
        refuse_content(image)
    option = ["--overwrite"] if overwrite else []
    with secret_word(digits) as (word, reading), tempfile.TemporaryFile() as error:
        command = program_words(program) + [*option, image_word(image), "format", *numbers, word]
        done = subprocess.run(command, stdin=subprocess.DEVNULL, stdout=subprocess.PIPE, stderr=error,
                              pass_fds=(reading,), timeout=MOST_SECONDS)
        if done.returncode != 0:
            raise ProgramEnded(done.returncode, words_of(error))
    lines = [line.split() for line in done.stdout.decode().splitlines()]
    return [Pair(Capability.from_hex(read), Capability.from_hex(write)) for _, _, read, write in lines]

"""Capabilities: 16 bytes that never print themselves."""

from __future__ import annotations

import hmac
import os
import secrets
from typing import Any, NamedTuple, Tuple

from tsd.arguments import PathWord, kind_of, path_word

LENGTH = 16
MOST_FILE_BYTES = 4096
MODE = 0o600


class Capability:
    """The 16 bytes that a request shows at a primary block.

    It prints as `<capability>`, is compared in a time that doesn't depend on its bytes, and can't be pickled unless it
    was shared; `reveal` alone gives its bytes.
    """

    __slots__ = ("_secret",)

    def __init__(self, secret: bytes) -> None:
        """Of 16 bytes; ValueError for any other number of them."""
        if not isinstance(secret, (bytes, bytearray)):
            raise TypeError(f"secret is bytes, not {kind_of(secret)}")
        if len(secret) != LENGTH:
            raise ValueError(f"a capability has {LENGTH} bytes, not {len(secret)}")
        self._secret = bytes(secret)

    @classmethod
    def new(cls) -> Capability:
        """One that nobody can guess, from the system's source of random bytes."""
        return cls(secrets.token_bytes(LENGTH))

    @classmethod
    def from_hex(cls, digits: str) -> Capability:
        """Of 32 hexadecimal digits of either case; the text of a ValueError has none of them."""
        if not isinstance(digits, str):
            raise TypeError(f"digits is a text, not {kind_of(digits)}")
        if len(digits) != 2 * LENGTH:
            raise ValueError(f"a capability has {2 * LENGTH} hexadecimal digits, not {len(digits)} characters")
        try:
            return cls(bytes.fromhex(digits))
        except ValueError:
            raise ValueError("a character of the capability is no hexadecimal digit") from None

    @classmethod
    def from_file(cls, path: PathWord) -> Capability:
        """The first word of a file, as 32 hexadecimal digits; a ValueError names the file."""
        name = path_word(path, "path")
        with open(name, "rb") as file:
            words = file.read(MOST_FILE_BYTES).split()
        if not words:
            raise ValueError(f"{name} has no word")
        try:
            return cls.from_hex(words[0].decode("latin-1"))
        except ValueError as error:
            raise ValueError(f"{name}: {error}") from None

    def to_file(self, path: PathWord) -> None:
        """Writes it to a new file that its owner alone reads (mode 600), for `from_file` and the program's `@FILE`;
        FileExistsError where something is there."""
        name = path_word(path, "path")
        file = os.open(name, os.O_WRONLY | os.O_CREAT | os.O_EXCL, MODE)
        try:
            os.fchmod(file, MODE)
            with os.fdopen(os.dup(file), "wb") as text:
                text.write(self._secret.hex().encode() + b"\n")
            os.fsync(file)
        except BaseException:
            os.unlink(name)
            raise
        finally:
            os.close(file)

    def share(self) -> Capability:
        """The same one, for another process: it can be pickled, as multiprocessing does with what it hands to a child.
        What comes out there can't be, unless it is shared again."""
        return SharedCapability(self._secret)

    def reveal(self) -> bytes:
        """Its 16 bytes. Whoever has them has the capability."""
        return self._secret

    def __eq__(self, other: object) -> bool:
        if not isinstance(other, Capability):
            return NotImplemented
        return hmac.compare_digest(self._secret, other._secret)

    def __hash__(self) -> int:
        return hash(self._secret)

    def __repr__(self) -> str:
        return "<capability>"

    def __reduce__(self) -> Tuple[Any, ...]:
        raise TypeError("a capability can't be pickled; share() gives one that can")


class SharedCapability(Capability):
    """One that may go to another process."""

    __slots__ = ()

    def __reduce__(self) -> Tuple[Any, ...]:
        return Capability, (self._secret,)


class Pair(NamedTuple):
    """The two capabilities of a primary block."""

    read: Capability
    write: Capability

"""Text that a terminal may see. Names, refusals and words come from others: none of them says anything to the terminal
itself."""

from __future__ import annotations

import unicodedata

CONTROL = "Cc"
UNKNOWN = "?"


def plain(text: str) -> str:
    """One line: each character that isn't printed, as a control byte, is a question mark."""
    return "".join(each if each.isprintable() else UNKNOWN for each in text)


def plain_lines(text: str) -> str:
    """Lines that are so."""
    return "\n".join(plain(line) for line in text.split("\n"))


def plain_content(text: str) -> str:
    """The content of a file: control characters but tabs and line feeds are question marks. All others stay, those that
    join letters or turn the direction of writing too."""
    return "".join(each if each in "\t\n" or unicodedata.category(each) != CONTROL else UNKNOWN for each in text)

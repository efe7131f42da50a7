"""The documents as a whole: what is made of the sources is up to date, links lead somewhere, a name in back quotes is a
name of the repository, and each block that says what it prints is run by a test."""

from __future__ import annotations

import re
import subprocess
import sys
from pathlib import Path
from typing import Iterator, List, NamedTuple, Set

import tour
from parts import Context, Result, compared

NAME = "pages"
# The pages of the repository, but for what the toolchain and cargo make.
PAGES = ("*.md", "docs/*.md", "examples/*.md", "python/*.md", "clients/*.md", "hub/*.md", "man/*.1")
# README is to be read in ten minutes.
MOST_OF_README = 11264
# Where names stand that pages may use.
SOURCES = ("crates/*/src/**/*.rt", "crates/*/specs/**/*.antt", "crates/*/proofs/**/*.antt", "tests/**/*", "tools/*",
           "bench/**/*", "python/**/*", "clients/**/*", "hub/**/*", "contrib/**/*", "completions/*", "examples/*.py",
           "crates.txt", "Makefile", "dev", "tsd", "test", ".ci/run", "man/*.1")
# Pages that name much of other programs, and other programs' names elsewhere.
OF_OTHERS = ("docs/STORAGE.md", "docs/VIRTUAL_DISKS.md", "docs/RELEASE.md")
FOREIGN = frozenset({"fuse3", "posix_fadvise", "vVERSION"})
# Pages whose blocks another test runs than `tour`: python/tests/test_documents.py.
RUN_ELSEWHERE = re.compile(r"^(examples/\w+|python/README)\.md$")
FENCED = re.compile(r"^ *```(?P<kind>\w*)\n(?P<text>.*?)^ *```$", re.MULTILINE | re.DOTALL)
PRINTING = re.compile(r"^```(?:sh|python)\n(?:(?!```).)*?^```\n\s*^```\n", re.MULTILINE | re.DOTALL)
SPAN = re.compile(r"`([^`\n]+)`")
LINK = re.compile(r"\]\((?P<page>[^)#:\s]*)(?:#(?P<place>[^)\s]+))?\)")
HEADING = re.compile(r"^#+ (.*)$", re.MULTILINE)
# What looks like a name of code: with an underscore, of several words in capitals, or with colons.
CODE_NAME = re.compile(r"\b(?:[A-Za-z]\w*(?:::[A-Za-z]\w*)+|[a-z]+(?:_[a-z0-9]+)+|[A-Z][a-z0-9]+(?:[A-Z][a-z0-9]*)+)\b")
WORD = re.compile(r"\w+")
LONE_WORD = re.compile(r"[A-Za-z]\w+")


class Page(NamedTuple):
    """A page: its name from the top, and its text."""

    name: str
    text: str


def pages(top: Path) -> List[Page]:
    """All pages, by name."""
    found = {path for pattern in PAGES for path in top.glob(pattern)}
    return [Page(str(path.relative_to(top)), path.read_text()) for path in sorted(found)]


def known_words(top: Path) -> Set[str]:
    """The words of all sources, and the parts of the names of their files."""
    found: Set[str] = set()
    for path in {path for pattern in SOURCES for path in top.glob(pattern) if path.is_file()}:
        if "out" not in path.parts and "target" not in path.parts:
            found.update(WORD.findall(str(path.relative_to(top))))
            found.update(WORD.findall(path.read_text(errors="replace")))
    return found


def without_blocks(text: str) -> str:
    """A page's text without its blocks, each of which leaves as many empty lines."""
    return FENCED.sub(lambda block: "\n" * block[0].count("\n"), text)


def unknown_names(page: Page, known: Set[str]) -> List[str]:
    """The names of code in back quotes that stand in no source, with their lines."""
    found = []
    for number, line in enumerate(without_blocks(page.text).splitlines(), 1):
        for span in SPAN.findall(line):
            names = {part for name in CODE_NAME.findall(span) for part in WORD.findall(name)}
            names.update({span} if LONE_WORD.fullmatch(span) else ())
            found += [f"line {number}: {name}" for name in sorted(names - known - FOREIGN)]
    return found


def anchor(heading: str) -> str:
    """The place of a heading, as browsers of repositories name it."""
    return re.sub(r"[^\w\- ]", "", heading.lower()).replace(" ", "-")


def dead_links(page: Page, top: Path) -> List[str]:
    """The links within the repository that lead nowhere."""
    found = []
    for link in LINK.finditer(without_blocks(page.text)):
        path = (top / page.name).parent / link["page"] if link["page"] else top / page.name
        if not path.exists():
            found.append(link[0])
        elif link["place"] and link["place"] not in map(anchor, HEADING.findall(without_blocks(path.read_text()))):
            found.append(link[0])
    return found


def unrun_blocks(page: Page) -> List[str]:
    """The lines of blocks below which stands what they print, and which no test runs."""
    run = {block.line for name, section in tour.SECTIONS if name == page.name
           for block in tour.blocks_of(page.text, section)}
    lines = {page.text.count("\n", 0, found.start()) + 1 for found in PRINTING.finditer(page.text)}
    return [] if RUN_ELSEWHERE.match(page.name) else [f"line {line}" for line in sorted(lines - run)]


def made_of_the_sources(top: Path) -> Result:
    """The table of crates and the page of clauses are what the sources make of them."""
    done = subprocess.run([sys.executable, str(top / "tools" / "map"), "--check"], capture_output=True, text=True)
    return compared("tools/map --check", (0, ""), (done.returncode, done.stderr))


def what_is_found(context: Context) -> Result:
    """A dead link, a dead place, a name that stands nowhere and a block that no test runs are found in such a page."""
    text = ("# One\n\n[a](gone.md) [b](#one) [c](#two) [d](README.md#one) `known` `un_known`\n\n"
            "```sh\ntrue\n```\n\n```\nprinted [e](gone.md) `un_known`\n```\n")
    (context.folder / "README.md").write_text(text)
    page = Page("README.md", text)
    found = (dead_links(page, context.folder), unknown_names(page, {"known"}), unrun_blocks(page._replace(name="a.md")))
    return compared("what is looked for is found",
                    (["](gone.md)", "](#two)"], ["line 3: un_known"], ["line 5"]), found)


def run(context: Context) -> Iterator[Result]:
    """Results for each page."""
    known = known_words(context.top)
    yield what_is_found(context)
    yield made_of_the_sources(context.top)
    for page in pages(context.top):
        if page.name.endswith(".md"):
            yield compared(f"{page.name}: links", [], dead_links(page, context.top))
            yield compared(f"{page.name}: blocks that print something", [], unrun_blocks(page))
        if page.name not in OF_OTHERS and not page.name.endswith(".1"):
            yield compared(f"{page.name}: names in back quotes", [], unknown_names(page, known))
    yield compared("README.md is short", True, len((context.top / "README.md").read_bytes()) <= MOST_OF_README)

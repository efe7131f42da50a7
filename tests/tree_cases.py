"""The worlds of trees.txt, with the trees that they hold and some asks."""

from __future__ import annotations

import re
from pathlib import Path
from typing import Dict, Iterator, List, NamedTuple, Optional

from disk_model import SECTOR, Geometry, World
from file_model import FileModel
from file_text import parse_path
from file_trees import Plain, plain, read_tree
from image_writer import Image
from parts import Context, Result, compared, failed
from program import Program, write_image

PACKED = re.compile(r"\(([0-9a-f]{2})\*(\d+)\)")
READ_CAP, WRITE_CAP = b"\xaa" * 16, b"\xbb" * 16


class TreeCase(NamedTuple):
    """A world, its tree, and an ask with its answer where there is one."""

    name: str
    kind: str
    world: World
    tree: Optional[Plain]
    ask: Optional[bytes]
    answer: Optional[bytes]


def unpacked(word: str) -> bytes:
    """The bytes of a word; `-` stands for none."""
    return b"" if word == "-" else bytes.fromhex(PACKED.sub(lambda found: found[1] * int(found[2]), word))


def put_path(tree: Dict[bytes, Plain], words: List[str]) -> None:
    """Puts a line of a tree into it."""
    path = parse_path(words[1].encode())
    if not path:
        return
    above: Plain = tree
    for name in path[:-1]:
        above = above[name]  # type: ignore[index]
    is_file = words[0] == "file"
    above[path[-1]] = unpacked(words[2] if len(words) > 2 else "") if is_file else {}  # type: ignore[index]


def parse_case(number: int, text: str) -> TreeCase:
    """A case of the file."""
    lines = [line.split(" ") for line in text.splitlines() if line]
    kind, blocks, slots = lines[0][1], int(lines[0][3]), int(lines[0][5])
    rest: Dict[str, List[List[str]]] = {}
    for words in lines[1:]:
        rest.setdefault(words[0], []).append(words)
    live = {int(words[1]): unpacked("".join(words[2:])).ljust(SECTOR, b"\0") for words in rest["block"]}
    ends = [word.split(">") for word in rest["pairs"][0][1:] if word != "-"]
    pairs = {(int(source), int(target)) for source, target in ends}
    tree: Optional[Dict[bytes, Plain]] = None if "none" in rest else {}
    for words in rest.get("dir", []) + rest.get("file", []):
        assert tree is not None
        put_path(tree, words)
    world = World(Geometry(1, blocks, 1, slots), 1, live, pairs, (READ_CAP + WRITE_CAP,))
    said = [" ".join(rest[word][0][1:]).encode() if word in rest else None for word in ("ask", "answer")]
    return TreeCase(f"tree {number} of trees.txt, {kind}", kind, world, tree, said[0], said[1])


def cases(path: Path) -> Iterator[TreeCase]:
    """The cases of the file."""
    for number, text in enumerate(path.read_text().split("\ncase ")[1:], 1):
        yield parse_case(number, "case " + text)


def unpacked_ask(ask: bytes) -> bytes:
    """The line of an ask."""
    return PACKED.sub(lambda found: found[1] * int(found[2]), ask.decode()).encode()


def model_result(case: TreeCase) -> Result:
    """The model of tests/ reads this tree, and answers so."""
    found = read_tree(case.world, case.kind, 0)
    read = compared(f"{case.name}, by the model", case.tree, None if found is None else plain(found))
    if read.text or case.ask is None or case.answer is None:
        return read
    answer = FileModel.mounted(case.kind, case.world, 0).answer(unpacked_ask(case.ask))
    return compared(f"{case.name}, by the model", unpacked_ask(case.answer) + b"\n", answer)


def is_tidy(case: TreeCase) -> bool:
    """Whether no block or pointer is there but the tree's."""
    model = FileModel.mounted(case.kind, case.world, 0)
    return case.tree is not None and (model.base_free, model.base_held) == (case.world.geometry[1] - 1, 0)


def program_result(case: TreeCase, context: Context, program: Program) -> Result:
    """The program mounts an image of the world, and answers so."""
    name = f"{case.name}, by the program"
    if case.ask is None or case.answer is None:
        return failed(name, "it has no ask")
    path = context.folder / "tree.img"
    write_image(path, Image(case.world).bytes)
    words = [path, "shell", case.kind, "0", WRITE_CAP.hex(), "near"]
    run = program.run(words, unpacked_ask(case.ask))
    return compared(name, (0, unpacked_ask(case.answer) + b"\n", b""), tuple(run))

"""A plain model of the command `copyfs`, from docs/FILES.md alone: the steps of a copy as lines of the shell, the trees
on its way, and the line that it puts. The target's tree is carried out by the model of the shell."""

from __future__ import annotations

from typing import Dict, Iterator, List, NamedTuple, Optional, Set, Tuple

from disk_model import SECTOR, World, doomed
from file_model import FileModel
from file_text import CHAIN
from file_trees import Plain, plain, read_tree

PIECE = 4096


class Side(NamedTuple):
    """A tree of files: its layout and its root."""

    kind: str
    root: int


class Ended(NamedTuple):
    """How a copy ends: its line, what stands under the target's root before it and after each of its steps, and how
    many blocks are free and pointers held then. `is_begun`: a step was made."""

    line: bytes
    trees: List[Optional[Plain]]
    free: int
    held: int
    is_begun: bool


def tree_under(world: World, side: Side) -> Optional[Plain]:
    """The tree under a root; none where there is none."""
    found = read_tree(world, side.kind, side.root)
    return None if found is None else plain(found)


def reached_from(world: World, root: int) -> Set[int]:
    """The blocks to which a way of pointers leads from a root, itself among them."""
    targets: Dict[int, List[int]] = {}
    for source, target in world.pairs:
        targets.setdefault(source, []).append(target)
    found, rest = {root}, [root]
    while rest:
        new = set(targets.get(rest.pop(), ())) - found
        found |= new
        rest += new
    return found


def entries_of(tree: Plain, path: bytes = b"") -> Iterator[Tuple[bytes, Plain]]:
    """Each path of a tree but `/` and what stands there: depth first, by ascending names."""
    assert isinstance(tree, dict)
    for name in sorted(tree):
        here = path + b"/" + name
        yield here, tree[name]
        if isinstance(tree[name], dict):
            yield from entries_of(tree[name], here)


def steps_of(tree: Plain) -> Iterator[bytes]:
    """The steps of a copy, as lines of the shell."""
    yield b"mkfs"
    for path, node in entries_of(tree):
        if isinstance(node, dict):
            yield b"mkdir " + path
            continue
        yield b"put %s %s" % (path, node[:PIECE].hex().encode() or b"-")
        for at in range(PIECE, len(node), PIECE):
            yield b"append %s %s" % (path, node[at:at + PIECE].hex().encode())


def emptied(world: World, side: Side) -> FileModel:
    """The file system of a side over a world in which nothing hangs from its root any more."""
    k, n, p, m = world.geometry
    pairs = {pair for pair in world.pairs if pair[0] != side.root}
    gone = doomed(world.blocks, pairs, p)
    held = sum(source not in gone for source, _ in pairs)
    return FileModel(side.kind, SECTOR * k, n - len(world.blocks) + len(gone), held, m)


def refused_early(world: World, source: Side, target: Side) -> Optional[bytes]:
    """The words of the first refusal for which no step is made, if one applies."""
    shared = reached_from(world, source.root) & reached_from(world, target.root)
    if shared:
        return b"shared %d" % min(shared)
    tree = tree_under(world, source)
    if tree is None:
        return b"not-this-fs"
    directories = [path for path, node in entries_of(tree) if isinstance(node, dict)]
    return b"nested " + directories[0] if target.kind == CHAIN and directories else None


def copied_line(tree: Plain) -> bytes:
    """The line of a tree that was copied."""
    files = [node for _, node in entries_of(tree) if isinstance(node, bytes)]
    return b"copied %d %d\n" % (len(files), sum(map(len, files)))


def ended(world: World, source: Side, target: Side, every: bool = True) -> Ended:
    """How a copy ends whose source is tidy; of the trees on its way only the last where `every` isn't wanted."""
    before = tree_under(world, target)
    early = refused_early(world, source, target)
    if early is not None:
        return Ended(b"no %s\n" % early, [before], world.geometry[1] - len(world.blocks), len(world.pairs), False)
    tree = tree_under(world, source)
    assert tree is not None
    model, trees, line = emptied(world, target), [before], copied_line(tree)
    for step in steps_of(tree):
        answer = model.answer(step)
        if answer != b"ok\n":
            line = answer
            break
        if every:
            trees.append(model.tree())
    if not every:
        trees.append(model.tree())
    return Ended(line, trees, model.free, model.held, True)


def looks_at(tree: Plain) -> Tuple[List[bytes], List[bytes]]:
    """Lines of the shell that look at all of a tree, and their answers."""
    lines, answers = [], []
    for path, node in [(b"/", tree), *entries_of(tree)]:
        is_file = isinstance(node, bytes)
        lines.append((b"cat " if is_file else b"ls ") + path)
        words = [b"data", node.hex().encode() or b"-"] if is_file else [b"names", *(sorted(node) or [b"-"])]
        answers.append(b" ".join(words))
    return lines, answers

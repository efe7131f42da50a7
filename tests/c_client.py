"""The client for C in clients/c, compiled: the cases of clients/cases.txt over the program and over a
hub, one request after another and all at once; each body of a reply; links that end; each call of the header; the
example; that a capability leaves no trace; and, where valgrind is installed, all of it without an error in memory."""

from __future__ import annotations

import os
import shutil
import subprocess
from pathlib import Path
from typing import Dict, Iterator, List, NamedTuple

from case_table import Table, forgets, make_disk, other_side, read_table, running_hub, written_out
from parts import Context, Result, compared, failed, skipped

NAME = "c_client"
FLAGS = ("-std=c11", "-Wall", "-Wextra", "-pedantic", "-O2")
SOURCES = {
    "run_cases": ("tests/run_cases.c",),
    "worked": ("examples/worked.c", "tsd.c"),
    "forgets": ("tests/forgets.c", "tsd.c"),
}
MOST_SECONDS = 120
VALGRIND = ("valgrind", "--quiet", "--error-exitcode=99", "--leak-check=full")
WORKED = "a\ntype-safe\ndisk\ndenied: none attained, write needed\n1 gone\n13 blocks are free\n"
CALLS = """open 0
write 0
read 0
hello of 512
alloc 0 1 2
contiguous 0 9
create 0
list 0 2 9
delete 0 1
sweep 0 0
free 0 13
set 0
refused 1
denied: none attained, write needed
more than a frame has room for 1
bad-request
geometry 1
nothing to take 4
busy 4
taken 0
held 0
released 0
taken 0
nothing has come 0
a reply has come 1
taken 0
equal 1
not equal 0
close session 0
close 1
"""


class Client(NamedTuple):
    """How the compiled programs are run: over which program, and behind which words."""

    context: Context
    folder: Path
    before: List[str]

    def run(self, name: str, *words: object, text: str = "") -> str:
        """What one of them prints; with its status and standard error, where these aren't as they should be."""
        environment = {**os.environ, "TSD_PROGRAM": str(self.context.program)}
        command = [*self.before, str(self.folder / name), *map(str, words)]
        done = subprocess.run(command, input=text, capture_output=True, text=True, env=environment,
                              timeout=MOST_SECONDS)
        return done.stdout + (f"status {done.returncode}\n" if done.returncode else "") + done.stderr


def tried_cases(client: Client, table: Table, name: str) -> Iterator[Result]:
    """Each case over the program and a hub, one request after another, together, and held back until they go out at
    once."""
    context, image = client.context, client.folder / "disk.img"
    for case in table.cases:
        expected = [reply for _, reply in case.steps] + ["closed"]
        for together in ([], ["together"], ["held"]):
            label = ", ".join([f"{name}{case.name}", *together])
            caps = make_disk(context.program, image, case.size)
            text = "".join(written_out(request, caps) + "\n" for request, _ in case.steps)
            found = client.run("run_cases", "program", image, *together, text=text)
            yield compared(f"{label}, by the program", expected, found.splitlines())
            if case.is_alone or client.before:
                continue
            make_disk(context.program, image, case.size)
            with running_hub(context.top, context.program, image) as path:
                found = client.run("run_cases", "hub", path, *together, text=text)
            yield compared(f"{label}, by a hub", expected, found.splitlines())


def tried_links(client: Client, table: Table, name: str) -> Iterator[Result]:
    """Each body of a reply, and each link that ends."""
    text = "".join(body.hex() + "\n" for body, _ in table.replies)
    expected = [reply for _, reply in table.replies]
    yield compared(f"{name}each body of a reply", expected, client.run("run_cases", "replies", text=text).splitlines())
    for link in table.links:
        kind = "hub" if link.is_hub else "program"
        with other_side(client.folder, link) as path:
            found = client.run("run_cases", "link", kind, path).splitlines()
        label = f"{name}a {kind} that sends {link.sent[:12].hex() or 'nothing'} and ends with {link.status}"
        yield compared(label, link.end, found[0] if found else "nothing")
        if link.end == "program-ended 4":
            words = "the disk's program ended with status 4: tsd: device fault"
            yield compared(f"{label}, in words", ["not good", words], found[1:])


def tried_calls(client: Client, name: str) -> Iterator[Result]:
    """Each call of the header, and the example over the program and over a hub."""
    context, image, cap = client.context, client.folder / "disk.img", client.folder / "cap"

    def fresh() -> None:
        cap.write_text(make_disk(context.program, image, ["16", "1", "64", "1"])[1] + "\n")

    fresh()
    yield compared(f"{name}each call", CALLS, client.run("run_cases", "calls", image, cap))
    fresh()
    yield compared(f"{name}the example", WORKED, client.run("worked", image, cap))
    fresh()
    with running_hub(context.top, context.program, image) as path:
        yield compared(f"{name}the example by a hub", WORKED, client.run("worked", "--hub", path, cap))


def tried_faults(client: Client) -> Iterator[Result]:
    """What isn't there is told in a line."""
    image, cap, missing = client.folder / "disk.img", client.folder / "cap", client.folder / "none"
    cap.write_text("0" * 32)
    rows: Dict[str, str] = {
        "an image that isn't there": client.run("worked", missing, cap),
        "a capability's file that isn't there": client.run("worked", image, missing),
        "a hub that isn't there": client.run("worked", "--hub", missing, cap),
        "a wrong capability": client.run("worked", image, cap),
    }
    words = ("the disk's program ended with status 4: tsd: device fault", "none gives no capability",
             "No such file or directory", "denied: none attained, write needed")
    for (name, found), wanted in zip(rows.items(), words):
        is_told = found.startswith("status 1\nworked: ") and wanted in found
        yield compared(name, True, is_told) if is_told else failed(name, found)


def run(context: Context) -> Iterator[Result]:
    """Compiles the client and its programs, and tries them."""
    if context.compiler is None:
        yield skipped("the client for C", "there is no C compiler")
        return
    for name, sources in SOURCES.items():
        files = [str(context.top / "clients/c" / source) for source in sources]
        command = [context.compiler, *FLAGS, *files, "-o", str(context.folder / name)]
        done = subprocess.run(command, capture_output=True, text=True)
        yield compared(f"{name} is compiled", 0, done.returncode) if not done.returncode else failed(name, done.stderr)
        if done.stderr and done.returncode == 0:
            yield skipped(f"{name} without a warning", f"this compiler has one\n{done.stderr}")
        if done.returncode != 0:
            return
    table = read_table(context.top)
    client = Client(context, context.folder, [])
    yield from tried_cases(client, table, "")
    yield from tried_links(client, table, "")
    yield from tried_calls(client, "")
    yield from tried_faults(client)
    image = context.folder / "disk.img"
    caps = make_disk(context.program, image, ["8", "1", "32", "1"])
    (context.folder / "cap").write_text(caps[1])
    os.environ["TSD_PROGRAM"] = str(context.program)
    words = [str(context.folder / "forgets"), str(image), str(context.folder / "cap")]
    yield compared("a wiped capability leaves no trace", (True, False), forgets(words, bytes.fromhex(caps[1])))
    if shutil.which("valgrind") is None:
        yield skipped("memory", "valgrind isn't installed")
        return
    watched = Client(context, context.folder, list(VALGRIND))
    yield from tried_cases(watched, table._replace(cases=table.cases[:2]), "under valgrind: ")
    ends = {link.end: link for link in table.links}
    yield from tried_links(watched, table._replace(links=list(ends.values())), "under valgrind: ")
    yield from tried_calls(watched, "under valgrind: ")

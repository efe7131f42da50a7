"""The client for Rust in clients/rust, without a network: its own tests (the cases of clients/cases.txt over the
program and over a hub, links that end, its documents' examples), its warnings, its example, and that a capability
leaves no trace in memory."""

from __future__ import annotations

import os
import re
import shutil
import subprocess
from typing import Iterator, List

from c_client import WORKED
from case_table import forgets, make_disk, running_hub
from parts import Context, Result, compared, failed, passed, skipped

NAME = "rust_client"
MOST_SECONDS = 600
LINE = re.compile(r"^test (.*) \.\.\. (ok|FAILED|ignored)$", re.MULTILINE)


def cargo(context: Context, *words: str) -> subprocess.CompletedProcess:
    """Runs cargo in the package's folder; what it builds stands in the part's own folder."""
    environment = {**os.environ, "CARGO_TARGET_DIR": str(context.folder / "target"), "RUST_BACKTRACE": "0",
                   "TSD_PROGRAM": str(context.program), "CARGO_NET_OFFLINE": "true"}
    return subprocess.run(["cargo", *words], cwd=context.top / "clients/rust", env=environment, capture_output=True,
                          text=True, stdin=subprocess.DEVNULL, timeout=MOST_SECONDS)


def own_tests(context: Context) -> Iterator[Result]:
    """A result for each test of the package, its documents' examples among them."""
    done = cargo(context, "test", "--offline", "--locked", "--no-fail-fast")
    found = LINE.findall(done.stdout)
    for name, outcome in found:
        yield passed(name) if outcome == "ok" else failed(name, done.stdout[-4000:])
    if done.returncode != 0 and all(outcome == "ok" for _, outcome in found):
        yield failed("cargo test", done.stderr[-4000:])
    elif not found:
        yield failed("cargo test", "no test was found\n" + done.stdout[-4000:])


def warnings(context: Context) -> Iterator[Result]:
    """What cargo's tools have to say of the package."""
    for tool, words in (("clippy", ["clippy", "--offline", "--all-targets"]), ("fmt", ["fmt", "--check"])):
        if cargo(context, tool, "--version").returncode != 0:
            yield skipped(f"cargo {tool}", "it isn't installed")
            continue
        done = cargo(context, *words)
        said = (done.stdout + done.stderr)[-4000:]
        if done.returncode == 0 and "warning" in said:
            yield skipped(f"cargo {tool}: this one has something to say", said)
        else:
            yield passed(f"cargo {tool}") if done.returncode == 0 else failed(f"cargo {tool}", said)


def examples(context: Context) -> Iterator[Result]:
    """The example over the program and over a hub, and what a capability leaves; the tests have built both."""
    built, image, cap = context.folder / "target/debug/examples", context.folder / "disk.img", context.folder / "cap"
    if not (built / "worked").exists():
        yield failed("the examples", f"{built} has none")
        return
    os.environ["TSD_PROGRAM"] = str(context.program)

    def fresh() -> bytes:
        caps = make_disk(context.program, image, ["16", "1", "64", "1"])
        cap.write_text(caps[1] + "\n")
        return bytes.fromhex(caps[1])

    def printed(*words: object) -> str:
        command: List[str] = [str(built / "worked"), *map(str, words)]
        ran = subprocess.run(command, capture_output=True, text=True, timeout=MOST_SECONDS)
        return ran.stdout + ran.stderr

    fresh()
    yield compared("the example", WORKED, printed(image, cap))
    fresh()
    with running_hub(context.top, context.program, image) as path:
        yield compared("the example by a hub", WORKED, printed("--hub", path, cap))
    secret = fresh()
    found = forgets([str(built / "forgets"), str(image), str(cap)], secret)
    yield compared("a dropped capability leaves no trace", (True, False), found)


def run(context: Context) -> Iterator[Result]:
    """Tries the package."""
    if shutil.which("cargo") is None:
        yield skipped("the client for Rust", "there is no cargo")
        return
    yield from own_tests(context)
    yield from warnings(context)
    yield from examples(context)

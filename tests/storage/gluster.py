"""A GlusterFS volume of three replicas on this machine: its daemons, its bricks, and mounts of it."""

from __future__ import annotations

import os
import re
import signal
from pathlib import Path
from typing import Dict, List, Optional, Sequence
from xml.etree import ElementTree

from machine import Place, call, launch, missing, tried, wait_until

ADDRESS = "10.77.0.1"
NETWORK = 24
BRIDGE = "storage"
VOLUME = "disks"
BRICKS = (1, 2, 3)
# Within so many seconds a lock is free after its holder has ended: a client tells its bricks later of a closed file.
PAUSE = 15
START_SECONDS = 180
HEAL_SECONDS = 300
# What the daemons write outside of their bricks; hidden in the test's own mounts.
STATES = ("/run", "/var/lib/glusterd", "/var/log/glusterfs")


def lack() -> Optional[str]:
    """What is missing for a volume, in words; none where nothing is."""
    return missing(["glusterd", "gluster", "mount.glusterfs", "ip"], ["/dev/fuse", *STATES], ["fuse"])


def gluster(*words: object) -> str:
    """A command of the volume's own tool."""
    return call("gluster", "--mode=script", *words)


class Volume:
    """The volume, started. Its processes end with the test's namespaces."""

    def __init__(self, place: Place) -> None:
        self.place = place
        for state in STATES:
            call("mount", "-t", "tmpfs", "tmpfs", state)
        Path("/run/gluster").mkdir()
        call("ip", "link", "add", BRIDGE, "type", "bridge")
        call("ip", "address", "add", f"{ADDRESS}/{NETWORK}", "dev", BRIDGE)
        call("ip", "link", "set", BRIDGE, "up")
        launch("glusterd", "--log-level", "WARNING")
        wait_until(lambda: tried("gluster", "volume", "list"), START_SECONDS, "glusterd")
        bricks = [f"{ADDRESS}:{place.inner(f'brick{number}')}" for number in BRICKS]
        gluster("volume", "create", VOLUME, "replica", len(BRICKS), *bricks, "force")
        gluster("volume", "start", VOLUME)
        wait_until(lambda: len(self.pids()) == len(BRICKS), START_SECONDS, "the bricks")

    def set(self, **options: object) -> None:
        """Sets options of the volume: a point in a name is written as two lower lines."""
        for name, value in options.items():
            gluster("volume", "set", VOLUME, name.replace("__", ".").replace("_", "-"), value)

    def mounted(self, name: str, before: Sequence[str] = ()) -> Path:
        """A mount of it, by a client of its own."""
        folder = self.place.inner(name)
        launch(*before, "mount", "-t", "glusterfs", f"{ADDRESS}:/{VOLUME}", folder)
        return folder

    def pids(self) -> Dict[int, int]:
        """The process of each brick that runs, by its number."""
        tree = ElementTree.fromstring(call("gluster", "--xml", "volume", "status", VOLUME))
        nodes = [(node.findtext("path") or "", node) for node in tree.iter("node")]
        running = [(path, node) for path, node in nodes if "brick" in path and node.findtext("status") == "1"]
        return {int(path[-1]): int(node.findtext("pid") or 0) for path, node in running}

    def kill(self, *numbers: int) -> None:
        """Ends bricks at once."""
        pids = self.pids()
        for number in numbers:
            os.kill(pids[number], signal.SIGKILL)

    def start_again(self) -> None:
        """Starts the bricks that don't run."""
        gluster("volume", "start", VOLUME, "force")
        wait_until(lambda: len(self.pids()) == len(BRICKS), START_SECONDS, "the bricks again")

    def healed(self) -> float:
        """Waits until no brick lacks anything; how many seconds that took."""
        return wait_until(self.is_whole, HEAL_SECONDS, "healing")

    def is_whole(self) -> bool:
        """Whether each brick is there and lacks nothing."""
        text = gluster("volume", "heal", VOLUME, "info")
        return re.findall(r"Number of entries: (\S+)", text) == ["0"] * len(BRICKS)

    def copies(self, name: str) -> List[bytes]:
        """What each brick has of a file."""
        return [(self.place.folder / f"brick{number}" / name).read_bytes() for number in BRICKS]

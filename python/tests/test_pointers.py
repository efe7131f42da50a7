"""The tool that draws a certificate, as docs/AUDIT.md tells of it."""

from __future__ import annotations

import re
import subprocess
import sys
from typing import List
from xml.dom import minidom

from support import MOST_SECONDS, PROGRAM, TOP, InFolder

CERTIFICATE = re.compile(r"and 4 to 2:\n\n```\n(.*?)^```\n\nit writes\n\n```\n(.*?)^```", re.MULTILINE | re.DOTALL)


class Pointers(InFolder):
    """A disk with two primary blocks, as the page has it."""

    def setUp(self) -> None:
        super().setUp()
        self.image = self.folder / "disk.img"
        lines = self.run_tsd(["format", "16", "1", "64", "2", "00" * 32], "").splitlines()
        first, second = [line.split()[3] for line in lines]
        asked = ["open 1", f"alloc 1 0 {first} - 2", f"create 1 1 {second} 3", "alloc 1 3 - - 1", "create 1 4 - 2"]
        self.assertEqual(["ok", "blocks 2 3", "ok", "blocks 4", "ok"],
                         self.run_tsd(["run", "low"], "\n".join(asked)).splitlines())

    def run_tsd(self, words: List[str], text: str) -> str:
        """What the program prints."""
        done = subprocess.run([PROGRAM, str(self.image), *words], input=text, text=True, capture_output=True,
                              timeout=MOST_SECONDS)
        self.assertEqual((0, ""), (done.returncode, done.stderr))
        return done.stdout

    def draw(self, certificate: str, *words: str) -> "subprocess.CompletedProcess[str]":
        """What became of the tool."""
        return subprocess.run([sys.executable, str(TOP / "tools" / "pointers"), *words], input=certificate, text=True,
                              capture_output=True, timeout=MOST_SECONDS)

    def test_the_page(self) -> None:
        [(certificate, graph)] = CERTIFICATE.findall((TOP / "docs" / "AUDIT.md").read_text())
        self.assertEqual(certificate, self.run_tsd(["audit"], ""))
        self.assertEqual(graph, self.draw(certificate, "--image", str(self.image)).stdout)
        tree = "".join(line for line in graph.splitlines(True) if "dashed" not in line)
        self.assertEqual(tree, self.draw(certificate).stdout)

    def test_a_browser_can_read_the_svg(self) -> None:
        svg = self.folder / "disk.svg"
        before = self.image.read_bytes()
        done = self.draw(self.run_tsd(["audit"], ""), "--image", str(self.image), "--svg", str(svg))
        self.assertEqual((0, "", ""), (done.returncode, done.stdout, done.stderr))
        paths = [path.getAttribute("class") for path in minidom.parse(str(svg)).getElementsByTagName("path")]
        self.assertEqual((3, 2), (paths.count("tree"), paths.count("other")))
        self.assertEqual(before, self.image.read_bytes())

    def test_many_blocks_are_drawn_by_depth(self) -> None:
        lines = ["block 0 depth 0 parent -", *(f"block {block} depth 1 parent 0" for block in range(1, 301))]
        graph = self.draw("\n".join(lines)).stdout
        self.assertIn('1 [label="depth 1: 300"];', graph)
        self.assertIn('0 -> 1 [label="300"];', graph)

    def test_what_cannot_be_read_is_told(self) -> None:
        self.assertEqual((1, "tsd-pointers: line 1 is none of a certificate\n"),
                         (self.draw("block 0").returncode, self.draw("block 0").stderr))
        self.image.write_bytes(bytes(1024))
        told = self.draw("block 0 depth 0 parent -", "--image", str(self.image))
        self.assertEqual((1, f"tsd-pointers: {self.image}: it isn't an image\n"), (told.returncode, told.stderr))

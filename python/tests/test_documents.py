"""The examples, run as their pages say, and the client's examples in python/README.md."""

from __future__ import annotations

import os
import re
import subprocess
import sys
from typing import Dict, List

from support import MOST_SECONDS, PYTHON, TOP, InFolder

RUN = re.compile(r"^```sh\npython3 (examples/\w+\.py)\n```\n\n```\n(.*?)^```$", re.MULTILINE | re.DOTALL)
CODE = re.compile(r"^```python\n(.*?)^```\n\n```\n(.*?)^```$", re.MULTILINE | re.DOTALL)
LINK = re.compile(r"\]\(([^)#:]+)\)")


class Documents(InFolder):
    """What a page says is printed is printed."""

    def printed(self, words: List[str], more: Dict[str, str]) -> str:
        """What a script prints."""
        done = subprocess.run([sys.executable, *words], cwd=self.folder, env={**os.environ, **more}, text=True,
                              capture_output=True, timeout=5 * MOST_SECONDS)
        self.assertEqual((0, ""), (done.returncode, done.stderr))
        return done.stdout

    def test_examples(self) -> None:
        pages = sorted((TOP / "examples").glob("*.md"))
        scripts = sorted((TOP / "examples").glob("*.py"))
        self.assertEqual([page.stem for page in pages], [script.stem for script in scripts])
        for page in pages:
            with self.subTest(page.name):
                [(script, expected)] = RUN.findall(page.read_text())
                self.assertEqual(f"examples/{page.stem}.py", script)
                self.assertEqual(expected, self.printed([str(TOP / script)], {}))

    def test_the_client_in_the_readme(self) -> None:
        blocks = CODE.findall((PYTHON / "README.md").read_text())
        self.assertEqual(3, len(blocks))
        for code, expected in blocks:
            self.assertEqual(expected, self.printed(["-c", code], {"PYTHONPATH": str(PYTHON)}))

    def test_links(self) -> None:
        for page in (PYTHON / "README.md", *(TOP / "examples").glob("*.md")):
            for link in LINK.findall(page.read_text()):
                self.assertTrue((page.parent / link).exists(), f"{page.name}: {link}")

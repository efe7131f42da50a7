"""An installation into an empty prefix, one by pip, and a release: the client, tsd-hub and tsd-shell of each."""

from __future__ import annotations

import email.parser
import os
import shutil
import subprocess
import sys
import zipfile
from pathlib import Path
from typing import Dict, List, Optional

from support import MOST_SECONDS, PROGRAM, PYTHON, TOP, InFolder, RunningHub, tsd

CLIENT = """
import sys, tsd
pair = tsd.format_disk("disk.img", blocks=8, seed=bytes(range(32)))[0]
with tsd.open("disk.img") as disk, disk.session() as session:
    session.write(0, b"hi", pair.write)
print(tsd.__file__)
"""


def clean() -> Dict[str, str]:
    """The environment without what the tests set."""
    of_tests = ("TSD_PROGRAM", "PYTHONPATH", "PYTHONPYCACHEPREFIX")
    return {name: text for name, text in os.environ.items() if name not in of_tests}


def python_that_builds() -> Optional[str]:
    """A Python that has what pip builds with; none of it is fetched."""
    for python in (sys.executable, "/usr/bin/python3"):
        words = [python, "-c", "import sys; from importlib.util import find_spec\n"
                               "assert sys.version_info >= (3, 9)\n"
                               "assert all(map(find_spec, ('pip', 'setuptools', 'wheel')))"]
        if os.path.exists(python) and subprocess.run(words, capture_output=True, env=clean()).returncode == 0:
            return python
    return None


def built_by_pip(python: str, command: str, more: List[str], folder: Path) -> None:
    """Has pip build a copy of the sources, without a network."""
    sources = folder / "sources"
    shutil.copytree(PYTHON, sources, ignore=shutil.ignore_patterns("__pycache__", "tests", "build", "*.egg-info"))
    words = [python, "-m", "pip", command, "-q", "--no-index", "--no-deps", "--no-build-isolation", *more, str(sources)]
    done = subprocess.run(words, capture_output=True, text=True, env={**clean(), "PIP_ROOT_USER_ACTION": "ignore"})
    if done.returncode != 0:
        raise AssertionError(done.stderr)


class Installed(InFolder):
    """What is installed works, with the program that is installed beside it."""

    def try_out(self, bin_folder: Path, package: Path, environment: Dict[str, str], python: str) -> None:
        """Runs the client, tsd-hub and tsd-shell."""
        done = subprocess.run([python, "-c", CLIENT], cwd=self.folder, env=environment, text=True, capture_output=True,
                              timeout=MOST_SECONDS)
        self.assertEqual((0, ""), (done.returncode, done.stderr))
        self.assertEqual(str(package), str(Path(done.stdout.strip()).parent))
        path = self.folder / "disk.sock"
        command = [str(bin_folder / "tsd-hub"), str(self.image), "near", "--socket", str(path)]
        hub = RunningHub(self.image, path, command=command, environment=environment)
        try:
            with tsd.connect(path) as disk:
                self.assertEqual(7, disk.free(), hub.log)
        finally:
            hub.stop()
        (self.folder / "cap").write_text("zz")
        words = [str(bin_folder / "tsd-shell"), str(self.image), "inode", "0", "--cap-file", "cap"]
        done = subprocess.run(words, cwd=self.folder, env=environment, text=True, capture_output=True, input="")
        self.assertIn("tsd-shell: cap: a capability has 32 hexadecimal digits", done.stderr)

    def test_make_install(self) -> None:
        if shutil.which("make") is None:
            self.skipTest("there is no make")
        prefix = self.folder / "prefix"
        make = ["make", "-s", "-C", str(TOP), f"PREFIX={prefix}"]
        if subprocess.run([str(TOP / "tools/program"), "--no-build"], capture_output=True).returncode != 0:
            self.skipTest("the program of these sources isn't built")
        subprocess.run(make + ["install"], check=True, capture_output=True)
        package = prefix / "lib/tsd/python/tsd"
        for folder in (PYTHON / "tsd").rglob("*.py"):
            self.assertTrue((package / folder.relative_to(PYTHON / "tsd")).exists(), folder)
        environment = {**clean(), "PYTHONPATH": str(package.parent), "PYTHONDONTWRITEBYTECODE": "1"}
        environment["PATH"] = self.path_without_program()
        self.try_out(prefix / "bin", package, environment, sys.executable)
        for page in (TOP / "man").glob("*.1"):
            self.assertTrue((prefix / "share/man/man1" / page.name).exists(), page)
        self.uninstall(prefix, make, environment)

    def uninstall(self, prefix: Path, make: List[str], environment: Dict[str, str]) -> None:
        """What was installed goes, with what Python kept of it; what others put there stays, and no more is left."""
        of_others = [prefix / name for name in ("bin/other", "lib/tsd/python/tsd/other.py", "share/doc/tsd/notes")]
        for path in of_others:
            path.write_text("mine")
        words = [sys.executable, "-c", "import tsd.hub.main, tsd.shell.main"]
        subprocess.run(words, check=True, env={**environment, "PYTHONDONTWRITEBYTECODE": ""})
        self.assertTrue(list(prefix.rglob("*.pyc")))
        subprocess.run(make + ["uninstall"], check=True, capture_output=True)
        self.assertEqual(sorted(of_others), sorted(path for path in prefix.rglob("*") if not path.is_dir()))
        for path in of_others:
            path.unlink()
        subprocess.run(make + ["uninstall"], check=True, capture_output=True)
        self.assertEqual([], list(prefix.rglob("*")))

    def test_pip_install(self) -> None:
        python = python_that_builds()
        if python is None:
            self.skipTest("no Python here has pip, setuptools and wheel, and without a network none is fetched")
        target = self.folder / "target"
        built_by_pip(python, "install", ["--target", str(target)], self.folder)
        programs = self.folder / "programs"
        programs.mkdir()
        (programs / "tsd").symlink_to(PROGRAM)
        environment = {**clean(), "PYTHONPATH": str(target), "PYTHONDONTWRITEBYTECODE": "1"}
        environment["PATH"] = f"{programs}:{self.path_without_program()}"
        self.try_out(target / "bin", target / "tsd", environment, python)

    def test_wheel(self) -> None:
        """It is compressed, has all modules and the licences, and says who made it, and for which Python."""
        python = python_that_builds()
        if python is None:
            self.skipTest("no Python here has pip, setuptools and wheel, and without a network none is fetched")
        built_by_pip(python, "wheel", ["--wheel-dir", str(self.folder)], self.folder)
        [path] = self.folder.glob("tsd-*.whl")
        with zipfile.ZipFile(path) as wheel:
            names = wheel.namelist()
            kinds = {one.compress_type for one in wheel.infolist() if one.file_size > 100}
            self.assertEqual({zipfile.ZIP_DEFLATED}, kinds)
            [about] = [name for name in names if name.endswith("/METADATA")]
            told = email.parser.Parser().parsestr(wheel.read(about).decode())
            texts = [wheel.read(name) for name in names if "LICENSE" in name]
        modules = [path.relative_to(PYTHON).as_posix() for path in (PYTHON / "tsd").rglob("*.py")]
        self.assertEqual([], [name for name in [*modules, "tsd/py.typed"] if name not in names])
        self.assertEqual(sorted((TOP / name).read_bytes() for name in ("LICENSE", "LICENSE-MIT", "LICENSE-APACHE")),
                         sorted(texts))
        self.assertEqual((tsd.__version__, ">=3.9", "MIT OR Apache-2.0"),
                         (told["Version"], told["Requires-Python"], told["License"]))
        self.assertIn("Dognilaw maintainers", told["Author-email"])
        self.assertIsNone(told["Project-URL"], "there is no page of it")
        self.assertIn("Programming Language :: Python :: 3.9", told.get_all("Classifier") or [])

    def test_release(self) -> None:
        if os.uname().sysname != "Linux" or os.uname().machine != "x86_64":
            self.skipTest("the shipped program is for Linux on x86-64")
        subprocess.run([str(TOP / "tools/dist"), "release", str(self.folder)], check=True, capture_output=True)
        [archive] = self.folder.glob("tsd-*.tar.gz")
        subprocess.run(["tar", "-xzf", str(archive), "-C", str(self.folder)], check=True)
        released = self.folder / archive.name[:-len(".tar.gz")]
        subprocess.run(["sha256sum", "--quiet", "--check", "SHA256SUMS"], cwd=released, check=True)
        package = released / "python/tsd"
        for file in (PYTHON / "tsd").rglob("*.py"):
            self.assertTrue((package / file.relative_to(PYTHON / "tsd")).exists(), file)
        pages = [path.name for folder in ("man", "completions") for path in (TOP / folder).iterdir()]
        for name in ("tsd", *pages, "LICENSE", "LICENSE-MIT", "LICENSE-APACHE"):
            self.assertTrue((released / name).exists(), name)
        environment = {**clean(), "PYTHONPATH": str(package.parent), "PYTHONDONTWRITEBYTECODE": "1"}
        environment["PATH"] = self.path_without_program()
        self.try_out(package.parent / "bin", package, environment, sys.executable)

    def path_without_program(self) -> str:
        """The path without folders that have a program tsd."""
        folders: List[str] = os.environ["PATH"].split(":")
        return ":".join(folder for folder in folders if not (Path(folder) / "tsd").exists())

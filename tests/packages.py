"""What `./dev release` makes: the sums of its files; a Debian package that is unpacked by dpkg-deb, whose program and
commands run from there, with its control file, its units and each file's sum; and a wheel with the commands. Where
dpkg-deb or a Python that builds a wheel isn't there, that is skipped. Where TSD_DEBIAN names a folder that debootstrap
has made, the package is also installed into a copy of it and taken away again, by root."""

from __future__ import annotations

import os
import shutil
import subprocess
import sys
import zipfile
from pathlib import Path
from typing import Iterator

from parts import Context, Result, compared, failed, passed, skipped

NAME = "packages"
MOST_SECONDS = 300
FILES = (
    "usr/bin/tsd", "usr/share/bash-completion/completions/tsd", "usr/share/tsd/c/tsd.h",
    "usr/share/tsd/c/tsd.c", "usr/share/tsd/nbdkit/tsd_disk.py", "usr/share/tsd/nbdkit/tsd_disk.c",
    "usr/share/tsd/nbdkit/virtual_disk.c", "usr/share/tsd/nbdkit/virtual_disk.h",
    "usr/lib/systemd/system/tsd-hub@.service",
    "usr/lib/systemd/system/tsd-hub@.socket", "usr/share/doc/tsd/README.md", "usr/share/doc/tsd/FORMAT.md",
    "usr/share/doc/tsd/LICENSE", "usr/lib/tsd/python/tsd/__init__.py", "usr/lib/tsd/python/tsd/mount/operations.py",
)
COMMANDS = ("tsd-hub", "tsd-shell", "tsd-copy", "tsd-keygen", "tsd-pointers", "tsd-mount")
# Of each command: where it is, its page, and its completion in both shells.
OF_COMMAND = ("usr/bin/{}", "usr/share/man/man1/{}.1.gz", "usr/share/bash-completion/completions/{}",
              "usr/share/zsh/site-functions/_{}")
VARIABLE = "TSD_DEBIAN"


def printed(*words: object, folder: Path) -> str:
    """What a command prints, on both streams; without what the tests set."""
    clean = {name: text for name, text in os.environ.items() if name not in ("TSD_PROGRAM", "PYTHONPATH")}
    done = subprocess.run([*map(str, words)], cwd=folder, env=clean, capture_output=True, text=True,
                          stdin=subprocess.DEVNULL, timeout=MOST_SECONDS)
    return done.stdout + done.stderr


def tried_debian(context: Context, path: Path) -> Iterator[Result]:
    """The Debian package, unpacked."""
    root = context.folder / "root"
    printed("dpkg-deb", "-x", path, root, folder=context.folder)
    wanted = [*FILES, *(place.format(name) for name in COMMANDS for place in OF_COMMAND)]
    missing = [name for name in wanted if not (root / name).is_file()]
    yield compared("the Debian package has its files", [], missing)
    version = path.name.split("_")[1]
    for field, value in (("Package", "tsd"), ("Version", version), ("Architecture", "amd64")):
        yield compared(f"its {field}", f"{value}\n", printed("dpkg-deb", "-f", path, field, folder=context.folder))
    printed("dpkg-deb", "-e", path, root / "control", folder=context.folder)
    control = sorted(one.name for one in (root / "control").iterdir())
    yield compared("it runs no script", ["control", "md5sums"], control)
    sums = printed("md5sum", "--quiet", "--check", "control/md5sums", folder=root)
    yield compared("each file has its sum", "", sums)
    others = [str(one) for one in root.rglob("*") if not one.is_symlink() and one.stat().st_mode & 0o022]
    yield compared("nobody else may write what is installed", [], others)
    yield compared("the program", f"tsd {version}\n", printed(root / "usr/bin/tsd", "--version", folder=root))
    printed(sys.executable, root / "usr/bin/tsd-keygen", "r", "w", folder=root)
    printed(root / "usr/bin/tsd", "d.img", "fresh", "8", "1", "@r", "@w", "near", folder=root)
    (root / "caps").write_text(f"cap 0 {(root / 'r').read_text().strip()} {(root / 'w').read_text()}")
    told = printed(sys.executable, root / "usr/bin/tsd-copy", "d.img", "e.img", "--caps", "caps", folder=root)
    yield compared("its commands", "1 blocks and 0 pointers are in e.img as in d.img\n", told)
    unit = (root / "usr/lib/systemd/system/tsd-hub@.service").read_text()
    yield compared("the unit starts what is installed", True, "ExecStart=/usr/bin/tsd-hub " in unit)


def tried_installing(context: Context, path: Path) -> Iterator[Result]:
    """The Debian package in a system that debootstrap has made."""
    made = os.environ.get(VARIABLE)
    if not made or not context.is_root or shutil.which("chroot") is None:
        yield skipped("the package installed", f"{VARIABLE} names no folder of debootstrap, or this isn't root")
        return
    root = context.folder / "debian"
    printed("cp", "-a", made, root, folder=context.folder)
    shutil.copy(path, root / "tsd.deb")

    def inside(script: str) -> str:
        return printed("chroot", root, "sh", "-c", f"cd /root && {script}", folder=context.folder)

    before = inside("find / -xdev -path /proc -prune -o -print | sort | grep -v '^/var'")
    told = inside("dpkg -i /tsd.deb >/dev/null && dpkg -s tsd | grep ^Status")
    yield compared("the package installs", "Status: install ok installed\n", told)
    yield compared("its files have their sums", "", inside("dpkg -V tsd"))
    told = inside(f"umask 077; echo {'a' * 32} > r; echo {'b' * 32} > w; tsd d.img fresh 8 1 @r @w near </dev/null;"
                  "printf '%s\\n' mkfs 'put /a 6869' 'cat /a' | tsd d.img shell inode 0 @w near; tsd d.img check;"
                  "rm d.img r w")
    yield compared("the program runs there", "ok\nok\ndata 6869\nclean 3 5 2\n", told)
    yield compared("it is taken away", "", inside("dpkg -P tsd >/dev/null"))
    after = inside("find / -xdev -path /proc -prune -o -print | sort | grep -v '^/var'")
    yield compared("and nothing is left of it", before, after)


def tried_wheel(path: Path) -> Iterator[Result]:
    """The wheel's files and commands."""
    with zipfile.ZipFile(path) as wheel:
        names = wheel.namelist()
        [entry] = [name for name in names if name.endswith("entry_points.txt")]
        commands = wheel.read(entry).decode()
    needed = {"tsd/__init__.py", "tsd/copying.py", "tsd/mount/main.py", "tsd/py.typed"}
    yield compared("the wheel has the package", set(), needed - set(names))
    wanted = [name for name in COMMANDS if name != "tsd-pointers"]
    yield compared("and its commands", [], [name for name in wanted if f"{name} = " not in commands])


def run(context: Context) -> Iterator[Result]:
    """Makes a release, and tries it."""
    if os.uname().sysname != "Linux" or os.uname().machine != "x86_64":
        yield skipped("a release", "the shipped program is for Linux on x86-64")
        return
    folder = context.folder / "release"
    folder.mkdir()
    told = printed(context.top / "tools/dist", "release", folder, folder=context.folder)
    found = sorted(one.name for one in folder.iterdir())
    sums = [name for name in found if name.endswith("-SHA256SUMS")]
    if len(sums) != 1:
        yield failed("a release is made", told)
        return
    yield passed("a release is made")
    yield compared("its sums", "", printed("sha256sum", "--quiet", "--check", sums[0], folder=folder))
    listed = sorted(line.split()[1] for line in (folder / sums[0]).read_text().splitlines())
    yield compared("each file has one", listed, [name for name in found if name not in sums])
    for pattern, name in (("tsd_*_amd64.deb", "no Debian package"), ("tsd-*.whl", "no wheel")):
        paths = list(folder.glob(pattern))
        if not paths:
            yield skipped(pattern, next((line for line in told.splitlines() if name in line), told))
        else:
            yield from tried_debian(context, paths[0]) if pattern.endswith("deb") else tried_wheel(paths[0])
        if paths and pattern.endswith("deb"):
            yield from tried_installing(context, paths[0])

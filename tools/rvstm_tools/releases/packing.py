"""Packages of Debian, which dpkg-deb makes: their bytes depend only on what is put in."""

import hashlib
import os
import subprocess
import tempfile
from collections.abc import Mapping
from pathlib import Path

from rvstm_tools.errors import UserError
from rvstm_tools.releases import archives
from rvstm_tools.releases.archives import EXECUTABLE, Entries, File, Link

PACKER = "dpkg-deb"
WORDS = (PACKER, "--root-owner-group", "--threads-max=1", "-Zxz", "--build")
"""One thread: with more the same bytes are compressed otherwise."""


def control_of(fields: Mapping[str, str], entries: Entries) -> str:
    """The control file of a package, with the size of its files in kilobytes, as Debian counts it."""
    files = [len(entry.data) for entry in entries.values() if isinstance(entry, File)]
    size = sum((length + 1023) // 1024 for length in files) + len(entries) - len(files) + len(archives.folders_of(entries))
    names = [name for name in fields if name != "Description"]
    rows = [f"{name}: {fields[name]}" for name in names] + [f"Installed-Size: {size}", f"Description: {fields['Description']}"]
    return "\n".join(rows) + "\n"


def write(tree: Path, entries: Entries, seconds: int) -> None:
    """Writes files and links below a folder, with their rights, all of one time."""
    for path, entry in entries.items():
        place = tree / path
        place.parent.mkdir(parents=True, exist_ok=True)
        if isinstance(entry, Link):
            place.symlink_to(entry.target)
        else:
            place.write_bytes(entry.data)
            place.chmod(entry.mode)
    for place in (tree, *tree.rglob("*")):
        if place.is_dir() and not place.is_symlink():
            place.chmod(EXECUTABLE)
        os.utime(place, (seconds, seconds), follow_symlinks=False)


def deb_of(fields: Mapping[str, str], more: Entries, entries: Entries, seconds: int) -> bytes:
    """A package: its fields, more files of its control by name, and its files by path. All are of one time."""
    sums = "".join(f"{hashlib.md5(entry.data).hexdigest()}  {path}\n" for path, entry in sorted(entries.items()) if isinstance(entry, File))
    control: Entries = {"control": File(control_of(fields, entries).encode()), "md5sums": File(sums.encode()), **more}
    with tempfile.TemporaryDirectory(prefix="package-") as folder:
        tree, made = Path(folder) / "tree", Path(folder) / "made.deb"
        tree.mkdir()
        write(tree, entries | {f"DEBIAN/{name}": entry for name, entry in control.items()}, seconds)
        environment = {**os.environ, "SOURCE_DATE_EPOCH": str(seconds), "LC_ALL": "C"}
        try:
            done = subprocess.run([*WORDS, tree, made], capture_output=True, encoding="utf-8", env=environment, check=False)
        except FileNotFoundError as error:
            raise UserError(f"there is no {PACKER}: packages are made on Debian") from error
        if done.returncode:
            raise UserError(f"{PACKER} ended with status {done.returncode}: {done.stderr.strip()}")
        return made.read_bytes()

import argparse
import re
import subprocess
import sys
from collections.abc import Mapping
from pathlib import Path

from rvstm_developers.texts import TOP, new_folder
from rvstm_tools.options import Command, argument

TIMED = re.compile(r"^ *[0-9.]+ s  (.+)$", re.MULTILINE)  # the line of a case that ran
BYTE = "chunk[:-2] + bytes([chunk[-2] ^ 1]) + chunk[-1:] if len(chunk) > 1 else b'!'"
ALTERATIONS = {
    "a byte": (BYTE, "chunk", "b''", "status"),
    "a byte of its errors": ("chunk", BYTE, "b''", "status"),
    "a line": ("chunk", "chunk", "b'0\\n'", "status"),
    "a status": ("chunk", "chunk", "b''", "(status + 1) % 4"),
}
"""What is changed of each run of the program: each piece of its output, and of its errors, what comes after its output, and its status."""

WRAPPER = """\
#!{python} -S
import os, select, subprocess, sys
def take(came, altered):
    if came != altered:
        with open({log!r}, "a", encoding="utf-8") as log:
            log.write(os.environ.get("RVSTM_CASE", "") + "\\n")
    return altered
with subprocess.Popen([{program!r}, *sys.argv[1:]], stdout=subprocess.PIPE, stderr=subprocess.PIPE) as program:
    output, errors = program.stdout.fileno(), program.stderr.fileno()
    left = [output, errors]
    while left:
        for end in select.select(left, [], [])[0]:
            chunk = os.read(end, 1 << 16)
            if not chunk:
                left.remove(end)
            elif end == output:
                os.write(1, take(chunk, {chunk}))
            else:
                os.write(2, take(chunk, {errors}))
    status = program.wait()
if status < 0:
    os.kill(os.getpid(), -status)
os.write(1, take(b"", {last}))
sys.exit(take(status, {status}))
"""


def passing(words: list[str], log: Path) -> list[str]:
    """The cases that pass although something of the program was altered in them."""
    printed = subprocess.run(words, stdout=subprocess.PIPE, encoding="utf-8", check=False).stdout
    ran = set(log.read_text(encoding="utf-8").splitlines()) if log.exists() else set()
    return [name for name in TIMED.findall(printed) if name in ran and f"failed: {name}: " not in printed]


def left_by(alterations: Mapping[str, tuple[str, str, str, str]], program: Path, word: str) -> dict[str, list[str]]:
    found = {}
    for name, (chunk, errors, last, status) in alterations.items():
        with new_folder("altered-") as folder:
            wrapper, log = folder / "rvstm", folder / "log"
            text = WRAPPER.format(
                python=sys.executable, log=f"{log}", program=f"{program.resolve()}", chunk=chunk, errors=errors, last=last, status=status,
            )
            wrapper.write_text(text, encoding="utf-8")
            wrapper.chmod(0o755)
            words = [sys.executable, "-u", str(TOP / "tests" / "run"), str(wrapper), "--times", "--only", word]
            found[name] = passing(words, log)
    return found


def run(given: argparse.Namespace) -> int:
    found = left_by(ALTERATIONS, given.program, given.only)
    for alteration, names in found.items():
        print(f"{alteration}: {len(names)} cases pass over a program that changes it", *(f"    {name}" for name in names), sep="\n")
    return 1 if any(found.values()) else 0


COMMAND = Command(
    "Runs the gate's cases over a program that changes what it prints, or its status: each case that runs it has to fail.",
    "crates/rvstm/out/rvstm",
    run,
    (
        argument("program", type=Path, metavar="RVSTM", help="the built program"),
        argument("--only", metavar="WORD", default="", help="the cases alone whose names have this"),
    ),
)

import argparse
import re
import shutil
import subprocess
from pathlib import Path

from rvstm_developers import texts
from rvstm_developers.texts import TOP
from rvstm_tools.options import Command
from rvstm_tools.programs.checkouts import Checkout

CRATE = "version_arena"
FUNCTION = """
pub fn {name}(arena: &mut Arena, id: VersionId) -> bool {{
    let lent = arena.get(id);
    arena.reset(); // {name}
    {after}
}}
"""
FUNCTIONS = {"held": "lent.is_some()", "released": "let _ = id; true"}
"""Each resets an arena while it has a record of it, with this line after the reset. The first alone must be refused."""
TEST = "\n#[test]\nfn compiled(_rt: HostRuntime) {}\n"
REFUSED = re.compile(r"^src/lib\.rt:(\d+):\d+: (error\[[a-z0-9-]+\])", re.M)


def copy_crates(place: Path) -> None:
    """Copies the crate and those that it uses, each with its line of crates.txt."""
    crates = Checkout(TOP).crates_of(CRATE)
    for name in crates:
        shutil.copytree(TOP / "crates" / name, place / "crates" / name)
    lines = (TOP / "crates.txt").read_text(encoding="utf-8").splitlines()
    (place / "crates.txt").write_text(texts.lines_of(line for line in lines if line.split(":")[0].rstrip() in crates), encoding="utf-8")
    shutil.copy(TOP / "HANDLES", place)


def run(_: argparse.Namespace) -> int:
    with texts.new_folder() as place:
        copy_crates(place)
        changed = place / "crates" / CRATE / "src/lib.rt"
        text = changed.read_text(encoding="utf-8") + "".join(FUNCTION.format(name=name, after=after) for name, after in FUNCTIONS.items())
        changed.write_text(text + TEST, encoding="utf-8")
        done = subprocess.run(["rt", "try", "--test"], cwd=changed.parents[1], capture_output=True, encoding="utf-8", check=False)
    line = 1 + text.split("// held\n")[0].count("\n")
    if REFUSED.findall(done.stdout + done.stderr) == [(str(line), "error[borrow-e0502]")]:
        print("2 passed, 0 failed")
        return 0
    print(done.stdout + done.stderr)
    print("not as it must be: of a record that is held across a reset and one that is not, the first alone is refused by the borrow check")
    print("0 passed, 2 failed")
    return 1


COMMAND = Command(
    "Tries what must not compile: a record of an arena that is held across the arena's reset.",
    "",
    run,
)

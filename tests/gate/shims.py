"""Libraries that are loaded before the C library, and let calls of it fail or note them. Each is a C file of this folder, which says
what it reads from the environment."""

from pathlib import Path

from gate.calls import Word, command
from gate.runner import Run, same


def loaded(run: Run, source: str) -> dict[str, str]:
    """What the environment has so that a command loads the library of a C file, which is compiled once for a case."""
    made = (run.place / source).with_suffix(".so")
    if not made.is_file():
        words: list[Word] = ["cc", "-Wall", "-Wextra", "-Werror", "-O1", "-shared", "-fPIC", Path(__file__).with_name(source), "-o", made]
        same(command(words).done(), "")
    return {"LD_PRELOAD": str(made)}

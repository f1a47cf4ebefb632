"""Programs over the library for C whose heap is counted, and may refuse (heap.c)."""

from collections.abc import Sequence
from pathlib import Path

from rvstm_developers import running
from rvstm_developers.embedded_library import ARCHIVE
from rvstm_developers.running import Word
from rvstm_developers.texts import TOP
from rvstm_tools.errors import UserError

FOLDER = Path(__file__).parent
STRICT = ("-Wall", "-Wextra", "-Wpedantic", "-Werror", "-O1", "-g", f"-I{TOP}/include")
IN_C = ("cc", "-std=c11", *STRICT)


def counted(place: Path, compiler: Sequence[Word], links: Sequence[Word], name: str) -> Path:
    """Links a program to the archive, whose heap is that of heap.c. `links` are its sources, objects and libraries."""
    if not ARCHIVE.is_file():
        raise UserError(f"there is no {ARCHIVE}: `rvstm-tools library` makes it")
    archive, heap, made = place / "counted.a", place / "heap.o", place / name
    names = [word for call in ("malloc", "realloc", "free") for word in ("--redefine-sym", f"{call}=counted_{call}")]
    running.output_of(["objcopy", *names, ARCHIVE, archive])
    running.output_of([*IN_C, "-c", "-o", heap, FOLDER / "heap.c"])
    running.output_of([*compiler, "-o", made, *links, heap, archive])
    return made

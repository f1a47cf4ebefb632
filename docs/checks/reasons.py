"""Lists of names that may stay as they are, each with its reason."""

from checks import sources
from rvstm_tools.errors import MisuseError


def reasons(file: str) -> dict[str, str]:
    """The reason for each name that a file lists, in lines `NAME  # REASON`. Empty if there is no such file."""
    path = sources.TOP / file
    lines = path.read_text(encoding="utf-8").splitlines() if path.is_file() else []
    rows = [line.partition("  # ") for line in lines if line and not line.startswith("#")]
    for name, _, reason in rows:
        if not reason:
            raise MisuseError(f"{file}: {name} has no reason")
    return {name: reason for name, _, reason in rows}

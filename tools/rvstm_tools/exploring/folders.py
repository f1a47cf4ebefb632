"""The folder of a search: which sequences were made, and the finding, so that a later run goes on from there."""

import hashlib
import json
from dataclasses import asdict, dataclass
from pathlib import Path

from rvstm_tools.errors import UserError
from rvstm_tools.exploring.descriptions import Description
from rvstm_tools.exploring.saved import SavedCall
from rvstm_tools.exploring.searches import Limits

STATE, LIST = "explored.json", "found.list"
MOST_SEQUENCES = 1 << 63


@dataclass(frozen=True)
class FolderState:
    description: str  # the SHA-256 of its text
    programs: str  # the SHA-256 of the files
    seed: int
    length: int
    next: int  # all sequences below this one were made, and broke nothing
    found: list[SavedCall] | None  # the shortest sequence that breaks something


def digest_of(*parts: bytes) -> str:
    return hashlib.sha256(b"".join(hashlib.sha256(part).digest() for part in parts)).hexdigest()


class Folder:
    """A folder that a run is kept in; it is made if it is not there."""

    def __init__(self, path: Path, description: Description) -> None:
        self.path = path
        self.description = digest_of(*(Path(file).read_bytes() for file in description.files))
        self.programs = digest_of(*(Path(file).read_bytes() for file in description.programs.values()))
        path.mkdir(parents=True, exist_ok=True)

    @property
    def found_list(self) -> Path:
        return self.path / LIST

    def earlier(self, limits: Limits) -> FolderState | None:
        """What an earlier run left. It is refused if that drew other sequences."""
        path = self.path / STATE
        if not path.exists():
            return None
        state = state_of(path)
        if (state.description, state.seed, state.length) != (self.description, limits.seed, limits.length):
            raise UserError(f"{path}: the run there has another description, seed or length: name another folder")
        return state

    def first(self, state: FolderState | None) -> int:
        """The number of the sequence to go on with: the first one if a program is another one now."""
        return state.next if state and state.programs == self.programs else 0

    def keep(self, limits: Limits, following: int, found: list[SavedCall] | None) -> None:
        state = FolderState(self.description, self.programs, limits.seed, limits.length, following, found)
        new = self.path / f"{STATE}.new"
        new.write_text(json.dumps(asdict(state), indent=1) + "\n", encoding="utf-8")
        new.replace(self.path / STATE)


def saved_call_of(line: object, values: dict[str, object], step: object = None) -> SavedCall:
    """A call of a saved finding. A TypeError for other objects."""
    if type(line) is not int or not all(isinstance(word, str) for word in values.values()):
        raise TypeError("not a line and words")
    if step is not None and (type(step) is not int or step < 0):
        raise TypeError("not a time that passes")
    return SavedCall(line, {name: f"{word}" for name, word in values.items()}, step)


def state_of(path: Path) -> FolderState:
    try:
        fields = json.loads(path.read_bytes())
        found = fields.pop("found")
        state = FolderState(**fields, found=None if found is None else [saved_call_of(**call) for call in found])
        if type(state.next) is not int or not 0 <= state.next <= MOST_SEQUENCES:
            raise ValueError("not the number of a sequence")
        return state
    except (ValueError, TypeError, KeyError, AttributeError, RecursionError) as error:
        raise UserError(f"{path}: this is not what a run leaves: remove it, or name another folder") from error

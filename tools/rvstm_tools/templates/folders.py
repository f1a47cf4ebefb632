"""The folder of a new contract. The files of its templates are beside this module, and are package data."""

import enum
import re
from dataclasses import dataclass
from pathlib import Path

from rvstm_tools.errors import UserError

FOLDER = Path(__file__).parent
NAME = re.compile("[a-z][a-z0-9_-]{0,30}")
NOT_IN_A_MAKEFILE = re.compile(r'["$#\\\n]')
CRATE_OF_SDK = "contract"
PLACE = re.compile("@(name|sdk|tools)@")


class Language(enum.Enum):
    C = "c"
    RUST = "rust"


OF_ALL = {"contract.list": "{name}.list", "contract.explore": "{name}.explore"}
OF_BOTH = {"Makefile": "Makefile", "README.md": "README.md", "gitignore": ".gitignore", "ci.yml": ".github/workflows/ci.yml"}
OF_LANGUAGE = {
    Language.C: {"contract.c": "{name}.c", "compile_flags.txt": "compile_flags.txt", **OF_BOTH},
    Language.RUST: {
        "main.rs": "src/main.rs", "Cargo.toml": "Cargo.toml", "cargo-config.toml": ".cargo/config.toml", **OF_BOTH,
    },
}
"""The files of a template, and their paths in the folder that is made."""


@dataclass(frozen=True)
class TemplateNames:
    name: str  # of the contract and its files
    sdk: str  # the folder of the SDK
    tools: str  # how a shell runs rvstm-tools


def check_name(name: str, language: Language) -> None:
    """Refuses a name that is none for a contract: it names files, and in Rust a crate."""
    if not NAME.fullmatch(name):
        raise UserError(f"{name}: a name has 1 to 31 of a to z, 0 to 9, _ and -, and begins with a letter")
    if language is Language.RUST and name == CRATE_OF_SDK:
        raise UserError(f"{name}: the crate of the SDK has this name")


def files_of(language: Language, places: TemplateNames) -> dict[str, str]:
    """The text of each file by its path in the folder. A UserError if a Makefile cannot have the paths."""
    if NOT_IN_A_MAKEFILE.search(places.sdk + places.tools):
        raise UserError(f"{places.sdk}: a path with one of \" $ # \\ cannot be in a Makefile; move the SDK")
    texts = {FOLDER / name: path for name, path in OF_ALL.items()}
    texts |= {FOLDER / language.value / name: path for name, path in OF_LANGUAGE[language].items()}
    return {
        path.format(name=places.name): PLACE.sub(lambda found: str(getattr(places, found[1])), source.read_text(encoding="utf-8"))
        for source, path in sorted(texts.items())
    }

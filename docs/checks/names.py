"""Names that several definitions have, or several types of the code, lemmas or classes of Python."""

import re
from collections import defaultdict
from collections.abc import Iterator, Sequence

from checks import calls, definitions, items, sources
from checks.reasons import reasons

LIST = "docs/shared_names.txt"
"""The names that may have several meanings, each with its reason."""

CLASS = re.compile(r"^class (\w+)", re.M)
PYTHON = ("docs", "tools", "tests/gate")
"""The folders whose classes have names of their own. Tests replace classes, and examples stand alone."""

Meanings = dict[str, list[str]]
"""The files that define a name with one text, by that text without its layout."""


def meanings(crates: Sequence[str]) -> dict[str, Meanings]:
    """What each name of a definition means in the files of these crates."""
    found: defaultdict[str, Meanings] = defaultdict(dict)
    for crate in crates:
        for file in sources.spec_files(crate):
            for name, item in items.items(file).by_name.items():
                found[name].setdefault(" ".join(item.code.split()), []).append(file)
    return found


def several(rows: Iterator[tuple[str, str]]) -> dict[str, list[str]]:
    """The names that several files define, each with these files."""
    found: defaultdict[str, list[str]] = defaultdict(list)
    for name, file in rows:
        found[name].append(file)
    return {name: files for name, files in sorted(found.items()) if len(files) > 1}


def classes() -> dict[str, list[str]]:
    paths = sorted(path for folder in PYTHON for path in (sources.TOP / folder).rglob("*.py"))
    return several(
        (name, str(path.relative_to(sources.TOP))) for path in paths for name in CLASS.findall(path.read_text(encoding="utf-8"))
    )


def types(crates: Sequence[str]) -> dict[str, list[str]]:
    return several((name, sources.shown(one.path)) for crate in crates for name, one in definitions.types(crate).items())


def lemmas(crates: Sequence[str]) -> dict[str, list[str]]:
    files = [sources.shown(path) for crate in crates for path in sorted((sources.CRATES / crate / "proofs").rglob("*.antt"))]
    return several((name, file) for file in files for name, item in items.items(file).by_name.items() if "pub" in item.signs and not item.is_answer)


def row(name: str, held: Meanings) -> str:
    return f"{name}: {', '.join(file for files in held.values() for file in files)}"


def listed(crates: Sequence[str]) -> Iterator[str]:
    """The lines that --names prints: names with several meanings, each with its files and its reason, and definitions that are
    written twice."""
    spared = reasons(LIST)
    found = sorted(meanings(calls.chosen_crates(crates)).items())
    shared = [(name, held) for name, held in found if len(held) > 1]
    twice = [(name, files) for name, held in found for files in held.values() if len(files) > 1]
    yield f"{sources.counted(len(shared), 'name')} with several meanings:"
    for name, held in shared:
        yield f"  {row(name, held)}"
        yield from [f"    {spared[name]}"] if name in spared else []
    yield f"{sources.counted(len(twice), 'definition')} written twice:"
    yield from (f"  {name}: {', '.join(files)}" for name, files in twice)
    chosen = calls.chosen_crates(crates)
    for what, names in (("type of the code", types(chosen)), ("public lemma", lemmas(chosen)), ("class", {} if crates else classes())):
        yield f"{what}: {sources.counted(len(names), 'name')} with several meanings"
        for name, files in names.items():
            yield f"  {name}: {', '.join(files)}"
            yield from [f"    {spared[name]}"] if name in spared else []


def faults() -> Iterator[str]:
    """Names of definitions and classes with several meanings and no reason, definitions that are written twice, and reasons for names
    with one meaning."""
    spared = reasons(LIST)
    found = sorted(meanings(calls.chosen_crates([])).items())
    for name, held in found:
        if len(held) > 1 and name not in spared:
            yield f"several meanings: {row(name, held)}"
        for files in held.values():
            if len(files) > 1:
                yield f"written twice: {name}: {', '.join(files)}"
    of_classes = classes()
    yield from (f"several meanings: {name}: {', '.join(files)}" for name, files in of_classes.items() if name not in spared)
    shared = {name for name, held in found if len(held) > 1} | of_classes.keys()
    yield from (f"{LIST}: {name} has one meaning, or is not there" for name in spared if name not in shared)

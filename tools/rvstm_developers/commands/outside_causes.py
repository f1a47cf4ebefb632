import argparse
from dataclasses import dataclass
from pathlib import Path

from rvstm_developers.sources.causes import ALLOCATING, AREAS, CAUSE, KINDS, NAMED, RESULTS, RULES, SIZE, CauseKind
from rvstm_developers.sources.rattle import Group, words
from rvstm_developers.sources.uses import Around, How, RattleFunction, Use, Uses, call_name, is_pattern, is_token, last_call, text_of
from rvstm_developers.texts import TOP
from rvstm_tools.options import Command, argument

HANDED_ON = (How.ARGUMENT, How.LET, How.CONST, How.BLOCK, How.PATTERN, How.CALL, How.FN)
NOT_KNOWN = RattleFunction("", "", [], "")


@dataclass
class CausePlace:
    """A place where a cause is made or handed on; and what refused there, if that is known."""

    path: Path
    line: int
    name: str
    kind: CauseKind
    around: tuple[Around, ...]
    refuser: str | None = None
    call: str | None = ""

    def is_of_area(self) -> bool:
        """Whether the call that refused is one of the area that is reported."""
        return self.name not in AREAS or self.call in AREAS[self.name]

    def function(self) -> str | None:
        return text_of(self.around, How.FN)


def is_made(name: str, use: Use) -> bool:
    """Whether a word makes a cause: a variant of an enumeration, or the error of the kit as a value."""
    after = use.after()
    if is_pattern(use.items[: use.index]) or is_token(after, "::"):
        return False
    if name == "AllocError":
        return len(use.items) == 1
    if name == "AllocFailed":
        return isinstance(after, Group) and len(use.items) == 2 and words(after.items) != ". ."
    return use.index > 1 and is_token(use.before(), "::")


class Check:
    def __init__(self, uses: Uses) -> None:
        self.uses = uses
        self.places: list[CausePlace] = []
        self.seen: set[tuple[Path, int, str, int]] = set()
        for functions in list(uses.functions.values()):
            for function in functions:
                if function.hands_back():
                    self.note_errors(function)
        for name, kind in KINDS.items():
            for use in uses.words.get(name, []):
                if is_made(name, use):
                    before = use.before()
                    is_bare = before is None or isinstance(before, Group)
                    self.note(kind, name if is_bare else words(use.items[use.index - 2 : use.index + 1]), use)
        for use in uses.words.get("Failure", []):
            if use.index + 2 < len(use.items) and is_token(use.after(), "::") and not is_pattern(use.items[: use.index]):
                self.note(CauseKind.MEMORY, words(use.items[use.index : use.index + 3]), use)

    def note_errors(self, function: RattleFunction) -> None:
        """Notes each `Err` of a function that hands back what it was handed."""
        for use in self.uses.words.get("Err", []):
            is_there = Around(How.FN, function.name) in use.around and text_of(use.around, How.IMPL) == function.owner
            if is_there and not is_pattern(use.items[: use.index]):
                self.note(CauseKind.MEMORY, "Err", use)

    def note(self, kind: CauseKind, name: str, use: Use) -> None:
        """Notes a place, and looks for what refused there."""
        line = use.items[use.index].line
        key = (use.path, line, name, use.index)
        if key in self.seen:
            return
        self.seen.add(key)
        place = CausePlace(use.path, line, name, kind, use.around)
        self.places.append(place)
        place.refuser = self.refuser(place) or self.followed(place)

    def refuser(self, place: CausePlace) -> str | None:
        """What refused, of what is around a place; None if nothing did."""
        kind = place.kind
        for one in reversed(place.around):
            how, text = one.how, one.text
            is_nothing_taken = place.name.endswith(":: WroteNothing") and text == "Ok (0)"
            if how is How.PATTERN and (NAMED[kind].search(text) or is_nothing_taken):
                place.call = call_name(one.scrutinee) or place.function()
                return text
            if how is How.ENDLESS or how is How.AFTER and NAMED[kind].search(text):
                return text
            is_refused = how is How.RULE and RULES[kind].search(text) or how is How.CALL and self.fails_for(kind, text)
            if is_refused or how is How.BACK and kind is CauseKind.MEMORY and self.hands_back(text):
                place.call = call_name(text)
                return text
        return None

    def hands_back(self, call: str) -> bool:
        """Whether each function that a call may be hands back what it was handed."""
        return all(function.hands_back() for function in self.called(call) or [NOT_KNOWN])

    def fails_for(self, kind: CauseKind, call: str) -> bool:
        if RULES[kind].search(call) or (kind is CauseKind.MEMORY and SIZE.search(call)):
            return True
        found = self.called(call)
        if not found:
            last = last_call(call)
            return kind is CauseKind.MEMORY and (last.name in ALLOCATING or f"{last.owner} :: {last.name}" in ALLOCATING)
        return all(RESULTS[kind].search(function.result) or (kind is CauseKind.MEMORY and function.hands_back()) for function in found)

    def called(self, call: str) -> list[RattleFunction]:
        last = last_call(call)
        found = self.uses.functions.get(last.name, [])
        if last.is_method:
            return [function for function in found if function.owner is not None]
        return [function for function in found if function.owner == (last.owner or None)]

    def followed(self, place: CausePlace) -> str | None:
        """What the cause of a place is handed to, whose uses are places in turn; None if that is not known."""
        one = next((one for one in reversed(place.around) if one.how in HANDED_ON), Around(How.BLOCK, ""))
        name = place.function()
        functions = self.uses.functions.get(name, []) if name is not None else []
        makes = len(functions) == 1 and functions[0].makes_cause()
        if one.how is How.ARGUMENT and not makes:
            functions = [function for function in self.uses.functions.get(one.text, []) if len(function.parameters) == one.count]
            given = [function.parameters[one.number] for function in functions]
            names = {parameter.name for parameter in given if CAUSE.search(parameter.type)}
            if len(names) == 1 and self.follow(place.kind, names.pop(), one.text):
                place.call = one.text
                return f"handed to {one.text}"
        if one.how in (How.LET, How.CONST) and self.follow(place.kind, one.text, None if one.how is How.CONST else place.function()):
            return f"kept as {one.text}"
        if name is not None and len(functions) == 1 and CAUSE.match(functions[0].result) and self.follow_calls(place.kind, name):
            place.call = name
            return f"reported by {name}"
        return None

    def follow(self, kind: CauseKind, name: str, function: str | None) -> bool:
        """Notes each use of a name, in a function or everywhere. Returns whether there is one."""
        uses = [use for use in self.uses.words.get(name, []) if function is None or Around(How.FN, function) in use.around]
        uses = [use for use in uses if not is_pattern(use.items[: use.index]) and not use.is_declared()]
        for use in uses:
            self.note(kind, name, use)
        return bool(uses)

    def follow_calls(self, kind: CauseKind, name: str) -> bool:
        """Notes each call of a function. Returns whether there is one."""
        uses = [use for use in self.uses.words.get(name, []) if not is_token(use.before(), "fn") and use.is_call()]
        for use in uses:
            self.note(kind, name, use)
        return bool(uses)


def run(given: argparse.Namespace) -> int:
    places = Check(Uses(given.folder)).places
    for place in sorted(places, key=lambda place: (str(place.path), place.line)):
        path = place.path.relative_to(TOP) if TOP in place.path.parents else place.path
        where = f"{path}:{place.line}: {place.name}"
        if place.refuser is None:
            print(f"{where} is reported, and no error of its kind leads here")
        elif not place.is_of_area():
            print(f"{where} is reported if {place.call} refused, which is none of its area's calls")
        elif given.places:
            print(f"{where} by {place.refuser}")
    wrong = sum(place.refuser is None or not place.is_of_area() for place in places)
    print(f"{len(places)} places, {wrong} wrong")
    return 1 if wrong else 0


COMMAND = Command(
    "Checks that a cause from outside is reported only if the outside reported it.",
    "--places",
    run,
    (
        argument("--places", action="store_true", help="prints each place, and the call or the error that refused"),
        argument("folder", metavar="FOLDER", type=Path, nargs="?", default=TOP / "crates", help="the crates; those of this checkout without it"),
    ),
)

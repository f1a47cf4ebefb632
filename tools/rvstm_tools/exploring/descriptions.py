"""Descriptions of random calls: what is drawn, the calls, and what has to hold (`rvstm-tools explore --help`)."""

import os
import re
from collections.abc import Iterable, Mapping
from dataclasses import dataclass, field
from pathlib import Path
from random import Random
from types import CodeType

from rvstm_tools import errors
from rvstm_tools.errors import UserError
from rvstm_tools.exploring import expressions, places, storages
from rvstm_tools.exploring.expressions import MODEL, OF_BEFORE, OF_CALLS, OF_STORAGE, Rule
from rvstm_tools.exploring.models import ModelClass
from rvstm_tools.exploring.places import NumberSpans, Place, Value, Words
from rvstm_tools.texts import blocks, lists, words
from rvstm_tools.texts.keys import Key
from rvstm_tools.texts.lists import BlockReader, Line
from rvstm_tools.texts.results import TRAPS, End

PLACE = re.compile(r"\{(?:([A-Za-z_]\w*)=)?([A-Za-z_]\w*)\}")
ANY_PLACE, BRACES = re.compile(r"\{[A-Za-z_]\w*\}"), re.compile("[{}]")
LET = re.compile(r"([A-Za-z_]\w*)\s*=\s*(.*)")
OTHER_ENDS = (End.OUT_OF_GAS, *TRAPS)
FIRST_TIME = re.compile("u(8|16|32|64):[0-9]+")
WRONG_TIME = (
    "time: a key, a first value such as u64:1000, and the seconds that may pass before a block, as numbers or ranges, follow it, once and "
    "before all calls"
)
KINDS = "rules, include, program, shape, store, time, draw, let, model, always, call, method, returned, reverted, holds, may-end or storage"
OF_BLOCKS = ("rules", "program", "shape", "store")
OF_RULES = ("always", "returned", "reverted", "holds")


@dataclass(frozen=True)
class Method:
    line: int
    name: str


@dataclass(frozen=True)
class Time:
    """The time that a node writes before each block: its key, by a word and by its bytes, the first value, and what is added to it."""

    word: str
    key: Key
    bits: int
    first: int
    steps: NumberSpans

    def drawn(self, random: Random) -> int:
        """The seconds that pass."""
        step = self.steps.drawn(random, [])
        assert isinstance(step, int)
        return step

    def less(self, step: int) -> list[int]:
        """Steps that are less than one, which may be the sum of several: ends of the ranges, and those nearer to it."""
        ends = sorted(end for end in self.steps.samples() if isinstance(end, int) and end < step)
        return ends + [less for less in self.steps.simpler(step) if isinstance(less, int)]

    def after(self, time: int, step: int) -> int:
        """The value after it; at most the greatest of its bits."""
        return min(time + step, (1 << self.bits) - 1)

    def store_words(self, time: int) -> list[str]:
        return ["store", self.word, f"u{self.bits}:{time}"]


@dataclass
class CallLineKind:
    """A line `call`: its number and text, the program, the gas, and the words of the input with places in them."""

    line: int
    text: str
    program: str
    gas: int
    words: list[str]
    places: Mapping[str, Place]  # what may be there, by the names that calls give it
    rules: list[Rule] = field(default_factory=list)
    ends: set[End] = field(default_factory=lambda: {End.RETURNED, End.REVERTED})  # how it may end
    method: Method | None = None  # what a model is asked for

    def words_with(self, values: Mapping[str, Value]) -> list[str]:
        return [word.format_map(values) for word in self.words]

    def data(self, values: Mapping[str, Value]) -> bytes:
        return b"".join(map(storages.bytes_of, self.words_with(values)))

    def check(self) -> None:
        """Refuses a word of the input that is not one, whatever is in its places."""
        simplest = {name: place.samples()[0] for name, place in self.places.items()}
        self._check_with(simplest)
        for name, place in self.places.items():
            for sample in place.samples():
                self._check_with({**simplest, name: sample})

    def _check_with(self, values: Mapping[str, Value]) -> None:
        given = [word for word in self.words_with(values) if word]
        words.joined(given, blocks.LONGEST_INPUT, "an input")


class Description:
    def __init__(self, path: str) -> None:
        self.path = path
        self.blocks = BlockReader({})
        self.places: dict[str, Place] = {}
        self.lets: dict[str, Rule] = {}
        self.always: list[Rule] = []
        self.at_end: list[Rule] = []
        self.kinds: list[CallLineKind] = []
        self.stores: list[str] = []  # the lines `store`
        self.shapes: list[str] = []  # the lines `shape`
        self.dump: str | None = None  # the file of the storage that they are put over
        self.folder = Path(os.path.abspath(path)).parent  # where paths are taken from
        self.model: ModelClass | None = None
        self.time: Time | None = None
        self.is_over = False
        self.files = [path]  # that it consists of
        with open(path, encoding="utf-8", errors="surrogateescape") as file:
            for number, text in enumerate(file, 1):
                with lists.placed(path, number):
                    lists.check_encoding(text)
                    self._take(text.strip(), number)
        errors.warn(path, self.blocks.view.doubts(word for text in self.stores for word in words.words_of(text)))
        if not self.kinds:
            raise UserError(f"{path}: there is no line `call`")
        self.programs = {name: str(self.folder / program.path) for name, program in self.blocks.block.programs.items()}
        """The files of the programs, by their names."""

    def word_places(self) -> dict[str, Words]:
        return {name: place for name, place in self.places.items() if isinstance(place, Words)}

    def replace(self, given: Iterable[str]) -> None:
        """Puts other programs in place of some, each by a word NAME=PATH."""
        for word in given:
            name, _, path = word.partition("=")
            if name not in self.programs or not path:
                raise UserError(f"{word}: it is NAME=PATH, with the name of a program of {self.path}")
            self.programs[name] = os.path.abspath(path)

    # ---- lines

    def _take(self, text: str, number: int) -> None:
        kind, _, rest = text.partition(" ")
        if kind == "let":
            self._take_let(rest.strip(), number)
        elif kind in OF_RULES:
            self._take_rule(kind, rest.strip(), number)
        else:
            found = words.words_of(text)
            if found:
                self._take_words(Line(self.path, number, found), text)

    def _take_words(self, line: Line, text: str) -> None:
        takers = {
            "draw": self._take_draw, "may-end": self._take_ends, "model": self._take_model, "method": self._take_method,
            "storage": self._take_storage, "time": self._take_time,
        }
        if line.kind in OF_BLOCKS:
            self.blocks.take(line)
            if line.kind in ("store", "shape"):
                (self.stores if line.kind == "store" else self.shapes).append(text)
        elif line.kind == "include":
            lists.take_included(line, lambda other: self._take_words(other, other.text))
            self.files.append(str(self.folder / line.words[1]))
        elif line.kind == "call":
            self._take_call(line, text)
        elif line.kind in takers:
            takers[line.kind](line)
        else:
            raise UserError(f"{line.kind}: not {KINDS}")

    def _take_draw(self, line: Line) -> None:
        given = line.words[1:]
        name = expressions.new_name(given[0] if given else "")
        if name in self.places:
            raise UserError(f"{name}: another line `draw` has this name")
        self.places[name] = places.place_of(name, given[1:])

    def _take_let(self, text: str, number: int) -> None:
        found = LET.fullmatch(text)
        if not found:
            raise UserError("let: NAME = EXPRESSION follows it")
        name = expressions.new_name(found[1])
        if name in self.lets or any(name in kind.places for kind in self.kinds):
            raise UserError(f"{name}: this name is taken")
        code = self._code_of(found[2], self._known() - {"before"})
        self.lets[name] = Rule("let", number, text, code)

    def _known(self) -> frozenset[str]:
        return OF_STORAGE | set(self.lets) | ({MODEL} if self.model else set())

    def _code_of(self, text: str, known: frozenset[str]) -> CodeType:
        names = {"": known, "before": OF_BEFORE | set(self.lets), "every": frozenset(self.word_places())}
        return expressions.code_of(text, self.path, names)

    def _take_rule(self, when: str, text: str, number: int) -> None:
        known = self._known()
        if when == "always":
            rules = self.always
        elif self.is_over:
            if when != "holds":
                raise UserError(f"{when}: only lines `holds` may follow `storage`")
            rules = self.at_end
        else:
            kind = self._last_kind(when)
            rules, known = kind.rules, known | OF_CALLS | set(kind.places)
        rules.append(Rule(when, number, text, self._code_of(text, known)))
        expressions.check_constant(text)

    def _last_kind(self, word: str) -> CallLineKind:
        if not self.kinds or self.is_over:
            raise UserError(f"{word}: no call is above it; `always` holds after each call")
        return self.kinds[-1]

    def _take_call(self, line: Line, text: str) -> None:
        if len(line.words) < 3 or self.is_over:
            raise UserError("call: a program's name, the gas and the input follow it, and no line `storage` is above it")
        _, program, gas_word, *data = line.words
        named = self._places_of(" ".join(data))
        gas = self.blocks.gas_of(program, gas_word)
        forms = [PLACE.sub(lambda found: f"{{{found[1] or found[2]}}}", word) for word in data]
        for word in forms:
            if BRACES.search(ANY_PLACE.sub("", word)):
                raise UserError(f"{word}: a place is {{NAME}} or {{OTHER=NAME}}")
        kind = CallLineKind(line.number, text.partition(" #")[0].rstrip(), program, gas, forms, named)
        kind.check()
        self.kinds.append(kind)

    def _places_of(self, text: str) -> dict[str, Place]:
        """The places of a call, by the names that it gives them."""
        named: dict[str, Place] = {}
        for found in PLACE.finditer(text):
            given, name = found.groups()
            if name not in self.places:
                raise UserError(f"{name}: no line `draw` above has this name")
            place = given or name
            if expressions.new_name(place) in self.lets or place in named:
                raise UserError(f"{place}: this name is taken; {{OTHER={name}}} gives another one")
            named[place] = self.places[name]
        return named

    def _take_ends(self, line: Line) -> None:
        given, kind = line.words[1:], self._last_kind("may-end")
        wrong = [word for word in given if word not in OTHER_ENDS]
        if wrong or not given:
            raise UserError(f"{' '.join(wrong) or 'may-end'}: it is followed by some of {', '.join(OTHER_ENDS)}")
        kind.ends |= set(map(End, given))

    def _take_model(self, line: Line) -> None:
        if len(line.words) != 3 or self.model or self.kinds:
            raise UserError("model: a file of Python and the name of a class follow it; it comes once, before all calls")
        path, name = map(words.name_of, line.words[1:])
        self.model = ModelClass(self.folder / path, name)

    def _take_method(self, line: Line) -> None:
        kind = self._last_kind("method")
        if len(line.words) != 2 or kind.method or not self.model:
            raise UserError("method: the name of a method follows it, once for a call; a line `model` is above it")
        name = words.name_of(line.words[1])
        self.model.check_method(name, kind.places)
        kind.method = Method(line.number, name)

    def _take_time(self, line: Line) -> None:
        found = FIRST_TIME.fullmatch(line.words[2]) if len(line.words) > 3 else None
        steps = places.place_of("time", line.words[3:]) if found else None
        if not found or not isinstance(steps, NumberSpans) or self.time or self.kinds:
            raise UserError(WRONG_TIME)
        word, first = line.words[1:3]
        self.time = Time(word, words.key_of(word), int(found[1]), int.from_bytes(words.bytes_of(first), "little"), steps)
        self._take_words(Line(line.path, line.number, ["store", word, first]), f"store {word} {first}")

    def _take_storage(self, line: Line) -> None:
        if lists.is_dump(line) and not self.kinds:
            self.blocks.take(line)
            self.dump = str(self.folder / line.words[1])
        elif lists.is_dump(line) or self.is_over:
            raise UserError(lists.STORAGE)
        else:
            self.is_over = True

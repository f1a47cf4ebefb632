"""How people see keys, values and inputs: by the words and shapes of a list, or by what their bytes may be."""

import re
from collections.abc import Iterable, Iterator, Sequence
from dataclasses import dataclass, field

from rvstm_tools.errors import UserError
from rvstm_tools.texts import blocks, differences, keys, rows, shapes, shown, words
from rvstm_tools.texts.differences import Difference
from rvstm_tools.texts.keys import Key
from rvstm_tools.texts.results import Change, Written
from rvstm_tools.texts.rows import Row
from rvstm_tools.texts.shapes import Field, FieldKind, Misfit, Part, Shape

LONGEST_VALUE = 256
ROW_TARGET = re.compile(r"row:([^:\[]*)(?:\[(.*)\])?")
TABLE_TARGET = re.compile("table:[^:]+")
BARE = re.compile(r"[A-Za-z_][\w.-]*", re.ASCII)  # of a key or an account whose text is shown without quotes
FIELDS_AROUND = 1  # how many fields are shown before and after the one that differs, if all are too long for a line


@dataclass
class View:
    names: dict[Key, str] = field(default_factory=dict)  # the words by which keys are called
    of_keys: dict[Key, Shape] = field(default_factory=dict)
    of_tables: dict[str, Shape] = field(default_factory=dict)
    """The shapes of the values of all rows of a table, by the words that begin its keys, such as `row:lots`."""
    rows: dict[str, tuple[Field, ...]] = field(default_factory=dict)  # the fields of the rows of a table, in its keys
    long_tables: set[str] = field(default_factory=set)  # the tables whose rows have 28 bytes
    short_tables: set[str] = field(default_factory=set)  # the tables whose rows have at most 27 bytes
    inputs: dict[str, Shape] = field(default_factory=dict)

    # ---- lines of a list

    def take_names(self, given: Sequence[str]) -> None:
        """Keeps the words of a line that say keys of tables, to call these keys so."""
        for word in given:
            if word.startswith(("table:", "row:")):
                self.names[words.key_of(word)] = word
                if word.startswith("row:"):
                    self._take_row(word, words.row_of(word))

    def _take_row(self, word: str, row: Row) -> None:
        """Keeps which rows a table has, and refuses one that is longer or shorter than the others may be."""
        ours, others = (self.long_tables, self.short_tables) if row.is_long else (self.short_tables, self.long_tables)
        if row.table in others:
            lengths = f"at most {rows.LONGEST_SHORT_ROW}" if row.is_long else f"{rows.LONG_ROW}"
            raise UserError(f"{word}: it has {len(row.data)} bytes, and the other rows of {row.table} have {lengths}")
        ours.add(row.table)

    def doubt(self, word: str) -> str:
        """A warning of a word `row:` with a text where the shape has an account, and so of another key; or nothing."""
        row = words.row_of(word)
        fields = self.rows.get(row.table, ())
        parts = word.split(":", 2)[2].split(",")
        if len(parts) != len(fields) or row.key in self.of_keys or not isinstance(Shape(fields).parts(row.data), Misfit):
            return ""
        meant = [f"key:{part}" if field.kind is FieldKind.ACCOUNT and ":" not in part else part for field, part in zip(fields, parts)]
        key = f"row:{row.table}:{','.join(meant)}"
        return f"{word}: a text, and its shape has an account there; the key of the account is {key}" if key != word else ""

    def doubts(self, given: Iterable[str]) -> Iterator[str]:
        """The warnings of some words, each once, in their order."""
        yield from filter(None, map(self.doubt, dict.fromkeys(word for word in given if word.startswith("row:"))))

    def take_shape(self, given: Sequence[str]) -> None:
        """Takes the words after `shape`: a key, `row:TABLE`, `table:TAG` or `input NAME`, and fields."""
        if not given:
            raise UserError("shape: a key, row:TABLE, table:TAG or `input NAME` follows it, and then fields")
        target, *of_fields = given
        if target == "input":
            self._take_input(of_fields)
        elif found := ROW_TARGET.fullmatch(target):
            self._take_rows(target, found, of_fields)
        elif TABLE_TARGET.fullmatch(target):
            self._take_table(target, of_fields)
        else:
            key = words.key_of(target)
            if key in self.of_keys:
                raise another(target)
            self.of_keys[key] = shapes.shape_of(of_fields, LONGEST_VALUE, "a value")

    def _take_input(self, given: Sequence[str]) -> None:
        name = given[0] if given else ""
        if not shapes.NAME.fullmatch(name):
            raise UserError(f"input: a name of letters, digits and _ follows it{f', and not {name}' if name else ''}")
        if name in self.inputs:
            raise another(f"input {name}")
        self.inputs[name] = shapes.shape_of(given[1:], blocks.LONGEST_INPUT, "an input")

    def _take_table(self, table: str, of_fields: Sequence[str]) -> None:
        if table in self.of_tables:
            raise another(table)
        self.of_tables[table] = shapes.shape_of(of_fields, LONGEST_VALUE, "a value")

    def _take_rows(self, target: str, found: re.Match[str], of_fields: Sequence[str]) -> None:
        table, of_row = found.groups()
        if not rows.TABLE.fullmatch(table):
            raise UserError(f"{target}: the name of a table has 1 to 4 letters, a to z or A to Z")
        self._take_table(f"row:{table}", of_fields)
        if of_row is not None:
            shape = shapes.shape_of(of_row.split(","), rows.LONG_ROW, "a row")
            if shape.repeated:
                raise UserError(f"{target}: no part of a row is repeated")
            self.rows[table] = shape.fields
            if shape.least == rows.LONG_ROW:
                self.long_tables.add(table)

    # ---- keys

    def key(self, key: Key) -> str:
        """A key by its word in the list; or as a row of a table; or as a text or in hex."""
        return self.names.get(key) or self._row_word(key) or shown.shown_key(key)

    def word_of_key(self, key: Key) -> str:
        return self.names.get(key) or self._row_word(key) or key.hex()

    def _row_word(self, key: Key) -> str:
        row = rows.row_of(key, frozenset(self.long_tables))
        if not row:
            return ""
        parts = Shape(self.rows.get(row.table, ())).parts(row.data)
        if isinstance(parts, Misfit):
            return words.word_of_row(row)
        return f"row:{row.table}:{','.join(map(word_in_row, parts))}"

    # ---- values

    def shape_at(self, key: Key) -> Shape | None:
        """The shape of the value at a key, if the list has one."""
        if key in self.of_keys:
            return self.of_keys[key]
        row, name = rows.row_of(key, frozenset(self.long_tables)), self.names.get(key, "")
        return self.of_tables.get(f"row:{row.table}" if row else name.rpartition(":")[0])

    def value(self, key: Key, data: bytes, *, is_short: bool = False) -> str:
        """A value by its fields; in hex without a shape, and with the reason if it does not fit. A short one is cut."""
        shape, in_hex = self.shape_at(key), (differences.short_bytes if is_short else shown.shown_bytes)(data)
        if not shape:
            return in_hex
        parts = shape.parts(data)
        if isinstance(parts, Misfit):
            return f"{in_hex}  (not its shape: {parts.reason})"
        return differences.cut(self.fields(parts)) if is_short else self.fields(parts)

    def short_value(self, key: Key, data: bytes) -> str:
        return self.value(key, data, is_short=True)

    def words_of_value(self, key: Key, data: bytes) -> list[str]:
        """Words of a list that say a value: one for each field if it has a shape."""
        shape = self.shape_at(key)
        parts = shape.parts(data) if shape else Misfit("")
        if isinstance(parts, Misfit):
            return [words.word_of(data)]
        return [word for part in parts for word in self._words_of_part(part)]

    def change(self, key: Key, change: Change) -> str:
        """What a call did to a key: the value, `gone`, or the amount with its sign."""
        return self.value(key, change.value) if isinstance(change, Written) else shown.shown_change(change)

    def short_change(self, key: Key, change: Change) -> str:
        return self.short_value(key, change.value) if isinstance(change, Written) else shown.shown_change(change)

    def difference(self, key: Key, wanted: Change, came: Change) -> Difference:
        """The difference of two changes of a key that differ: of values with a shape the first field that does."""
        shape = self.shape_at(key)
        if not (shape and isinstance(wanted, Written) and isinstance(came, Written)):
            return self._difference_without_shape(key, wanted, came)
        sides = [shape.parts(change.value) for change in (wanted, came)]
        one, other = sides
        if isinstance(one, Misfit) or isinstance(other, Misfit):
            return Difference(self.short_value(key, wanted.value), self.short_value(key, came.value))
        return self._difference_of_parts(one, other)

    def _difference_without_shape(self, key: Key, wanted: Change, came: Change) -> Difference:
        if isinstance(wanted, Written) and isinstance(came, Written):
            return differences.of_bytes(wanted.value, came.value)
        return Difference(self.short_change(key, wanted), self.short_change(key, came))

    def _difference_of_parts(self, wanted: Sequence[Part], came: Sequence[Part]) -> Difference:
        place = differences.place_of([part.data for part in wanted], [part.data for part in came])
        longer = max(wanted, came, key=len)
        texts = [self.fields(parts) for parts in (wanted, came)]
        if max(map(len, texts)) > differences.LONGEST_TEXT:
            texts = [self._fields_around(parts, place) for parts in (wanted, came)]
        return Difference(texts[0], texts[1], f"at {longer[place].label}" if len(longer) > 1 else "")

    def _fields_around(self, parts: Sequence[Part], place: int) -> str:
        start, end = max(0, place - FIELDS_AROUND), min(len(parts), place + FIELDS_AROUND + 1)
        before, after = differences.dots(start, end, len(parts))
        return ", ".join(filter(None, [before, differences.cut(self.fields(parts[start:end])), after]))

    # ---- fields

    def fields(self, parts: Sequence[Part]) -> str:
        """Fields for people, each with its name if it has one. Those that are always the same are left out."""
        shown_parts = [part for part in parts if part.field.kind is not FieldKind.FIXED]
        texts = (f"{part.field.name} {self.field(part)}".lstrip() for part in shown_parts)
        return ", ".join(texts) or "-"

    def field(self, part: Part) -> str:
        data = part.data
        match part.field.kind:
            case FieldKind.UNSIGNED | FieldKind.SIGNED:
                return str(number_of(part))
            case FieldKind.KEY:
                return self.called(Key(data))
            case FieldKind.ACCOUNT:
                return shown_name(data)
            case FieldKind.TEXT:
                return f'"{data.rstrip(bytes(1)).decode()}"'
            case _:  # BYTES and FIXED
                return data.hex() or "-"

    def called(self, key: Key) -> str:
        """A key that is a field: by its text, by its word in the list, as a row, by its number, or in hex."""
        return name_of(key) or self.names.get(key) or self._row_word(key) or numbered(key) or key.hex()

    def _words_of_part(self, part: Part) -> list[str]:
        data, kind = part.data, part.field.kind
        if kind in (FieldKind.UNSIGNED, FieldKind.SIGNED):
            return [word_of_number(part)]
        if kind is FieldKind.KEY:
            return [self._word_of_key_field(Key(data))]
        if kind is FieldKind.ACCOUNT:
            return [f"account:{name}" if (name := text_of(data)) else data.hex()]
        if kind is FieldKind.TEXT and b'"' not in data:
            text = data.rstrip(b"\0")
            return [f'"{text.decode()}"', *([data[len(text) :].hex()] if len(data) > len(text) else [])]
        return [part.field.word if kind is FieldKind.FIXED else data.hex() or '""']

    def _word_of_key_field(self, key: Key) -> str:
        text = f"key:{name}" if (name := text_of(key)) else ""
        return self.names.get(key) or self._row_word(key) or text or numbered(key) or key.hex()

    # ---- inputs

    def name_of_input(self, data: bytes) -> str:
        """The name of the first shape that an input fits; empty if it fits none."""
        return next((name for name, shape in self.inputs.items() if not isinstance(shape.parts(data), Misfit)), "")

    def input(self, data: bytes) -> str:
        """An input by the first shape that it fits, as NAME(FIELDS); empty if the list has no shapes of inputs."""
        name = self.name_of_input(data)
        parts = self.inputs[name].parts(data) if name else Misfit("it fits no shape of an input")
        if isinstance(parts, Misfit):
            return f"{differences.short_bytes(data)}  ({parts.reason})" if self.inputs else ""
        has_fields = any(part.field.kind is not FieldKind.FIXED for part in parts)
        return f"{name}({self.fields(parts) if has_fields else ''})"


def another(target: str) -> UserError:
    """What is reported of a second shape."""
    return UserError(f"{target}: another line `shape` has it")


def number_of(part: Part) -> int:
    return int.from_bytes(part.data, "little", signed=part.field.kind is FieldKind.SIGNED)


def word_of_number(part: Part) -> str:
    return f"{'i' if part.field.kind is FieldKind.SIGNED else 'u'}{8 * len(part.data)}:{number_of(part)}"


def text_of(data: bytes) -> str:
    """The text of a key or an account: what is before its zeros, if a word can say it; otherwise nothing."""
    text = data.rstrip(b"\0")
    return text.decode() if words.is_text_in_row(text) else ""


def name_of(data: bytes) -> str:
    """The text of a key or an account for people, in quotes if it is ambiguous; nothing if it is no text."""
    text = data.rstrip(b"\0")
    if not text or not shown.is_name(text):
        return ""
    return text.decode() if BARE.fullmatch(text.decode()) else f'"{text.decode()}"'


def shown_name(data: bytes) -> str:
    """An account or other bytes by their text, and otherwise in hex; `0` if they are zeros."""
    return name_of(data) or (data.hex() if any(data) else "0")


def numbered(key: Key) -> str:
    """A key whose last byte alone is not zero, by its number."""
    return f"key:{key[-1]}" if not any(key[:-1]) else ""


def word_in_row(part: Part) -> str:
    match part.field.kind:
        case FieldKind.UNSIGNED | FieldKind.SIGNED:
            return word_of_number(part)
        case FieldKind.ACCOUNT if name := text_of(part.data):
            return f"key:{name}"
        case FieldKind.TEXT if words.is_text_in_row(part.data):
            return part.data.decode()
    return f"hex:{part.data.hex()}"

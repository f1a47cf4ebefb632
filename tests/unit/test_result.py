"""Results for people and as JSON. The table is written by hand, and each object is checked by the schema that --schema prints."""

import json
import re
import unittest
from typing import Any

from unit.helpers import InFolder, called_with

Form = dict[str, Any]

ZERO, ALICE = "00" * 32, b"alice".hex().ljust(64, "0")
REGISTERS = " ".join(f"{number:08x}" for number in range(32))
RESULT = f"""\
call 0 returned gas 639 pc 00010034 out 07000000
regs {REGISTERS}
write 0 {ALICE} 6869
write 0 {ZERO} add 18446744073709551615
call 1 out-of-gas gas 10000000 pc 00010000 out -
regs {REGISTERS}
call 2 reverted gas 12 pc 0001ffff out 6e6f21
regs {REGISTERS}
write 2 {ZERO} gone
store {ALICE} 6869
store {"ff" * 32} -
end
"""
TABLE = """\
call  end                   gas  pc        output
   0  returned              639  00010034  07000000  7
      wrote "alice": "hi"  6869  26984
      wrote 00: +18446744073709551615
   1  out-of-gas       10000000  00010000  -
   2  reverted               12  0001ffff  "no!"  6e6f21
      wrote 00: gone
storage
      "alice": "hi"  6869  26984
      ffffffffffffffffffffffffffffffffffffffffffffffffffffffffffffffff: -
"""
NAMES_OF_REGISTERS = "zero ra sp gp tp t0 t1 t2 s0 s1 a0 a1 a2 a3 a4 a5 a6 a7 s2 s3 s4 s5 s6 s7 s8 s9 s10 s11 t3 t4 t5 t6".split()
ROWS_OF_REGISTERS = "".join(
    "  ".join(f"{name:>{12 if at == 0 else 4}} {8 * row + at:08x}" for at, name in enumerate(NAMES_OF_REGISTERS[8 * row : 8 * row + 8])) + "\n"
    for row in range(4)
)
OBJECTS: list[Form] = [
    {"kind": "call", "call": 0, "end": "returned", "gas": 639, "pc": "00010034", "output": "07000000", "writes": [
        {"key": ALICE, "value": "6869"}, {"key": ZERO, "add": "18446744073709551615"}]},
    {"kind": "call", "call": 1, "end": "out-of-gas", "gas": 10000000, "pc": "00010000", "output": "", "writes": []},
    {"kind": "call", "call": 2, "end": "reverted", "gas": 12, "pc": "0001ffff", "output": "6e6f21", "writes": [
        {"key": ZERO, "gone": True}]},
    {"kind": "store", "key": ALICE, "value": "6869"},
    {"kind": "store", "key": "ff" * 32, "value": ""},
    {"kind": "end", "calls": 3, "keys": 2},
]


def schema() -> Form:
    form: Form = json.loads(called_with("", "result", "--schema")[1])
    return form


def is_as(value: Any, form: Form, root: Form) -> bool:
    """Whether a value of JSON is as a schema says; of the words that this schema has."""
    if "$ref" in form:
        return is_as(value, root["$defs"][form["$ref"].rpartition("/")[2]], root)
    return all(meets(value, word, said, form, root) for word, said in form.items())


def meets(value: Any, word: str, said: Any, form: Form, root: Form) -> bool:
    """Whether a value is as one word of a schema says."""
    match word:
        case "oneOf":
            return sum(is_as(value, one, root) for one in said) == 1
        case "type":
            return bool(type(value).__name__ == {"object": "dict", "array": "list", "string": "str", "integer": "int"}[said])
        case "const" | "enum":
            return any(value == one and type(value) is type(one) for one in (said if word == "enum" else [said]))
        case "pattern":
            return re.search(said, value) is not None
        case "minimum" | "minItems":
            return bool((len(value) if word == "minItems" else value) >= said)
        case "maximum" | "maxItems":
            return bool((len(value) if word == "maxItems" else value) <= said)
        case "items":
            return all(is_as(item, said, root) for item in value)
        case "required":
            return set(said) <= set(value)
        case "additionalProperties":
            return set(value) <= set(form["properties"])
        case "properties":
            return all(is_as(value[name], one, root) for name, one in said.items() if name in value)
    return word in ("$schema", "$defs", "description")


class Table(InFolder):
    def test_a_table(self) -> None:
        self.assertEqual(called_with(RESULT, "result"), (0, TABLE, ""))

    def test_registers(self) -> None:
        lines = TABLE.splitlines(keepends=True)
        wanted = "".join(line + (ROWS_OF_REGISTERS if re.match(" *[0-9]+  ", line) else "") for line in lines)
        self.assertEqual(called_with(RESULT, "result", "--registers"), (0, wanted, ""))

    def test_an_empty_result_has_a_head(self) -> None:
        self.assertEqual(called_with("end\n", "result"), (0, TABLE.splitlines(keepends=True)[0], ""))

    def test_keys_by_the_words_of_a_list(self) -> None:
        """The key is what `sha256sum` prints for `t`, 31 zeros and 1."""
        key = "25a281fdc20f54575ee87522c599416fcbdf73014df2803b73c713b63616670a"
        path = self.write("a.list", "program a a.elf\nstore table:t:1 u8:1\n")
        status, output, _ = called_with(f"store {key} 01\nend\n", "result", "--list", path)
        self.assertEqual((status, output.splitlines()[-1]), (0, "      table:t:1: 01  1"))

    def test_messages(self) -> None:
        nothing = "nothing was read: rvstm was refused or did not run, and its own line says why"
        for text, message in {
            "": nothing,
            "call 0 returned gas 639": "line 1 of the result is cut, or not one of a result: call 0 returned gas 639",
            "store 00 00\nend\n": "line 1 of the result is cut, or not one of a result: store 00 00",
            "write 0 " + ZERO + " gone\nend\n": f"line 1 of the result is cut, or not one of a result: write 0 {ZERO[:52]}",
            f"store {ZERO} 00\n": "the last line is not `end`, so it is no whole result",
        }.items():
            with self.subTest(message):
                status, _, faults = called_with(text, "result")
                self.assertEqual((status, faults), (1, f"result: {message}\n"))


class Json(unittest.TestCase):
    def test_objects(self) -> None:
        status, output, faults = called_with(RESULT, "result", "--json")
        self.assertEqual((status, [json.loads(line) for line in output.splitlines()], faults), (0, OBJECTS, ""))

    def test_all_are_as_the_schema_says(self) -> None:
        form = schema()
        for words in ((), ("--registers",)):
            for line in called_with(RESULT, "result", "--json", *words)[1].splitlines():
                with self.subTest(line):
                    self.assertTrue(is_as(json.loads(line), form, form))

    def test_the_schema_refuses(self) -> None:
        """The check of the test before finds what is wrong."""
        form = schema()
        call = OBJECTS[0]
        for wrong in (
            {**call, "gas": 10_000_001}, {**call, "end": "trapped"}, {**call, "more": 1}, {**call, "pc": "10034"},
            {**call, "writes": [{"key": ALICE}]}, {**call, "registers": []}, {"kind": "store", "key": ZERO},
        ):
            self.assertFalse(is_as(wrong, form, form), wrong)

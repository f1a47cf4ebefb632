"""What is printed of the sources: calls, definitions, crates, lists to read. The sample's lines are counted by hand."""

import unittest
from unittest import mock

from checks import calls, crates, definitions, reading, rule_calls, sources
from rvstm_tools.errors import UserError
from unit import docs_sample as sample


class Printed(unittest.TestCase):
    def test_calls(self) -> None:
        with sample.tree():
            self.assertEqual(
                list(calls.listed([])),
                [
                    "low",
                    "  Boxed::doubled (even): The double of a number.",
                    "high",
                    "  quadrupled (value, boxed): Four times a number, in two steps.",
                ],
            )
            self.assertEqual(list(calls.listed(["high"]))[0], "high")

    def test_definitions_crates_and_lemmas(self) -> None:
        with sample.tree():
            wanted = ["low/specs/Number.antt: What a number is, here.", "high/specs/Sums.antt: Sums of boxes."]
            self.assertEqual(list(definitions.listed([])), wanted)
            self.assertEqual(list(crates.listed([])), ["low: Numbers.", "high: Boxes of boxes."])
            self.assertEqual(list(crates.lemmas([])), ["high: low"])

    def test_definitions_come_after_those_that_they_use(self) -> None:
        first = "-- A sum.\nuse Rattle.low.specs.Number.{twice}\nuse Rattle.low.specs.Zero as zero\n\nabbrev pub a : T\na = twice zero.z\n"
        with sample.tree({"crates/low/specs/Adding.antt": first, "crates/low/specs/Zero.antt": "-- Zero. None.\n\nabbrev pub z : T\nz = 0\n"}):
            files = [line.partition(":")[0] for line in definitions.listed(["low"])]
        self.assertEqual(files, ["low/specs/Number.antt", "low/specs/Zero.antt", "low/specs/Adding.antt"])

    def test_reading(self) -> None:
        with sample.tree():
            text = "\n".join(reading.listed(["high::quadrupled", "value"]))
        # Of Number: the comment, the use line, an empty line, twice with its comment and the empty line after it.
        self.assertIn("| 7 of 14 | `low/specs/Number.antt` | only `twice` |", text)
        self.assertIn("| 9 of 11 | `high/specs/Sums.antt` | only `fourfold` |", text)
        self.assertIn("| 16 | together, in 2 files | |", text)
        self.assertIn("Of the kit: `std` Prelude.", text)
        self.assertLess(text.index("Number.antt"), text.index("Sums.antt"))

    def test_reading_follows_types(self) -> None:
        with sample.tree():
            held = reading.reading_of(["high::quadrupled", "boxed"])
            # HasBox names Boxed, whose fields are private: a clause sees a Flagged.
            self.assertEqual([row.cited for row in held.rows], [("Flagged",), ("HasBox",)])
            self.assertEqual([held.name for held in held.types], ["Boxed"])

    def test_reading_after(self) -> None:
        with sample.tree():
            held = reading.reading_of(["high::quadrupled", "value", "after", "low::Boxed::doubled"])
            self.assertEqual([row.cited for row in held.rows], [("fourfold",)])

    def test_refusals(self) -> None:
        with sample.tree():
            for words in (["low::missing"], ["low::Boxed::doubled", "odd"], ["even"], ["other::call"], ["low::Boxed::private"]):
                with self.assertRaisesRegex(UserError, f"^there is no public call and no clause {words[-1]}$"):
                    reading.reading_of(words)
            with self.assertRaisesRegex(UserError, "^there is no crate other$"):
                list(calls.listed(["other"]))

    def test_signatures(self) -> None:
        with sample.tree():
            call = calls.call_of("high::quadrupled")
            assert call
            self.assertEqual(rule_calls.signature_of(call), "high::quadrupled(u32, &Boxed) -> u32")

    def test_rule_calls(self) -> None:
        text = "# a comment\n\nhigh::quadrupled(u32, &Boxed) -> u32  # why\nlow::Boxed::doubled(u64) -> u32\nlow::Gone\n"
        with sample.tree({"docs/rule_calls.txt": text}) as top, mock.patch.object(rule_calls, "LIST", top / "docs/rule_calls.txt"):
            self.assertEqual(
                list(rule_calls.differences()),
                [
                    "docs/rule_calls.txt: low::Boxed::doubled is low::Boxed::doubled(u32) -> u32, and not low::Boxed::doubled(u64) -> u32",
                    "docs/rule_calls.txt: there is no public low::Gone, which the rules name",
                ],
            )

    def test_first_sentence(self) -> None:
        rows = {
            ("The word of it; None if", "there is none. More."): "The word of it; None if there is none.",
            ("RISC-V ISA, 2.1 and 2.3",): "RISC-V ISA, 2.1 and 2.3",
            ("Cut as in `..`. The rest.",): "Cut as in `..`.",
            (): "",
        }
        for lines, wanted in rows.items():
            self.assertEqual(sources.first_sentence(list(lines)), wanted)

"""Names that several definitions have, in two small crates."""

import unittest

from checks import names
from unit import docs_sample as sample

TWICE = "abbrev pub twice : ℕ → ℕ\ntwice n = n + n\n"
THRICE = "abbrev pub twice : ℕ → ℕ\ntwice n = n + n + n\n"


NO_OTHERS = [f"{what}: 0 names with several meanings" for what in ("type of the code", "public lemma", "class")]


class Names(unittest.TestCase):
    def test_other_meaning(self) -> None:
        with sample.tree({"crates/high/specs/Other.antt": THRICE}):
            self.assertEqual(
                list(names.listed([])),
                ["1 name with several meanings:", "  twice: low/specs/Number.antt, high/specs/Other.antt", "0 definitions written twice:", *NO_OTHERS],
            )

    def test_written_twice(self) -> None:
        with sample.tree({"crates/high/specs/Other.antt": TWICE.replace("n + n", "n\n    + n")}):
            self.assertEqual(
                list(names.listed([])),
                ["0 names with several meanings:", "1 definition written twice:", "  twice: low/specs/Number.antt, high/specs/Other.antt", *NO_OTHERS],
            )

    def test_one_crate(self) -> None:
        with sample.tree({"crates/high/specs/Other.antt": THRICE}):
            self.assertEqual(list(names.listed(["low"])), ["0 names with several meanings:", "0 definitions written twice:", *NO_OTHERS])


    def test_types_lemmas_and_classes(self) -> None:
        lemma = "pub twice_is_even : ⊤\ntwice_is_even = tt\n"
        more = {"crates/low/proofs/A.antt": lemma, "crates/high/proofs/B.antt": lemma, "crates/high/src/lib.rt": "pub struct Boxed;\n"}
        with sample.tree(more | {"docs/a.py": "class A:\n    pass\n", "tools/b.py": "class A:\n    pass\n"}):
            self.assertEqual(
                [line for line in names.listed([]) if line.startswith("  ")],
                ["  Boxed: low/src/lib.rt, high/src/lib.rt", "  twice_is_even: low/proofs/A.antt, high/proofs/B.antt", "  A: docs/a.py, tools/b.py"],
            )
            self.assertEqual(list(names.faults()), ["several meanings: A: docs/a.py, tools/b.py"])


class Faults(unittest.TestCase):
    def test_no_reason(self) -> None:
        with sample.tree({"crates/high/specs/Other.antt": THRICE}):
            self.assertEqual(list(names.faults()), ["several meanings: twice: low/specs/Number.antt, high/specs/Other.antt"])

    def test_reason(self) -> None:
        with sample.tree({"crates/high/specs/Other.antt": THRICE, names.LIST: "# names\n\ntwice  # low doubles, high triples\n"}):
            self.assertEqual(list(names.faults()), [])
            self.assertEqual(
                list(names.listed([]))[:3],
                ["1 name with several meanings:", "  twice: low/specs/Number.antt, high/specs/Other.antt", "    low doubles, high triples"],
            )

    def test_written_twice(self) -> None:
        with sample.tree({"crates/high/specs/Other.antt": TWICE}):
            self.assertEqual(list(names.faults()), ["written twice: twice: low/specs/Number.antt, high/specs/Other.antt"])

    def test_reason_for_one_meaning(self) -> None:
        with sample.tree({names.LIST: "twice  # low doubles\n"}):
            self.assertEqual(list(names.faults()), ["docs/shared_names.txt: twice has one meaning, or is not there"])

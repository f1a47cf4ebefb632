"""What nothing uses: each kind once found and once used, over three small crates. What is expected was worked out by hand."""

import unittest
from collections.abc import Mapping

from checks import items, sources, unused
from rvstm_tools.errors import UserError
from unit import docs_sample as sample

FILES = sample.files_in("unused")


def found(others: Mapping[str, str] | None = None) -> dict[unused.UnusedKind, list[str]]:
    """By kind what is unused in the crate base, without its name or the folder of its files."""
    with sample.tree({**FILES, **(others or {})}):
        rows = [*unused.unused_names("base"), *unused.unused_places("base")]
    return {kind: sorted(row.name.partition("base")[2].lstrip(":/") for row in rows if row.kind is kind) for kind in {row.kind for row in rows}}


class Unused(unittest.TestCase):
    maxDiff = None

    def test_names_of_code(self) -> None:
        rows = found()
        # Held is shown by Fault, and this by the result of counted, which is called on a Boxed; the user names it Named. Nobody has an
        # Alone to call its counted on.
        self.assertEqual(rows[unused.UnusedKind.NOBODY], ["Alone", "Alone::counted", "Boxed::left_over", "listed"])
        self.assertEqual(rows[unused.UnusedKind.OWN], ["limits::HIGH", "only_here"])
        self.assertEqual(rows[unused.UnusedKind.TESTS], ["LIMIT", "Tested", "starred"])
        self.assertEqual(rows[unused.UnusedKind.UNCITED], ["no_page"])
        self.assertNotIn(unused.UnusedKind.BOTH, rows)

    def test_each_name_once_used(self) -> None:
        users = {
            "crates/user/src/more.rt": "use base::Alone;\npub use base::listed;\nfn f(a: &Alone, b: Boxed) -> u32 {\n    b.left_over() + a.counted()\n}\n",
            "crates/user/specs/More.antt": "use Rattle.base.specs.declared.numbers.Tested.{Tested}\n\nabbrev pub f : Tested → Tested\nf t = t\n",
            "crates/base_tests/src/more.rt": "fn f() -> u32 {\n    base::limits::HIGH + base::only_here()\n}\n",
            "docs/laws.md": "`base::no_page`\n",
        }
        rows = found(users)
        self.assertEqual(rows[unused.UnusedKind.TESTS], ["LIMIT", "starred"])
        self.assertEqual(rows[unused.UnusedKind.BOTH], ["limits::HIGH", "only_here"])
        self.assertFalse({unused.UnusedKind.NOBODY, unused.UnusedKind.OWN, unused.UnusedKind.UNCITED} & set(rows))

    def test_imports_that_do_not_occur(self) -> None:
        rows = found({"crates/user/src/more.rt": "use base::{Alone, listed};\n// listed()\nfn f() -> u32 {\n    \"Alone\"\n}\n"})
        self.assertEqual(rows[unused.UnusedKind.NOBODY], ["Alone", "Alone::counted", "Boxed::left_over", "listed"])

    def test_names_in_a_text_to_print(self) -> None:
        code = "use base::{LIMIT, Alone};\nfn f() -> String {\n    format!(in alloc; \"Alone {LIMIT} {0}\")\n}\n"
        rows = found({"crates/user/src/more.rt": code})
        self.assertEqual(rows[unused.UnusedKind.TESTS], ["Tested", "starred"])
        self.assertIn("Alone", rows[unused.UnusedKind.NOBODY])

    def test_definitions(self) -> None:
        rows = found()
        # `no_one` is also a field, in a comment, and in a `pub use`; IsBig is reached by the arguments of the module of IsEven.
        self.assertEqual(rows[unused.UnusedKind.NOTHING], ["specs/Numbers.antt IsOdd", "specs/Numbers.antt no_one", "specs/Numbers.antt ◌⊖◌"])
        self.assertEqual(rows[unused.UnusedKind.PROOFS], ["specs/Numbers.antt for_proofs", "specs/Numbers.antt one", "specs/Numbers.antt two"])

    def test_each_definition_once_used(self) -> None:
        code = "ghost use Rattle.base.specs.Shown as s;\nghost use Rattle.base.specs.Numbers.{IsOdd as Odd, ◌⊖◌, for_proofs};\nfn f() -> u32\n"
        clauses = "    ensures odd { Odd (s.no_one ⊖ for_proofs) }\n{\n    7\n}\n"
        rows = found({"crates/user/src/more.rt": code + clauses})
        # `s.no_one` is that of Numbers, which Shown passes on.
        self.assertFalse({unused.UnusedKind.NOTHING, unused.UnusedKind.PROOFS} & set(rows))

    def test_lemmas(self) -> None:
        wanted = ["helper", "lost", "never", "only_never"]
        self.assertEqual(found()[unused.UnusedKind.LEMMA], [*(f"proofs/Lemmas.antt {name}" for name in wanted), "proofs/numbers/by_path/Answers.antt idle"])

    def test_each_lemma_once_used(self) -> None:
        proof = "use Rattle.base.proofs.Lemmas.{helper, lost, never}\n\npub shares : ℕ\nshares = helper lost never idle\n"
        rows = found({"crates/base/proofs/numbers/TheLaw/Proof.antt": proof})
        self.assertEqual(rows[unused.UnusedKind.LEMMA], ["proofs/numbers/by_path/Answers.antt idle"])

    def test_items(self) -> None:
        with sample.tree(FILES):
            held = items.items("base/specs/Numbers.antt")
        self.assertEqual(held.by_name["IsEven"].line, 27)
        self.assertEqual(held.by_name["IsEven"].code.split("\n"), ["abbrev pub IsEven : Type 0", "module _ (n : ℕ) (as_big : IsBig n) where", "IsEven = n ≡ n"])
        self.assertEqual(held.by_name["one"].code, "one : ℕ\n\none = two")
        self.assertEqual((held.owner["Minus"], held.owner["◌⊕◌"], "go" in held.owner), ("Sign", "◌⊕◌", False))


class Printed(unittest.TestCase):
    """The lines of --unused, and its list of exceptions."""

    def test_lines(self) -> None:
        spared = "# why\n\nbase::Alone  # kept for later\nbase/specs/Numbers.antt no_one  # a test\nbase::again  # used since\n"
        with sample.tree({**FILES, unused.LIST: spared}):
            lines, chosen = list(unused.listed([])), list(unused.listed(["user"]))
        self.assertEqual(lines[:3], ["base", "  public, and only its crate uses it:", "    base::limits::HIGH  base/src/limits.rt:2"])
        self.assertIn("    base/specs/Numbers.antt IsOdd  30", lines)
        self.assertIn("    3 public, and nothing uses it", lines)
        self.assertIn("    2 a definition that nothing reaches", lines)
        self.assertEqual(lines[-2], "    5 a lemma that nothing reaches")
        self.assertEqual(lines[-1], "docs/unused_names.txt: base::again is used, or is not there")
        self.assertEqual(chosen, [f"    0 {kind.value}" for kind in unused.UnusedKind])

    def test_a_page_names_it(self) -> None:
        with sample.tree({**FILES, "docs/calls.md": "`base::listed`\n"}):
            self.assertIn("    base::listed  base/src/numbers.rt:71, which a page names", list(unused.listed(["base"])))

    def test_exceptions_have_reasons(self) -> None:
        with sample.tree({**FILES, unused.LIST: "base::Alone\n"}), self.assertRaisesRegex(UserError, "^docs/unused_names.txt: base::Alone has no reason$"):
            list(unused.listed([]))

    def test_uses_of_code(self) -> None:
        code = "use base::limits::{self, LOW as low};\npub use base::Named as Other;\nuse base::*;\nuse base;\n"
        with sample.tree({"crates/low/src/more.rt": code}) as top:
            uses = [(use.local, use.path, use.is_shown) for use in sources.code_uses(top / "crates/low/src/more.rt")]
        self.assertEqual(
            uses,
            [
                ("limits", "base::limits", False),
                ("low", "base::limits::LOW", False),
                ("Other", "base::Named", True),
                ("*", "base::*", False),
                ("base", "base", False),
            ],
        )

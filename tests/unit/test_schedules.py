"""Schedules: the entries of each form, and what continues a list until workers are done."""

import unittest
from collections.abc import Sequence
from unittest import mock

from rvstm_tools.errors import MisuseError, UserError
from rvstm_tools.texts import schedules
from unit.helpers import InFolder, called


class Entries(unittest.TestCase):
    def test_forms(self) -> None:
        self.assertEqual(schedules.entries(3, 7, []), [0, 1, 2, 0, 1, 2, 0])
        self.assertEqual(schedules.entries(3, 4, ["turns"]), [0, 1, 2, 0])
        self.assertEqual(schedules.entries(4, 3, ["worker", "3"]), [3, 3, 3])
        self.assertEqual(schedules.entries(4, 0, []), [])

    def test_a_seed_gives_one_list(self) -> None:
        one = schedules.entries(5, 100, ["random", "7"])
        self.assertEqual(one, schedules.entries(5, 100, ["random", "7"]))
        self.assertNotEqual(one, schedules.entries(5, 100, ["random", "8"]))
        self.assertEqual((set(one), len(one)), (set(range(5)), 100))

    def test_messages(self) -> None:
        forms = "it is turns, worker N or random SEED"
        for form, message in {
            ("turns", "1"): f"turns 1: {forms}", ("worker",): f"worker: {forms}", ("random",): f"random: {forms}",
            ("x",): f"x: {forms}", ("worker", "4"): "4: a worker is a number of 0 to 3",
            ("worker", "-1"): "-1: a worker is a number of 0 to 3", ("worker", "\u0663"): "\u0663: a worker is a number of 0 to 3",
            ("worker", "9" * 5000): f"{'9' * 5000}: a worker is a number of 0 to 3", ("random", "x"): "x: a seed is a number",
        }.items():
            with self.subTest(form[:1]), self.assertRaises(MisuseError) as caught:
                schedules.entries(4, 1, form)
            self.assertEqual(str(caught.exception), message)


class ToDone(unittest.TestCase):
    def wanting(self, count: int, worker: int) -> Sequence[int]:
        """What follows a list if workers are done after so many entries of one of two workers."""

        def refusal(added: Sequence[int]) -> str:
            return "" if added.count(worker) >= count else schedules.NOT_DONE

        return schedules.entries_to_done(refusal, 2)

    def test_what_is_needed(self) -> None:
        self.assertEqual(self.wanting(0, 0), [])
        self.assertEqual(self.wanting(3, 1), [1, 1, 1])
        self.assertEqual(self.wanting(1, 0), [1] * 64 + [0])
        self.assertEqual(self.wanting(65, 1), [1] * 64 + [0] * 64 + [1])

    def test_workers_that_are_never_done(self) -> None:
        seen: list[int] = []

        def refusal(added: Sequence[int]) -> str:
            seen.append(len(added))
            return schedules.NOT_DONE

        with mock.patch.object(schedules, "LAST_SHARE", 128), self.assertRaisesRegex(UserError, schedules.NOT_DONE):
            schedules.entries_to_done(refusal, 2)
        self.assertEqual(seen, [0, 2 * 64, 2 * (64 + 128)])

    def test_another_refusal(self) -> None:
        with self.assertRaises(UserError) as caught:
            schedules.entries_to_done(lambda _: "rvstm: drive ArenaFull 3", 2)
        self.assertEqual(str(caught.exception), "rvstm: drive ArenaFull 3")


class Command(InFolder):
    def test_a_schedule(self) -> None:
        self.assertEqual(called("schedule", "2", "3"), (0, "0\n1\n0\n", ""))
        self.assertEqual(called("schedule", "2", "2", "worker", "1"), (0, "1\n1\n", ""))

    def test_what_continues_one(self) -> None:
        """The program is done after three lines."""
        said = 'n=0; while read -r line; do n=$((n + 1)); done <"$6"; [ $n -ge 3 ] || { echo "rvstm: drive NotDone 1" >&2; exit 1; }'
        program = self.write("program", f"#!/bin/sh\n{said}\necho end\n")
        (self.folder / "program").chmod(0o755)
        begun = self.write("begun", "0\n")
        words = ["schedule", "2", "--to-done", "a.block", "--from", begun, "--program", program]
        self.assertEqual(called(*words), (0, "1\n1\n", ""))

    def test_wrong_command_lines(self) -> None:
        wants = "schedule: it wants a LENGTH, or --to-done BLOCK and --from SCHEDULE\n"
        for words in (["2"], ["2", "3", "--to-done", "a", "--from", "b"], ["2", "--to-done", "a"], ["2", "--from", "b"]):
            self.assertEqual(called("schedule", *words), (2, "", wants))
        for word in ("0", "33", "-1", "x", "\u0663", "9" * 5000):
            self.assertEqual(called("schedule", word, "1")[0], 2)
        self.assertEqual(called("schedule", "2", "3", "x")[0], 2)

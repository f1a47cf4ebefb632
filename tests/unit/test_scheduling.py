"""Cases side by side, and what a run prints of them."""

import contextlib
import io
import os
import runpy
import tempfile
import time
import unittest
from collections.abc import Callable
from pathlib import Path
from unittest import mock

from gate import runner
from gate.runner import Case, Lacks, Run, Setting, Tool, same

SETTING = Setting(Path("/bin/true"), None, False, 1)


def fails(run: Run) -> None:
    same("a\nb\n", "a\nc\n", "the text")


def lacks(run: Run) -> None:
    """A case that sees only as it runs that something is not there."""
    raise Lacks("a disk")


def breaks(run: Run) -> None:
    raise KeyError("mistake")


def dies(run: Run) -> None:
    os.kill(os.getpid(), 9)


def notes(run: Run) -> None:
    """A case in a folder of its own, which it leaves something in."""
    Path("file").write_text("text", encoding="utf-8")
    run.note(f"{run.place == Path.cwd()}")


def sleeps(run: Run) -> None:
    """A case that takes too long, with a process that it starts."""
    Path(os.environ["STARTED"]).write_text(str(os.spawnlp(os.P_NOWAIT, "sleep", "sleep", "60")), encoding="utf-8")
    time.sleep(60)


def outcomes(*calls: Callable[[Run], None], seconds: float = 20, jobs: int = 2) -> dict[str, runner.Outcome]:
    """The outcomes of cases, by the names of their functions."""
    cases = [Case(call.__name__, call) for call in calls]
    with contextlib.redirect_stderr(io.StringIO()):
        return {one.case.name: one for one in runner.outcomes_of(cases, SETTING, jobs, lambda case: seconds)}


class OutcomesTest(unittest.TestCase):
    def test_each_way(self) -> None:
        """What came and what was wanted is one line; a mistake, and a death, fail a case."""
        found = outcomes(fails, lacks, breaks, dies, notes)
        self.assertEqual(found["fails"].why, "the text: line 2: came b; wanted c")
        self.assertEqual((found["lacks"].why, found["lacks"].lacks), ("", "a disk"))
        self.assertIn("KeyError", found["breaks"].why)
        self.assertIn("status 9", found["dies"].why)
        self.assertEqual((found["notes"].is_passed, found["notes"].notes), (True, ["True"]))
        self.assertEqual([name for name, one in found.items() if one.is_passed], ["notes"])

    def test_too_long(self) -> None:
        """A case that takes too long is ended with what it started."""
        with tempfile.NamedTemporaryFile("r", encoding="utf-8") as file, mock.patch.dict(os.environ, STARTED=file.name):
            found = outcomes(sleeps, seconds=0.5)["sleeps"]
            process = Path(f"/proc/{file.read()}/stat")
        self.assertIn("no end after", found.why)
        time.sleep(0.1)
        self.assertTrue(not process.exists() or process.read_text(encoding="utf-8").split()[2] == "Z")

    def test_needs(self) -> None:
        """A case is left out for want of a tool, of the library, or of the built program."""
        with mock.patch.object(Tool, "is_there", lambda tool: tool is not Tool.STRACE):
            self.assertEqual(runner.lacks(Case("a", fails, (Tool.CLANG, Tool.STRACE)), SETTING), "strace")
        self.assertEqual(runner.lacks(Case("a", fails, needs_library=True), SETTING), "the library for C")
        self.assertEqual(runner.lacks(Case("a", fails, needs_speed=True), SETTING), "")
        preview = Setting(Path("/bin/true"), None, True, 1)
        self.assertEqual(runner.lacks(Case("a", fails, needs_speed=True), preview), "the built program")


class PrintedTest(unittest.TestCase):
    def printed(self, *calls: Callable[[Run], None], words: tuple[str, ...] = ("/bin/true",)) -> tuple[list[str], int]:
        cases, out = [Case(call.__name__, call) for call in calls], io.StringIO()
        with contextlib.redirect_stdout(out), contextlib.redirect_stderr(io.StringIO()):
            status = runner.main([cases], words)
        return out.getvalue().splitlines(), status

    def test_sums(self) -> None:
        """The last line has the sums, each failure and each that is left out a line."""
        lines, status = self.printed(fails, lacks, notes)
        self.assertEqual((lines[-1], status), ("1 passed, 1 failed, 1 skipped", 1))
        self.assertIn("failed: fails: the text: line 2: came b; wanted c", lines)
        self.assertIn("skipped, for want of a disk: lacks", lines)
        self.assertIn("notes: True", lines)

    def test_all_pass(self) -> None:
        lines, status = self.printed(notes, lacks)
        self.assertEqual((lines[-1], status), ("1 passed, 0 failed, 1 skipped", 0))

    def test_no_program(self) -> None:
        """The last line comes also if there is nothing to run, or nothing that runs."""
        self.assertEqual(self.printed(notes, words=("/no/program",))[0][-1], "0 passed, 1 failed, 0 skipped")
        self.assertEqual(self.printed(notes, words=("/bin/true", "--only", "what"))[0][-1], "0 passed, 1 failed, 0 skipped")

    def test_interrupted(self) -> None:
        """What was done by then is counted, and the interruption fails."""

        def interrupted(*_: object) -> None:
            raise KeyboardInterrupt

        with mock.patch.object(runner, "outcomes_of", interrupted):
            lines, status = self.printed(notes)
        self.assertEqual((lines[-1], status), ("0 passed, 1 failed, 0 skipped", 1))

    def test_names(self) -> None:
        """No two cases have one name."""
        groups = runpy.run_path(str(Path(__file__).parents[1] / "run"))["GROUPS"]
        names = [case.name for group in groups for case in group.cases()]
        self.assertEqual(len(names), len(set(names)))

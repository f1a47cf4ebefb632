"""The gate's script over stubs of what it calls: its sums and its status in each way in which a part can end."""

import os
import shutil
import signal
import subprocess
import tempfile
import time
import unittest
from pathlib import Path

TOP = Path(__file__).resolve().parents[2]
DEVELOPERS = "tools/rvstm-developers"
CHECKS = ("docs/check", "tests/check", f"{DEVELOPERS} outside-causes", f"{DEVELOPERS} must-not-compile")
PROGRAM = "crates/rvstm/out/rvstm"
BUILDS = f"sleep 0.02; mkdir -p crates/rvstm/out; echo program > {PROGRAM}"  # later than the tick of the clock of files
GREEN = f"{BUILDS}; echo 49 passed, 0 failed"
INSTALL = "apt-get install mypy strace"
SILENT = subprocess.DEVNULL


class GateTest(unittest.TestCase):
    """Each test has a folder with the gate's script and stubs, of which all pass."""

    def setUp(self) -> None:
        folder = tempfile.TemporaryDirectory(prefix="gate-test-")
        self.addCleanup(folder.cleanup)
        self.top = Path(folder.name)
        (self.top / ".ci").mkdir()
        shutil.copy(TOP / ".ci/run", self.top / ".ci/run")
        (self.top / "CONTRIBUTING.md").write_text(f"text\n\n    {INSTALL}\n", encoding="utf-8")
        for path in (*CHECKS[:2], DEVELOPERS):
            self.stub(path, "")
        self.stub("bin/mypy", "")
        self.stub("bin/rt", GREEN)
        self.stub("tests/run", 'echo "$*" > cases-ran; echo 30 passed, 0 failed, 2 skipped')

    def stub(self, path: str, text: str) -> None:
        file = self.top / path
        file.parent.mkdir(parents=True, exist_ok=True)
        file.write_text(f"#!/bin/sh\n{text}\n", encoding="utf-8")
        file.chmod(0o755)

    def environment(self, **more: str) -> dict[str, str]:
        """The environment of the gate: the stubs are found first."""
        return {"PATH": f"{self.top}/bin:{os.environ['PATH']}", "HOME": str(self.top), **more}

    def gate(self, **more: str) -> tuple[str, list[str], int]:
        """The last line of the gate, all of its lines, and its status."""
        done = subprocess.run(
            [self.top / ".ci/run"], cwd="/", env=self.environment(**more), stdin=SILENT, capture_output=True, encoding="utf-8"
        )
        lines = done.stdout.splitlines()
        return lines[-1], lines, done.returncode

    def expect(self, last: str, status: int, **more: str) -> list[str]:
        """Runs the gate, compares its last line and its status, and returns its lines."""
        came = self.gate(**more)
        self.assertEqual((came[0], came[2]), (last, status), "\n".join(came[1]))
        return came[1]

    def cases_ran(self) -> bool:
        """Whether the cases ran, over the program that rt built."""
        ran = self.top / "cases-ran"
        return ran.exists() and ran.read_text(encoding="utf-8") == f"{PROGRAM}\n"

    def test_all_pass(self) -> None:
        """Four checks, 49 of rt, what rt left taken over, and 30 cases."""
        self.expect("84 passed, 0 failed, 2 skipped", 0)
        self.assertTrue(self.cases_ran())

    def test_check_fails(self) -> None:
        """A check that fails is counted, and the other parts run."""
        for check in CHECKS:
            with self.subTest(check):
                path, *name = check.split(" ")
                self.stub(path, f'[ "$*" != "{name[0]}" ] || exit 3' if name else "exit 3")
                lines = self.expect("83 passed, 1 failed, 2 skipped", 1)
                self.assertIn(f"failed: {check} ended with status 3", lines)
                self.stub(path, "")

    def test_check_is_killed(self) -> None:
        self.stub("tests/check", "kill -9 $$")
        self.assertIn("failed: tests/check ended with status 137", self.expect("83 passed, 1 failed, 2 skipped", 1))

    def test_proof_fails(self) -> None:
        """What rt counts as failed; the cases run over the program, and nothing is noted as proved."""
        self.stub("bin/rt", f"{BUILDS}; echo 48 passed, 1 failed; exit 1")
        self.stub(DEVELOPERS, '[ "$1" != built ] || touch noted')
        self.expect("82 passed, 1 failed, 2 skipped", 1)
        self.assertTrue(self.cases_ran())
        self.assertFalse((self.top / "noted").exists())

    def test_case_fails(self) -> None:
        self.stub("tests/run", "echo failed: one; echo 29 passed, 1 failed, 2 skipped; exit 1")
        self.expect("83 passed, 1 failed, 2 skipped", 1)

    def test_cases_fail_with_status_0(self) -> None:
        """A count of failures decides, whatever the status is."""
        self.stub("tests/run", "echo 29 passed, 1 failed, 2 skipped")
        self.expect("83 passed, 1 failed, 2 skipped", 1)

    def test_rt_is_killed(self) -> None:
        """rt that a signal ends prints no count: the cases do not run, over a new program neither."""
        self.stub("bin/rt", f"echo rt: rv_isa proved; {BUILDS}; kill -9 $$")
        lines = self.expect("4 passed, 2 failed, 0 skipped", 1)
        self.assertIn("failed: proofs: no count in the last line; status 137", lines)
        self.assertFalse(self.cases_ran())

    def test_rt_is_not_there(self) -> None:
        self.stub("bin/rt", "echo rt: not found >&2; exit 127")
        self.expect("4 passed, 2 failed, 0 skipped", 1)

    def test_rt_has_no_count(self) -> None:
        """A status of 0 does not make up for a line that is not there, is another one, or has more on it."""
        for text in ("", "echo ok", "echo 49 passed, 0 failed; echo done", "echo 08 passed, 0 failed", "echo 1 passed, 0 failed (not the gate)"):
            with self.subTest(text):
                self.stub("bin/rt", f"{BUILDS}; {text}")
                self.expect("4 passed, 2 failed, 0 skipped", 1)
                self.assertFalse(self.cases_ran())

    def test_rt_has_another_status(self) -> None:
        self.stub("bin/rt", f"{GREEN}; exit 2")
        self.expect("83 passed, 1 failed, 2 skipped", 1)

    def test_old_program(self) -> None:
        """The cases do not run over a program that this rt did not build."""
        self.stub(PROGRAM, "")
        os.utime(self.top / PROGRAM, (1, 1))
        self.stub("bin/rt", "echo 49 passed, 0 failed")
        self.expect("54 passed, 1 failed, 0 skipped", 1)
        self.assertFalse(self.cases_ran())

    def test_library_fails(self) -> None:
        """What rt left can't be taken over: the cases run all the same."""
        self.stub(DEVELOPERS, '[ "$1" != built ] || exit 1')
        self.expect("83 passed, 1 failed, 2 skipped", 1)
        self.assertTrue(self.cases_ran())

    def test_cases_are_killed(self) -> None:
        self.stub("tests/run", "echo passed: one; kill -9 $$")
        self.expect("54 passed, 1 failed, 0 skipped", 1)

    def test_no_mypy(self) -> None:
        self.stub("bin/mypy", "exit 127")
        self.expect("84 passed, 0 failed, 3 skipped", 0)

    def test_how_rt_is_called(self) -> None:
        """rt is called at the top, with the one word and no input."""
        self.stub("bin/rt", f'[ "$*" = ci ] && [ -x .ci/run ] && ! read -r line && {{ {GREEN}; }}')
        self.expect("84 passed, 0 failed, 2 skipped", 0)

    def test_what_rt_left_before(self) -> None:
        """Libraries that an earlier rt left are reported to what takes them over."""
        self.stub(DEVELOPERS, '[ "$1" != built ] || echo "$*"')
        self.assertIn("built", self.expect("84 passed, 0 failed, 2 skipped", 0))
        (self.top / "crates/rv_isa/out/rlib").mkdir(parents=True)
        self.assertIn("built --again", self.expect("84 passed, 0 failed, 2 skipped", 0))

    def test_packages(self) -> None:
        """A machine of the gate installs what CONTRIBUTING names, first, and continues if it can't."""
        self.stub("bin/id", "echo 0")
        for ending in ("", "; exit 100"):
            self.stub("bin/apt-get", f'echo "$*" >> installed{ending}')
            (self.top / "installed").unlink(missing_ok=True)
            lines = self.expect("84 passed, 0 failed, 2 skipped", 0, CI="true")
            self.assertEqual(lines[0], INSTALL)
            words = (self.top / "installed").read_text(encoding="utf-8").splitlines()
            self.assertEqual(words, ["-q update"] if ending else ["-q update", "install mypy strace -q -y --no-install-recommends"])

    def test_no_packages(self) -> None:
        self.stub("bin/apt-get", "touch installed")
        for user, variable in (("1000", "true"), ("0", "")):
            self.stub("bin/id", f"echo {user}")
            self.expect("84 passed, 0 failed, 2 skipped", 0, CI=variable)
        self.assertFalse((self.top / "installed").exists())

    def test_interrupted(self) -> None:
        """A signal to the gate itself: the sums come, and the status is not 0."""
        self.stub("bin/rt", "touch began; sleep 1; echo 49 passed, 0 failed")
        with subprocess.Popen(
            [self.top / ".ci/run"], env=self.environment(), stdin=SILENT, stdout=subprocess.PIPE, encoding="utf-8"
        ) as process:
            while not (self.top / "began").exists():
                time.sleep(0.01)
            process.send_signal(signal.SIGTERM)
            printed = process.communicate()[0]
        self.assertEqual(process.returncode, 1)
        self.assertEqual(printed.splitlines()[-2:], ["failed: the gate was interrupted", "4 passed, 1 failed, 0 skipped"])

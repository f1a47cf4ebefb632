"""The frames of rvstm-developers sums: each is a session's requests, and in a model of the machine each read passes at least twenty sums."""

import re
import tempfile
import unittest
from collections import Counter
from pathlib import Path

from rvstm_developers.bench import slow_blocks, slow_sums
from rvstm_developers.bench.blocks import FOLDER
from rvstm_developers.bench.slow_blocks import Content
from rvstm_developers.models import inputs
from rvstm_developers.models.machine import MachineBlock, MachineProgram
from rvstm_developers.texts import word
from rvstm_tools.sessions.requests import Word
from rvstm_tools.texts.blocks import CallLine
from rvstm_tools.texts.keys import KEY_LENGTH
from rvstm_tools.texts.results import Added, End

LEAST_SUMS = 20


def program_of(name: str) -> MachineProgram:
    """A program of bench/programs, with the words that the model knows."""
    lines = (line.split("#")[0].strip() for line in (FOLDER / f"programs/{name}.s").read_text(encoding="utf-8").splitlines())
    source = [re.sub(r"\bx0\b", "zero", line.replace("lui a1,0x10f", "li a1,0x10f000")) for line in lines if line]
    return MachineProgram(source)


def with_one_round(call: CallLine) -> CallLine:
    """The same call without the loop before its storage calls."""
    at = 0 if slow_sums.PROGRAMS[call.program] == "list-later" else KEY_LENGTH
    return call._replace(data=call.data[:at] + word(1) + call.data[at + 4 :])


class OfFrames(unittest.TestCase):
    programs = [program_of(name) for name in slow_sums.PROGRAMS]

    def test_requests(self) -> None:
        files = [program.file for program in self.programs]
        with tempfile.TemporaryDirectory() as place:
            for frame in slow_sums.FRAMES:
                slow_blocks.write_block(Path(place), frame.name, Content(files, frame.calls))
                found = inputs.requests_of((Path(place) / f"{frame.name}.requests").read_bytes())
                with self.subTest(frame.name):
                    self.assertEqual(found.fault, inputs.Fault.NONE)
                    self.assertEqual([request.word for request in found.requests], [Word.PROGRAM] * len(files) + [Word.FRAME])
                    self.assertEqual([request.body for request in found.requests[:-1]], files)
                    self.assertEqual(found.requests[-1].body.count(b"\ncall "), len(frame.calls))

    def test_sums_that_reads_pass(self) -> None:
        for frame in slow_sums.FRAMES:
            block = MachineBlock(self.programs, map(with_one_round, frame.calls), rules=slow_blocks.RULES)
            sums, least = Counter[bytes](), []
            for receipt, keys in zip(block.ran(), block.keys):
                least += [sums[key] for key in keys]
                sums.update(key for key, change in receipt.changes.items() if isinstance(change, Added))
            with self.subTest(frame.name):
                self.assertEqual({receipt.end for receipt in block.ran()}, {End.RETURNED})
                self.assertGreaterEqual(min(least), LEAST_SUMS)

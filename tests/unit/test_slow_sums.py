"""rvstm-developers sums: the shapes of its frames, its bounds, and answers that it refuses. tests/unit runs the frames in a model."""

import unittest
from itertools import groupby

from rvstm_developers.bench import slow_sums, sums
from rvstm_developers.bench.slow_blocks import MOST_CALLS, MOST_INPUT
from rvstm_developers.bench.slow_sums import FRAMES, HOT, SumsFrame
from rvstm_developers.bench.sums import SumsRow
from rvstm_developers.texts import word
from rvstm_tools.errors import UserError
from rvstm_tools.texts.blocks import CallLine
from rvstm_tools.texts.keys import numbered_key as key


def shape(call: CallLine) -> tuple[str, bool, bytes]:
    """The program of a call, whether its key is the hot one, and the rest of its input."""
    return slow_sums.PROGRAMS[call.program], call.data.startswith(key(HOT)), call.data[len(key(HOT)) :]


class OfFrames(unittest.TestCase):
    def test_limits(self) -> None:
        self.assertEqual(len({frame.name for frame in FRAMES}), len(FRAMES))
        for frame in FRAMES:
            with self.subTest(frame.name):
                self.assertLessEqual(len(frame.calls), MOST_CALLS)
                self.assertLessEqual(max(len(call.data) for call in frame.calls), MOST_INPUT)

    def test_two_shapes(self) -> None:
        shapes = {frame.name: [(one, len(list(same))) for one, same in groupby(frame.calls, shape)] for frame in FRAMES}
        rounds, more = word(1_000), word(250_000)
        self.assertEqual(shapes["small"], [
            (("add-later", False, rounds), 8), (("add-later", True, rounds), 250), (("read-later", True, rounds + word(60)), 100),
        ])
        self.assertEqual(shapes["many"], [
            (("add-later", False, more), 6), (("add-later", False, rounds), 16), (("add-later", True, rounds), 900),
            (("read-later", True, rounds + word(40)), 100),
        ])


class OfRows(unittest.TestCase):
    def test_bounds(self) -> None:
        for by_workers, mebibytes, expected in (110, 64, (True, True)), (110.1, 64, (False, False)), (1, 64.1, (True, False)):
            row = SumsRow("small", 100, 4, by_workers, mebibytes)
            self.assertEqual((row.is_in_time, row.is_within), expected)
        self.assertEqual(SumsRow("small", 100, 4, 110.1, -0.2).cells(), ["small", "100.0", "4", "110.1", "1.10", "no", "0"])

    def test_answers(self) -> None:
        good, cut = b"call 0 returned gas 9 pc 00010034 out -\n", b"call 0 out-of-gas gas 9 pc 00010034 out -\n"
        frame = SumsFrame("one", "adds", slow_sums.add(1))
        sums.check(frame, good, good, 4)
        for answers, in_order in (cut, good), (cut, cut), (b"refused block 1 BadLine 2\n",) * 2:
            with self.assertRaises(UserError):
                sums.check(frame, answers, in_order, 4)

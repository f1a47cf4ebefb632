"""Blocks at the limits by each engine, long sources and replays: rows of `rvstm-developers large` in its smaller sizes. A model in Python
says what has to be printed."""

from collections.abc import Sequence
from functools import partial

from gate.calls import command, tool_words
from gate.outside import last_lines
from gate.runner import Case, Run, holds

BY_SPEED = {
    "all_programs_and_calls": ["64 programs, 1,024 calls, "],
    "all_calls_count": ["1,024 calls on one key, "],
    "all_keys_are_written": ["32 calls that write 256 keys each, "],
    "a_storage_of_20000_keys": ["a file of 8 MiB, run", "a file of 8 MiB, drive"],
    "a_block_file_of_8_mib": ["a file of 8 MiB, seq", "a file of 8 MiB, conflicts"],
    "assembler_faults": ["a source with a branch", "a source of 16,385 instructions"],
    "the_longest_program": ["dis of a program"],
}
"""The rows of each case that takes minutes over the unproved program."""
AT_ONCE = {
    "calls_that_read_5000_keys_or_touch_60_pages": ["a call of 5,000 reads, ", "a store to each page, and after the last, "],
    "a_source_of_2_mib": ["asm of a source"],
    "greatest_files": ["1,024 inputs of 4,096 bytes, seq"],
    "long_sessions": ["debug of a call of 200,000 steps"],
    "back_from_moment_200000": ["steps, back from its last moment"],
}


def rows_pass(run: Run, names: Sequence[str]) -> None:
    """All rows pass, of which each name has one or more."""
    only = [word for name in names for word in ("--only", name)]
    done = command([*tool_words("large"), run.program, "--small", *only], run.place)
    count = done.out.count("passed  ")
    holds(done.status == 0 and count >= len(names), last_lines(done.out + done.errors), "each row passed")


def cases() -> list[Case]:
    found = [Case(f"large: {name}", partial(rows_pass, names=names), cost=4, needs_speed=True) for name, names in BY_SPEED.items()]
    return found + [Case(f"large: {name}", partial(rows_pass, names=names), cost=2) for name, names in AT_ONCE.items()]

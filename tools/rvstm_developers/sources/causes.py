"""Causes from outside: their kinds, what names each, and the calls that may refuse for one."""

import enum
import re


class CauseKind(enum.Enum):
    MEMORY = "memory"
    FILE = "file"
    THREAD = "thread"


KINDS = {
    "Memory": CauseKind.MEMORY, "OutOfMemory": CauseKind.MEMORY, "Unkept": CauseKind.MEMORY, "AllocError": CauseKind.MEMORY, "AllocFailed": CauseKind.MEMORY,
    "Unreadable": CauseKind.FILE, "Unwritable": CauseKind.FILE, "Io": CauseKind.FILE, "WroteNothing": CauseKind.FILE, "Spawn": CauseKind.THREAD,
}
NAMED = {
    CauseKind.MEMORY: re.compile(r"\bAllocError\b|\bAllocFailed\b|:: (?:Memory|OutOfMemory|Unkept)\b|\bFailure\b|\bRoom \("),
    CauseKind.FILE: re.compile(r"\bio :: Error\b|\bErrorKind\b|:: (?:Unreadable|Unwritable|Io|WroteNothing)\b"),
    CauseKind.THREAD: re.compile(r"\bSpawnError\b|:: Spawn\b"),
}
"""Patterns and types that name a cause of a kind."""
RESULTS = {
    CauseKind.MEMORY: re.compile(r"Result < .*\b(?:AllocError|AllocFailed < .* >) >$"),
    CauseKind.FILE: re.compile(r"^(?:io :: )?Result < .*io :: Error >$|^io :: Result <"),
    CauseKind.THREAD: re.compile(r"Result < .*\bSpawnError >$"),
}
"""Results of calls that fail for causes of a kind alone."""
ALLOCATING = {
    "with_capacity", "push", "reserve", "extend_from_slice", "collect", "clone", "to_vec", "from_str", "vec", "format", "BufReader :: new",
}
"""Calls of the kit that fail for want of memory alone."""
AREAS = {
    "Failure :: Block": {"parse", "unkept_frame", "fail_unkept"},
    "Failure :: Program": {"loaded", "push_shared", "put_shared", "fail_unkept"},
    "Failure :: Run": {"calls_over", "commit", "put_entries", "room_for_run", "run_calls"},
    "Failure :: Answer": {"EmptyBuffer :: new", "name_line", "receipts_text", "text_answer", "text_of_storage"},
    "SeqFault :: Memory": {"BufReader :: new", "find_conflicts", "into_result", "load_job", "run_in_order", "run_on_copy", "store_after_calls"},
    "RunFault :: Memory": {
        "apply_receipts", "commit", "copy_with_receipts", "counts_by_share", "finished_of", "load_job", "outcome_of", "room_for_read",
        "run_fault", "share_out", "write_outside",
    },
    "OutsideFault :: Memory": {"Vec :: with_capacity", "refuse_memory"},
    "refuse_memory": {"Run :: start_in", "answer_stored", "go", "reads_made", "refuse_run"},
    "refuse_run": {"reads_made"},
    "DriveFault :: Memory": {"core_of", "from", "hand_in", "load_job"},
    "ReplayFault :: Memory": {
        "Replay :: start", "debug_lines_to", "go_run", "place_text", "push_str", "run_after", "step_run", "store_left", "vec",
    },
    "DebugFault :: Memory": {"heard_of", "line_text", "push"},
    "OpenFault :: Memory": {"from", "kind", "path_fault", "unopened"},
    "WriteFault :: Memory": {"TextBuffer :: new", "counts_text", "format"},
    "Cause :: Memory": {"", "finish", "from", "in_second_format", "parts"},
    "AsmCause :: Memory": {"", "as_answered", "from", "lines"},
    "ElfError :: Memory": {"Arc :: new", "file", "from", "image", "read_whole"},
    "BLOCK_MEMORY": {"", "open_apart", "put", "read_text"},
    "SOURCE_MEMORY": {"", "open_apart", "put", "read_text"},
}
"""The calls whose want of memory an area reports: of the requests of a session, of a run in order, with threads and along a schedule,
of a debugged call, of the file of a session, and of texts, sources, blocks and programs. A name in small letters is a function that
makes a cause: the calls after which it is called."""

SIZE = re.compile(r":: try_from \(|\. checked_\w+ \(")  # calls that fail if a size does not fit a word of the machine
NEVER = re.compile(r"$^")
RULES = {CauseKind.MEMORY: NEVER, CauseKind.FILE: re.compile(r"\bstr :: from_utf8 \(|\. is_one_file \("), CauseKind.THREAD: NEVER}
"""Calls after which the rules name a cause of a kind."""
CAUSE = re.compile(r"\w*(?:Fault|Refusal|Error|Failure|Answer)\b")  # types of causes

"""What instructions and storage calls cost, as docs/contracts.md has it."""

import enum

from rvstm_tools.texts.results import End


class StorageCall(enum.IntEnum):
    READ = 0
    WRITE = 1
    REMOVE = 2
    RETURN = 3
    REVERT = 4
    ADD = 5


NAMES = tuple(call.name for call in StorageCall)
INSTRUCTIONS = {
    **dict.fromkeys(("mul", "mulh", "mulhsu", "mulhu"), 4),
    **dict.fromkeys(("div", "divu", "rem", "remu"), 16),
    **dict.fromkeys(("lb", "lh", "lw", "lbu", "lhu", "sb", "sh", "sw"), 2),
}
OF_ALL_OTHERS = 1
FREE_ENDS = (End.FETCH_FAULT, End.ILLEGAL, End.UNKNOWN_CALL, End.BAD_LENGTH)  # these ends come before the instruction is charged


def of_instruction(text: str) -> int:
    """The gas of an instruction that is not an ECALL, by its text."""
    return INSTRUCTIONS.get(text.split(" ", 1)[0], OF_ALL_OTHERS)


def of_storage_call(number: int, length: int, copied: int, rules: int) -> int:
    """The gas of a storage call: `length` is that of a WRITE's value or an output, `copied` that of a READ's copy."""
    match StorageCall(number):
        case StorageCall.READ:
            return 200 + (copied if rules > 1 else 0)
        case StorageCall.WRITE:
            return 400 + 4 * length
        case StorageCall.RETURN | StorageCall.REVERT:
            return 10 + length
        case _:  # REMOVE and ADD
            return 300

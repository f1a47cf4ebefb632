"""The instructions of RV32IM as words (the tables of the manual), and program files of such words."""

import struct
from collections.abc import Sequence
from dataclasses import dataclass
from typing import NamedTuple

IMMEDIATES = {"addi": 0, "slti": 2, "sltiu": 3, "xori": 4, "ori": 6, "andi": 7}
SHIFTS = {"slli": (0x00, 1), "srli": (0x00, 5), "srai": (0x20, 5)}
COMPUTATIONS = {
    "add": (0x00, 0), "sub": (0x20, 0), "sll": (0x00, 1), "slt": (0x00, 2), "sltu": (0x00, 3),
    "xor": (0x00, 4), "srl": (0x00, 5), "sra": (0x20, 5), "or": (0x00, 6), "and": (0x00, 7),
}
PRODUCTS = {"mul": (1, 0), "mulh": (1, 1), "mulhsu": (1, 2), "mulhu": (1, 3)}
QUOTIENTS = {"div": (1, 4), "divu": (1, 5), "rem": (1, 6), "remu": (1, 7)}
LOADS = {"lb": 0, "lh": 1, "lw": 2, "lbu": 4, "lhu": 5}
STORES = {"sb": 0, "sh": 1, "sw": 2}
BRANCHES = {"beq": 0, "bne": 1, "blt": 4, "bge": 5, "bltu": 6, "bgeu": 7}
FENCE, ECALL = 0x0FF0_000F, 0x0000_0073
LUI, AUIPC, JAL, JALR, BRANCH, LOAD, STORE, OP_IMM, OP, MISC_MEM, SYSTEM = (
    0x37, 0x17, 0x6F, 0x67, 0x63, 0x03, 0x23, 0x13, 0x33, 0x0F, 0x73,
)
REGISTER_FORMS = COMPUTATIONS | PRODUCTS | QUOTIENTS
WIDTHS = {"lb": 1, "lbu": 1, "sb": 1, "lh": 2, "lhu": 2, "sh": 2, "lw": 4, "sw": 4}
BRANCH_REACH = 1 << 12  # bytes; a target is below it forward, and not above it back

WORD, PAGE = 4, 4_096
FIRST_ADDRESS, INPUT_ADDRESS, END_ADDRESS = 0x1_0000, 0x10_0000, 0x11_0000
EXECUTE, WRITE, READ = 1, 2, 4
FILE_LIMIT, SEGMENT_LIMIT = 131_072, 8
HEADER, SEGMENT_HEADER = 52, 32


def word_of_r(funct7: int, rs2: int, rs1: int, funct3: int, rd: int, opcode: int) -> int:
    return funct7 << 25 | rs2 << 20 | rs1 << 15 | funct3 << 12 | rd << 7 | opcode


def word_of_i(immediate: int, rs1: int, funct3: int, rd: int, opcode: int) -> int:
    return (immediate & 0xFFF) << 20 | rs1 << 15 | funct3 << 12 | rd << 7 | opcode


def word_of_s(immediate: int, rs2: int, rs1: int, funct3: int) -> int:
    return word_of_r((immediate & 0xFFF) >> 5, rs2, rs1, funct3, immediate & 31, STORE)


def word_of_b(offset: int, rs2: int, rs1: int, funct3: int) -> int:
    high = (offset >> 12 & 1) << 6 | offset >> 5 & 63
    return word_of_r(high, rs2, rs1, funct3, (offset >> 1 & 15) << 1 | offset >> 11 & 1, BRANCH)


def word_of_u(upper: int, rd: int, opcode: int) -> int:
    return (upper & 0xFFFFF) << 12 | rd << 7 | opcode


def computed(name: str, rd: int, left: int, right: int) -> int:
    """A computation of two registers."""
    funct7, funct3 = REGISTER_FORMS[name]
    return word_of_r(funct7, right, left, funct3, rd, OP)


def immediate(name: str, rd: int, source: int, number: int) -> int:
    """A computation with an immediate of 12 bits."""
    return word_of_i(number, source, IMMEDIATES[name], rd, OP_IMM)


def shifted(name: str, rd: int, source: int, amount: int) -> int:
    """A shift by a fixed amount."""
    funct7, funct3 = SHIFTS[name]
    return word_of_r(funct7, amount, source, funct3, rd, OP_IMM)


def lui(rd: int, upper: int) -> int:
    return word_of_u(upper, rd, LUI)


def auipc(rd: int, upper: int) -> int:
    return word_of_u(upper, rd, AUIPC)


def loaded(name: str, rd: int, base: int, offset: int) -> int:
    return word_of_i(offset, base, LOADS[name], rd, LOAD)


def stored(name: str, source: int, base: int, offset: int) -> int:
    return word_of_s(offset, source, base, STORES[name])


def branch(name: str, left: int, right: int, offset: int) -> int:
    return word_of_b(offset, right, left, BRANCHES[name])


def jal(rd: int, offset: int) -> int:
    top = (offset >> 20 & 1) << 19 | (offset >> 1 & 1023) << 9 | (offset >> 11 & 1) << 8 | offset >> 12 & 255
    return word_of_u(top, rd, JAL)


def jalr(rd: int, base: int, offset: int) -> int:
    return word_of_i(offset, base, 0, rd, JALR)


def parts_of(number: int) -> tuple[int, int]:
    """The upper 20 bits and the lower 12, signed, of which LUI or AUIPC and another instruction make a number."""
    return (number + 0x800) >> 12 & 0xFFFFF, (number & 0xFFF ^ 0x800) - 0x800


def constant(rd: int, number: int) -> list[int]:
    upper, lower = parts_of(number)
    return [lui(rd, upper), immediate("addi", rd, rd, lower)]


def storage_call(number: int, key: int) -> list[int]:
    """The instructions of a storage call at the key that a register points to."""
    return [immediate("addi", 10, key, 0), immediate("addi", 17, 0, number), ECALL]


def text_of(words: Sequence[int]) -> bytes:
    return struct.pack(f"<{len(words)}I", *words)


@dataclass(frozen=True)
class FileSegment:
    """Bytes of a file, from a place of its content on, and where they are in memory; zeros follow up to a size."""

    address: int
    place: int
    length: int
    rights: int
    size: int = 0  # if it is more than the length


def program_file(entry: int, content: bytes, segments: Sequence[FileSegment]) -> bytes:
    """A program file of the content; its segments may overlap there."""
    start = HEADER + SEGMENT_HEADER * len(segments)
    head = b"\x7fELF\x01\x01\x01".ljust(16, b"\0")
    head += struct.pack("<HHIIIIIHHHHHH", 2, 243, 1, entry, HEADER, 0, 0, HEADER, SEGMENT_HEADER, len(segments), 0, 0, 0)
    for one in segments:
        size = max(one.size, one.length)
        head += struct.pack("<8I", 1, start + one.place, one.address, one.address, one.length, size, one.rights, WORD)
    if len(segments) > SEGMENT_LIMIT or len(head) + len(content) > FILE_LIMIT:
        raise ValueError(f"a program of {len(segments)} segments and {len(head) + len(content)} bytes is too large")
    return head + content


class ElfPart(NamedTuple):
    address: int
    data: bytes
    rights: int


def elf_of(*parts: ElfPart) -> bytes:
    """A program file of some parts; the entry is the address of the first one."""
    content, segments = b"", []
    for address, data, rights in parts:
        segments.append(FileSegment(address, len(content), len(data), rights))
        content += data
    return program_file(parts[0].address, content, segments)

"""Programs, and blocks of them that have as much of something as the rules allow, or much of what they do not limit."""

import functools
from collections.abc import Callable

from rvstm_developers.machine_code import PAGE
from rvstm_developers.models.machine import MEMORY_END, TEXT, MachineBlock, MachineProgram
from rvstm_developers.texts import word
from rvstm_tools.debugging.charges import StorageCall
from rvstm_tools.texts.blocks import CallLine, Rules
from rvstm_tools.texts.keys import numbered_key as key

MOST_CALLS, MOST_GAS, MOST_PROGRAMS, MOST_WRITES = 1024, 10_000_000, 64, 256
LONGEST_INPUT, LONGEST_OUTPUT, LONGEST_PROGRAM = 4096, 256, 131_072
MANY_KEYS = 262_144
NOTHING = ["addi a7,zero,3", "addi a1,zero,0", "ecall"]  # returns no bytes

# Returns the last bytes of an input of the greatest length.
LAST = MachineProgram(["li t0,3840", "add a0,a0,t0", "addi a1,zero,256", "addi a7,zero,3", "ecall"])
# Goes round a loop as often as the word after a key says, and adds one to the word that the key has.
COUNT = MachineProgram(
    ["addi s0,a0,0", "lw t0,32(s0)", "round:", "addi t0,t0,-1", "bne t0,zero,round", "addi a1,sp,-64", "addi a2,zero,64", "ecall"]
    + ["lw t0,-64(sp)", "addi t0,t0,1", "sw t0,-64(sp)", "addi a0,s0,0", "addi a2,zero,4", "addi a7,zero,1", "ecall", *NOTHING]
)
# Reads a key as often as the word after it says, and writes what it read last.
READS = MachineProgram(
    ["addi s0,a0,0", "lw s1,32(s0)", "addi a1,sp,-64", "addi a2,zero,64", "again:", "ecall", "addi a0,s0,0", "addi s1,s1,-1"]
    + ["bne s1,zero,again", "addi a2,zero,4", "addi a7,zero,1", "ecall", *NOTHING]
)
# Reads a key until its gas is over; nearly all of that goes into the reads.
READS_ON = MachineProgram(["addi s0,a0,0", "addi a1,sp,-64", "addi a2,zero,64", "again:", *["ecall", "addi a0,s0,0"] * 500, "beq zero,zero,again"])
# Stores a word to each page from an address on, as many as the next word says.
PAGES = MachineProgram(
    ["lw t0,0(a0)", "lw t1,4(a0)", "li t2,4096", "next:", "sw t0,0(t0)", "add t0,t0,t2", "addi t1,t1,-1", "bne t1,zero,next", *NOTHING]
)
# Makes the same storage call on key after key. After the first key are how many, the length, and the number of the call;
# the value or the buffer is 64 bytes after the key. It returns the first 256 bytes of its input.
EACH = MachineProgram(
    ["addi s0,a0,0", "lw s1,32(s0)", "lw a2,36(s0)", "lw a7,40(s0)", "addi a1,s0,64", "again:", "ecall", "addi a0,s0,0"]
    + ["lw t0,28(s0)", "addi t0,t0,1", "sw t0,28(s0)", "addi s1,s1,-1", "bne s1,zero,again"]
    + ["addi a1,zero,256", "addi a7,zero,3", "ecall"]
)
# Ends by the storage call of the second word, with as many bytes of its input as the first one says.
OUTPUT = MachineProgram(["lw a1,0(a0)", "lw a7,4(a0)", "ecall"])


def filled(length: int, number: int) -> bytes:
    """So many bytes, by which values of different numbers differ."""
    return (word(number) * (length // 4 + 1))[:length]


def count(number: int, rounds: int = 1) -> CallLine:
    """A call of COUNT on the key of a number, by a block whose first program it is."""
    return CallLine(0, MOST_GAS, key(number) + word(rounds))


def each(first: int, keys: int, length: int, number: int, program: int = 0) -> CallLine:
    """A call of EACH on keys from a number on. Their last four bytes count with the lowest first."""
    data = key(0)[:28] + word(first) + word(keys) + word(length) + word(number)
    return CallLine(program, MOST_GAS, data.ljust(64, b"\0") + filled(256, first))


def of_inputs(calls: int = MOST_CALLS) -> MachineBlock:
    return MachineBlock([LAST], [CallLine(0, MOST_GAS, filled(LONGEST_INPUT, number)) for number in range(calls)])


def of_programs() -> MachineBlock:
    """Each program returns its input, after so many instructions more than the one before it."""
    programs = [MachineProgram([*["addi t1,t1,1"] * number, "addi a7,zero,3", "ecall"]) for number in range(MOST_PROGRAMS)]
    return MachineBlock(programs, [CallLine(number % MOST_PROGRAMS, MOST_GAS, word(number)) for number in range(MOST_CALLS)])


def of_file_keys(length: int = 8, rules: int = 1, keys: int = MANY_KEYS) -> MachineBlock:
    store = {key(3 * number): filled(length, number) for number in range(keys)}
    return MachineBlock([COUNT], [count(0), count(3 * keys - 3), count(3 * keys), count(1)], store, rules)


def of_reads() -> MachineBlock:
    """A call of many reads, and one that reads until its gas is over."""
    return MachineBlock([READS, READS_ON], [CallLine(0, MOST_GAS, key(1) + word(49_000)), CallLine(1, MOST_GAS, key(1))], {key(1): filled(64, 7)})


def of_pages() -> MachineBlock:
    first, pages, end = TEXT + PAGE, (MEMORY_END - TEXT) // PAGE - 1, MEMORY_END
    ranges = ((first, pages), (first, pages + 1), (TEXT, 1), (end, 1), (end - PAGE, 1), (TEXT - PAGE, 1))
    return MachineBlock([PAGES], [CallLine(0, MOST_GAS, word(start) + word(count)) for start, count in ranges])


def of_lengths(rules: int) -> MachineBlock:
    """Reads and writes of the greatest length and a byte more, of the most keys and one more; outputs as well."""
    most = Rules(rules).longest_value
    calls = [each(1000 * number, MOST_WRITES, most, StorageCall.WRITE) for number in range(2)]
    calls += [each(0, MOST_WRITES, most, StorageCall.READ), each(0, MOST_WRITES + 1, most, StorageCall.READ)]
    calls += [each(5000, MOST_WRITES + 1, 1, StorageCall.WRITE), each(6000, 1, most + 1, StorageCall.WRITE), each(0, 1, most + 1, StorageCall.READ)]
    ends = [(LONGEST_OUTPUT + more, end) for end in (StorageCall.RETURN, StorageCall.REVERT) for more in (0, 1)]
    calls += [CallLine(1, MOST_GAS, word(length) + word(end) + bytes(256)) for length, end in ends]
    return MachineBlock([EACH, OUTPUT], calls, {key(9): filled(most, 9)}, rules)


def of_one_key() -> MachineBlock:
    """A path through all calls: each one waits for the one before it."""
    return MachineBlock([COUNT], [count(1)] * MOST_CALLS)


def of_few_keys(calls: int = 300, rounds: int = 300) -> MachineBlock:
    return MachineBlock([COUNT], [count(number % 7, rounds) for number in range(calls)])


def of_adds() -> MachineBlock:
    """Calls that add to keys, and calls that read all of them: each waits for all of the first ones."""
    calls = [each(0, MOST_WRITES, number, StorageCall.ADD) for number in range(256)] + [each(0, MOST_WRITES, 256, StorageCall.READ) for _ in range(256)]
    return MachineBlock([EACH], calls, {}, 3)


MAKERS: dict[str, Callable[[], MachineBlock]] = {
    "64 programs, 1,024 calls": of_programs,
    "32 calls that write 256 keys each": lambda: MachineBlock([EACH], [each(256 * number, 256, 0, StorageCall.WRITE) for number in range(32)]),
    "a call of 5,000 reads": lambda: MachineBlock([EACH], [each(0, 5_000, 0, StorageCall.READ)]),
    "a file of 8 MiB": functools.partial(of_file_keys, 64, 1, 41_944),
    "1,024 inputs of 4,096 bytes": of_inputs,
    "a file of 262,144 keys": of_file_keys,
    "a call of 49,000 reads, and one that reads until its gas is over": of_reads,
    "a store to each page, and after the last": of_pages,
    "256 keys of 64 bytes, outputs of 256, and more, under rules one": functools.partial(of_lengths, 1),
    "256 keys of 256 bytes, outputs of 256, and more, under rules two": functools.partial(of_lengths, 2),
    "300 calls on seven keys": of_few_keys,
    "1,024 calls on one key": of_one_key,
    "1,024 calls on a key each": lambda: MachineBlock([COUNT], [count(number) for number in range(MOST_CALLS)]),
    "256 calls add to 256 keys, 256 read them": of_adds,
    "262,144 writes of 256 bytes": lambda: MachineBlock(
        [EACH], [each(MOST_WRITES * number, MOST_WRITES, 256, StorageCall.WRITE) for number in range(MOST_CALLS)], {}, 2
    ),
}

SMALL = (
    "64 programs, 1,024 calls", "1,024 calls on one key", "32 calls that write 256 keys each", "a call of 5,000 reads",
    "a store to each page, and after the last", "a file of 8 MiB", "1,024 inputs of 4,096 bytes",
)
"""What an unproved program runs in seconds, or a proved one at once."""


@functools.lru_cache(maxsize=1)
def made(name: str) -> MachineBlock:
    return MAKERS[name]()

"""Each command of the program and each tool, once by its documented form. The expected text is in the pages, or was worked
out from the block by hand."""

import json
import re
import signal
import xml.etree.ElementTree
from collections.abc import Callable, Sequence

from gate import pages
from gate.calls import command, rvstm, tool, tool_words
from gate.runner import TOP, Case, Differs, Run, Tool, holds, same
from gate.texts import counts_of_workers, written
from rvstm_developers.commands.built import OF_LIBRARY, PROGRAM, are_noted

EXAMPLES = TOP / "examples"
COUNTER, LOCK, TOKEN = (EXAMPLES / name for name in ("counter", "lock", "token"))
KEY = f"{1:064x}"
# By hand: each of three calls adds 1 to the number at key 1.
COUNTED = f"""\
call 0 returned gas 639 pc 00010034 out -
regs 00000000 00000000 00110000 ..
write 0 {KEY} 01000000
call 1 returned gas 639 pc 00010034 out -
regs 00000000 00000000 00110000 ..
write 1 {KEY} 02000000
call 2 returned gas 639 pc 00010034 out -
regs 00000000 00000000 00110000 ..
write 2 {KEY} 03000000
store {KEY} 03000000
end
"""
# Three calls of 639 gas, of which each reads what the one before wrote.
WAITS = f"""\
writers {KEY} 0 1 2
call 0 gas 639 path 639
wait 1 0 {KEY}
call 1 gas 639 path 1278
wait 2 1 {KEY}
call 2 gas 639 path 1917
key {KEY} writers 3 waits 2
all calls 3 gas 1917 path 1917
"""
# counter.s as GNU objdump reads its words, with -M no-aliases,numeric.
LISTING = """\
00010000 fc010593 addi x11,x2,-64
00010004 04000613 addi x12,x0,64
00010008 00050413 addi x8,x10,0
0001000c 00000073 ecall
00010010 fc012283 lw x5,-64(x2)
00010014 00128293 addi x5,x5,1
00010018 fc512023 sw x5,-64(x2)
0001001c 00040513 addi x10,x8,0
00010020 00400613 addi x12,x0,4
00010024 00100893 addi x17,x0,1
00010028 00000073 ecall
0001002c 00300893 addi x17,x0,3
00010030 00000593 addi x11,x0,0
00010034 00000073 ecall
"""
VOTES = """\
program tally tally.elf
store key:bob u64:7
call tally 2000 key:alice
expect returned u64:1
call tally 2000 key:bob
expect returned u64:9
call tally 2000 00
expect reverted "the input is no key"
storage
expect key:alice u64:1
expect key:bob u64:8
expect no other key
expect same by 8 workers
"""
VOTES_TESTED = """\
failed  PATH: 3 calls, expectations: 1 of 7 not met
    line 5, call 1: call tally 2000 key:bob
        line 6: expect returned u64:9
        wanted  returned  0900000000000000  9
        came    returned  0800000000000000  8
        ended   returned, gas N
        more    rvstm-tools trace PATH --call 1
1 test: 0 passed, 1 failed; 3 calls, 7 expectations, 1 not met
"""
NEW_STATE = "rules 1\nheight 0\nkeys 0\nprograms 0\nframe-limit 67108864\nframe-gas none\nbrief 0\n"
TOO_SMALL = b"the balance is too small".hex()
BOB = "61636374626f6200000000000000000000000000000000000000000000000014"
"""The key `row:acct:key:bob`."""


def printed(came: str, wanted: str) -> None:
    """The case ends if a text is not this one, in which `..` is cut."""
    difference = pages.first_difference(wanted.splitlines(), came.splitlines())
    if difference:
        raise Differs(difference)


# ---- commands of the program


def seq(run: Run) -> None:
    printed(rvstm(run, "seq", "counter.block", folder=COUNTER).done(), COUNTED)


def run_by_workers(run: Run) -> None:
    """The same by threads, and what these counted."""
    done = rvstm(run, "run", "counter.block", "--workers", "4", "--counts", folder=COUNTER)
    printed(done.done(), COUNTED)
    counts = [re.sub(r"\d+", "N", line) for line in done.errors.splitlines()]
    worker = "worker N steps N asks N executions N validations N"
    same(counts, [worker] * 4 + ["all steps N asks N executions N validations N repeated N"])
    counts_of_workers(done.errors, 3)


def drive(run: Run) -> None:
    words = ("drive", "counter.block", "--workers", "2", "--schedule", "turns.schedule")
    printed(rvstm(run, *words, folder=COUNTER).done(), COUNTED)
    short = written(run.place / "short", "0\n")
    rvstm(run, *words[:-1], short, folder=COUNTER).refused("rvstm: drive NotDone 1")


def conflicts(run: Run) -> None:
    same(rvstm(run, "conflicts", "counter.block", folder=COUNTER).done(), WAITS)


def asm(run: Run) -> None:
    made = run.place / "made.elf"
    same(rvstm(run, "asm", "counter.s", "--out", made, folder=COUNTER).done(), "")
    holds(made.read_bytes() == (COUNTER / "counter.elf").read_bytes(), "another file", "the bytes of counter.elf")
    wrong = written(run.place / "wrong.s", "add\n")
    rvstm(run, "asm", wrong, "--out", made).refused("rvstm: asm 1 BadOperand 2")


def dis(run: Run) -> None:
    same(rvstm(run, "dis", "counter.elf", folder=COUNTER).done(), LISTING)


def debug(run: Run) -> None:
    words = ("debug", "token.block", "--call", "2")
    lines = "g 00010450\nb\nm 0010fff8 8\nwhat\nq\n"
    wanted = "90 00010450 ecall\n89 0001044c addi x17,x0,4\n2300000000000000\nwhat\n"
    same(rvstm(run, *words, folder=TOKEN, data=lines).done(), wanted)
    more = rvstm(run, *words, "--more", folder=TOKEN, data=f"e\nt 90\nt 92\nv {BOB}\n").done()
    wanted = f"ends reverted {TOO_SMALL} 352 91\n90 00010450 ecall\nrefused AtEnd 2\nvalue 2300000000000000\n"
    same(more, wanted)


def migrate(run: Run) -> None:
    """A block of format 1 under rules one, as one of format 2."""
    made = run.place / "made.block"
    same(rvstm(run, "migrate", "counter.block", "--out", made, folder=COUNTER).done(), "")
    block = (COUNTER / "counter.block").read_text(encoding="utf-8")
    same(made.read_text(encoding="utf-8"), block.replace("rvblock 1\n", "rvblock 2\ngas 1\n", 1))


def chain(run: Run) -> None:
    asks = f"state\nget {KEY}\nlast\nq\nwhat comes after q is not read"
    wanted = f"ok {len(NEW_STATE)}\n{NEW_STATE}ok 7\nabsent\nrefused frame NoFrame 7\n"
    same(rvstm(run, "chain", data=asks).done(), wanted)


def help_and_version(run: Run) -> None:
    """The commands that help names are those that have a case; each has help of its own."""
    text = rvstm(run, "--help").done()
    names = re.findall(r"^  ([a-z]+) +[A-Z]", text.split("Options:")[0], re.M)
    same(sorted(names), sorted([*COMMANDS, "help"]))
    for name in names:
        for words in (("help", name), (name, "--help")) if name != "help" else ():
            holds("Usage: " in rvstm(run, *words).done(), " ".join(words), "a line of usage")
    newest = re.search(r"^## (\d+\.\d+\.\d+)", (TOP / "CHANGELOG.md").read_text(encoding="utf-8"), re.M)
    same(rvstm(run, "--version").done(), f"rvstm {newest[1] if newest else ''}\n")


def refusals(run: Run) -> None:
    """A refused command ends with status 1 and one line, a wrong command line with 2."""
    rvstm(run, "seq", "no.block").refused("rvstm: file Unreadable 1")
    rvstm(run, "seq", written(run.place / "empty", "")).refused("rvstm: block 1 BadHeader 1")
    for words in (["seq"], ["run", "a", "--workers", "33"], ["debug", "a", "--call", "1024"], ["what"]):
        done = rvstm(run, *words)
        same((done.status, done.out), (2, ""), " ".join(words))


COMMANDS: dict[str, Callable[[Run], None]] = {
    "seq": seq,
    "run": run_by_workers,
    "drive": drive,
    "conflicts": conflicts,
    "asm": asm,
    "dis": dis,
    "debug": debug,
    "migrate": migrate,
    "chain": chain,
}


# ---- tools


def block(run: Run) -> None:
    """A list to its block; and one of three blocks to files, which a session takes as its frames."""
    same(tool(run, "block", COUNTER / "counter.list").done(), (COUNTER / "counter.block").read_text(encoding="utf-8"))
    later = written(run.place / "later.list", (LOCK / "later.list").read_text(encoding="utf-8").replace("lock.elf", f"{LOCK}/lock.elf"))
    refused = tool(run, "block", later)
    same((refused.status, refused.errors), (2, f"block: {later}: it has 3 blocks; --out NAME writes each of them to a file\n"))
    tool(run, "block", later, "--out", run.place / "later").done()
    files = sorted(run.place.glob("later-*.block"))
    ends = re.findall(r"^ +\d+  (\w+)", tool(run, "session", *files).done(), re.M)
    same(ends, ["returned", "reverted", "reverted", "returned", "reverted"])
    blocks = re.findall(r"^block \d$", tool(run, "session", later).done(), re.M)
    same(blocks, ["block 0", "block 1", "block 2"])


def test(run: Run) -> None:
    """A list as a test; one that is not met, and one that is wrong."""
    last = tool(run, "test", COUNTER / "counter.list").done().splitlines()[-1]
    holds(last.startswith("1 test: 1 passed, 0 failed;"), last, "1 test: 1 passed, 0 failed; ..")
    text = f"program counter {COUNTER}/counter.elf\ncall counter 1000 {KEY}\nexpect gas at most %s\n"
    same(tool(run, "test", written(run.place / "one.list", text % 639)).status, 0)
    same(tool(run, "test", written(run.place / "one.list", text % 638)).status, 1)
    same(tool(run, "test", written(run.place / "one.list", text % "x")).status, 2)
    test_that_fails(run)
    test_over_a_result(run)


def test_that_fails(run: Run) -> None:
    """A list of which one expectation is not met, as the page of contracts has it, and one whose program is refused."""
    path = written(run.place / "votes.list", VOTES.replace("tally.elf", f"{EXAMPLES}/tally/tally.elf"))
    came = tool(run, "test", path)
    out = re.sub(r"returned, gas \d+", "returned, gas N", came.out)
    same((came.status, out, came.errors), (1, VOTES_TESTED.replace("PATH", str(path)), ""))
    written(run.place / "a.elf", "no program")
    path = written(run.place / "no.list", 'program a a.elf\nstore key:1 u8:7\ncall a 9 "hi"\nexpect returned "hi"\n')
    came = tool(run, "test", path)
    same(came.status, 1)
    holds(f"        {path}, line 1, a.elf: rvstm: elf Truncated 1\n" in came.out, came.out, "the refusal and its line")


def test_over_a_result(run: Run) -> None:
    """A list over what three calls left, twice: for a table of gas, and compared with that table, in formats for machines."""
    place = run.place / "over a result"
    place.mkdir()
    written(place / "result", rvstm(run, "seq", "counter.block", folder=COUNTER).done())
    call = f"call counter 1000 {KEY}\nexpect {KEY} u32:4\n"
    written(place / "one.list", f"storage result\nprogram counter {COUNTER}/counter.elf\n{call}")
    tool(run, "test", ".", "--gas", "gas.txt", "--write", folder=place).done()
    table = (place / "gas.txt").read_text(encoding="utf-8")
    holds(table.endswith(f" 639\tone.list\t0\t\tcall counter 1000 {KEY}\n"), table, "the gas of the call")
    again = call.replace("u32:4", "u32:5")
    written(place / "one.list", f"storage result\nprogram counter {COUNTER}/counter.elf\nshape input count key\n{call.replace(KEY, 'key:1')}{again}")
    shaped = tool(run, "test", ".", "--gas", "gas.txt", "--write", folder=place).done()
    holds("    one.list, count: 2 calls, least 639, mean 639, most 639\n" in shaped, shaped, "least, mean and most")
    text = (place / "one.list").read_text(encoding="utf-8")
    written(place / "one.list", text.replace("call", "call counter 999 key:2\ncall", 1))
    more = tool(run, "test", ".", "--gas", "gas.txt", folder=place)
    same((more.status, more.out.splitlines()[1:3]), (1, [
        "1 call of gas.txt differs by more than 0 percent", "    one.list, block 0, count: call counter 999 key:2: 639, and not in the table"]))
    written(place / "one.list", text)
    done = tool(run, "test", ".", "--gas", "gas.txt", "--json", "--junit", "tests.xml", folder=place).done()
    words = ("--gas", place / "later.txt", "--write", "--json", "--junit", place / "later.xml")
    later = tool(run, "test", LOCK / "later.list", *words).done().splitlines()
    same([json.loads(later[0])[name] for name in ("calls", "expectations", "misses")], [5, 11, []])
    rows = (place / "later.txt").read_text(encoding="utf-8").splitlines()[1:]
    same([row.split("\t")[2] for row in rows], ["0", "0", "1", "2", "2"], "the blocks of the calls")
    sums = {"kind": "sums", "tests": 1, "failed": 0, "calls": 2, "expectations": 2, "not_met": 0}
    same(json.loads(done.splitlines()[-1]), sums)
    holds('tests="2" failures="0"' in (place / "tests.xml").read_text(encoding="utf-8"), "another file", "two tests without a failure")


def result(run: Run) -> None:
    text = rvstm(run, "seq", "counter.block", folder=COUNTER).done()
    wanted = "call  end                   gas  pc        output\n   0  returned              639  00010034  ..\n..\nstorage\n..\n"
    printed(tool(run, "result", data=text).done(), wanted)
    same(tool(run, "result", "--json", data=text).done().count("\n"), 3 + 1 + 1)


def picture(run: Run) -> None:
    made = run.place / "waits.svg"
    tool(run, "conflicts", "counter.block", "--svg", made, folder=COUNTER).done()
    same(xml.etree.ElementTree.parse(made).getroot().tag, "{http://www.w3.org/2000/svg}svg")
    tool(run, "conflicts", LOCK / "later.list", "--block", "2", "--svg", made, folder=run.place).done()
    holds("later.list: 2 calls" in made.read_text(encoding="utf-8"), "another picture", "two calls of the third block")
    for words in ((), ("--block", "3")):
        several = tool(run, "conflicts", "later.list", "--svg", made, *words, folder=LOCK)
        same((several.status, several.errors), (1, "conflicts: later.list: it has 3 blocks; --block N names one, from 0\n"))


def schedule(run: Run) -> None:
    """Schedules, and the entries until the workers are done."""
    same(tool(run, "schedule", "2", "4").done(), "0\n1\n0\n1\n")
    same(tool(run, "schedule", "3", "2", "worker", "2").done(), "2\n2\n")
    first = written(run.place / "first", "0\n1\n")
    more = tool(run, "schedule", "2", "--to-done", "counter.block", "--from", first, folder=COUNTER).done()
    whole = written(run.place / "whole", first.read_text(encoding="utf-8") + more)
    printed(rvstm(run, "drive", "counter.block", "--workers", "2", "--schedule", whole, folder=COUNTER).done(), COUNTED)


def trace(run: Run) -> None:
    wanted = "call 2 of token.block: reverted, 91 steps, gas 352 of 5000, pc 00010450\n..\n"
    printed(tool(run, "trace", "token.block", "--call", "2", folder=TOKEN).done(), wanted)
    printed(tool(run, "trace", TOKEN / "token.list", "--call", "2", folder=run.place).done(), wanted.replace("block", "list"))
    later = tool(run, "trace", LOCK / "later.list", "--call", "3", folder=run.place).done()
    holds(later.startswith("call 3 of later.list: returned, ") and "\nopen(gate)" not in later, later, "the call of the third block")
    none = tool(run, "trace", "later.list", "--call", "5", folder=LOCK)
    same((none.status, none.errors), (1, "trace: later.list: there is no call 5; its 5 calls count from 0\n"))
    tool(run, "trace", written(run.place / "wrong", "nonsense\n"), "--call", "0").refused(f"trace: {run.place}/wrong, line 1: nonsense: not "
        "rules, include, program, shape, store, call, block, expect or storage")


def coverage(run: Run) -> None:
    """The calls, steps and inputs of a list. The program needs lines; a copy of it has none of a source."""
    for name in ("token.elf", "token.list"):
        (run.place / name).write_bytes((TOKEN / name).read_bytes())
    done = tool(run, "coverage", "token.list", folder=run.place)
    holds(done.status == 1 and "there is no" in done.errors and "token.lines.elf" in done.errors, done.errors, "there is no ..token.lines.elf")
    (run.place / "token.lines.elf").write_bytes((TOKEN / "token.elf").read_bytes())
    covered = tool(run, "coverage", "token.list", folder=run.place).done()
    same(covered, "6 calls, 518 steps\ninputs: mint 1, transfer 2, balance 2; others 1\n")


def explore(run: Run) -> None:
    """Random calls that keep what a description says."""
    last = tool(run, "explore", COUNTER / "counter.explore", "--calls", "300", "--seed", "1").done().splitlines()[-1]
    same(last, "nothing is broken")


def gdb(run: Run) -> None:
    """A packet of gdb's protocol: why the call stops, which it does at its first instruction, by signal 5."""
    done = tool(run, "gdb", "counter.block", "--call", "0", folder=COUNTER, data="+$?#3f")
    trapped = f"{signal.SIGTRAP:02x}"
    listed = tool(run, "gdb", LOCK / "later.list", "--call", "4", folder=run.place, data="+$?#3f")
    for out in (done.out, listed.out):
        holds(bool(re.match(rf"\+\$[ST]{trapped}.*#[0-9a-f]{{2}}", out)), out, f"+$S{trapped}#.. or +$T{trapped}..#..")


def verify(run: Run) -> None:
    made = run.place / "rvstm"
    command(["llvm-objcopy", "--strip-all", "-R", ".note.gnu.build-id", run.program, made]).done()
    digest = command(["sha256sum", made]).done().split()[0]
    sums = written(run.place / "SHA256SUMS", f"{digest}  rvstm\n")
    tool(run, "verify", run.program, "--sums", sums).done()
    same(tool(run, "verify", run.program, "--sums", written(sums, f"{'0' * 64}  rvstm\n")).status, 1)


def man_page(run: Run) -> None:
    """The man page is what the help of the program makes."""
    command([*tool_words("man-page"), run.program, "--check"]).done()


def unknown(run: Run, name: str) -> None:
    """A tool refuses an example that is not there, by one line with its name."""
    done = tool(run, name, "none")
    came = (done.status, done.out, done.errors.count("\n"), "none" in done.errors)
    holds(came == (1, "", 1, True), f"status {done.status}, {done.errors}", f"status 1 and one line with none, of {name} none")


def preview(run: Run) -> None:
    """The example by the unproved program, which is there at once."""
    if run.setting.is_preview:
        printed(tool(run, "preview", "counter").done(), COUNTED)
    unknown(run, "preview")


def example(run: Run) -> None:
    """The example by the proved program, if that is noted as proved of these sources: then it starts at once."""
    if are_noted(PROGRAM):
        printed(tool(run, "example", "counter").done(), COUNTED)
    unknown(run, "example")


def library(run: Run) -> None:
    """A wrong command line: the gate builds the library, and the cases of the library use it."""
    same(tool(run, "library", "what").status, 2)


def release(run: Run) -> None:
    """The files of a release, if this checkout has the program and the library as its sources make them, and nothing was changed."""
    folder = run.place / "release"
    is_clean = not command(["git", "-C", TOP, "status", "--porcelain"]).out
    if is_clean and are_noted(PROGRAM, *OF_LIBRARY):
        tool(run, "release", folder).done()
        command(["sha256sum", "--check", "--quiet", "SHA256SUMS"], folder).done()
    else:
        same(tool(run, "release").status, 2)


def new(run: Run) -> None:
    """A folder is made whether there is a compiler or not. The cases of an author build it, and run its test."""
    ended = tool(run, "new", "votes", folder=run.place)
    holds(ended.status == 0 or "votes is made, and not built: " in ended.errors, ended.errors, "a folder that is built")
    made = sorted(path.name for path in (run.place / "votes").iterdir() if path.suffix != ".elf")
    same(made, [".github", ".gitignore", "Makefile", "README.md", "compile_flags.txt", "votes.c", "votes.explore", "votes.list"])


def session(run: Run) -> None:
    """A list as a frame, and what the session in the file has then."""
    path = run.place / "ledger"
    tool(run, "session", "--store", path, "counter.list", folder=COUNTER).done()
    later = written(run.place / "later.list", (LOCK / "later.list").read_text(encoding="utf-8").replace("lock.elf", f"{LOCK}/lock.elf"))
    tool(run, "session", later).done()
    late = tool(run, "session", written(later, later.read_text(encoding="utf-8").replace("u64:60", "u64:61")))
    holds(late.status == 1 and "\n        wanted  returned  3d00000000000000  61\n" in late.out, late.out, "the line that is not met")
    came = tool(run, "session", "--store", path, "--get", "key:1", "--last", folder=COUNTER).done()
    same(came.splitlines()[1].split(), [f"{1:064x}:", "03000000", "3"])
    same(came.count("  returned  "), 3, "calls of the last frame")
    tool(run, "session", "--store", path, written(run.place / "bob.list", "store key:bob u64:4\n")).done()
    came = tool(run, "session", "--store", path, "--get", "key:bob", folder=COUNTER).done()
    same(came, 'get key:bob\n      "bob": 0400000000000000  4\n')


BLOCKS = (
    "store key:node.clock u64:1000\n",
    "call lock 10000 key:gate u64:5000\n",
    "store key:node.clock u64:6000\ncall lock 10000 key:gate\ncall lock 10000 key:gate\n",
)
"""A lock of the name `gate` until 5000, which is opened at 6000, and then is none."""


def typed_blocks(run: Run) -> None:
    """Calls that are typed, one by one and as a block, give the digest of lists with the same blocks; and a kept session by its fields."""
    path, folder = run.place / "ledger", TOP / "examples/lock"
    one, other, several = BLOCKS
    typed = f"{one}{other}block\n{several}get key:node.clock\nrun\nstate\n"
    came = command([*tool_words("session"), "--store", path, "--shapes", "lock.list"], folder, typed, {"RVSTM": str(run.program)}).done()
    shown = re.findall(r'^ +(?:\d  (\w+) +\d+  \w+  (?:\w+  )?|("node.clock"|height):? )(.*?)(?:  [0-9a-f]{9,})?$', came, re.M)
    clock, ends = ("", '"node.clock"', "seconds 1000"), [("returned", "", "-"), ("returned", "", "1000"), ("reverted", "", '"the name has no lock"')]
    same(shown, [clock, ends[0], clock, *ends[1:], ("", "height", "3")], came)
    lists = [written(run.place / f"{number}.list", f"program lock {folder}/lock.elf\n{text}") for number, text in enumerate(BLOCKS)]
    same(came.splitlines()[-1], tool(run, "session", *lists, "--state").done().splitlines()[-1], "the digest")
    kept = tool(run, "session", "--store", path, "--shapes", "lock.list", "--get", "key:node.clock", "--state", folder=folder).done()
    same(re.findall("node.clock.*|height .*", kept), ["node.clock", 'node.clock": seconds 6000', "height 3"], kept)
    again = command(tool_words("session"), folder, f"block\ncall {'0' * 64} 9\nrun\nrun\nblock\n", {"RVSTM": str(run.program)})
    same((again.out, again.errors, again.status), ("      dropped calls and keys: 1\n", 2 * "session: refused frame NoProgram 3\n", 1), "a block that is refused stays")


TOOLS: dict[str, tuple[Callable[[Run], None], Sequence[Tool]]] = {
    "block": (block, ()),
    "test": (test, ()),
    "result": (result, ()),
    "conflicts": (picture, ()),
    "schedule": (schedule, ()),
    "trace": (trace, ()),
    "coverage": (coverage, (Tool.LLVM,)),
    "explore": (explore, ()),
    "gdb": (gdb, ()),
    "verify": (verify, (Tool.LLVM,)),
    "new": (new, ()),
    "session": (session, ()),
    "preview": (preview, ()),
    "example": (example, ()),
    "library": (library, ()),
    "man-page": (man_page, ()),
    "release": (release, (Tool.LLVM,)),
}


def names_of_tools(run: Run) -> None:
    """The subcommands of the package of tools are those that have a case; each has help of its own."""
    launcher = TOP / "tools/rvstm-tools"
    names = re.findall(r"^    ([a-z][a-z-]*)(?: +\S.*)?$", command([launcher, "--help"]).done(), re.M)
    holds(set(names) <= set(TOOLS), sorted(set(names) - set(TOOLS)), "a case for each subcommand")
    for name in names:
        holds("usage: " in command([launcher, name, "--help"]).done(), name, "a line of usage")


def mistakes(_: Run) -> None:
    """Each of 60 changes of what decides on `passed` fails a test."""
    same(command([*tool_words("mutants"), "--telling", "--jobs", "1"]).done(), "60 of 60 telling mutants are found, each by its test\n")


def cases() -> list[Case]:
    found = [Case(f"rvstm {name}", call, cost=0.5) for name, call in COMMANDS.items()]
    found += [Case(f"tool {name}", call, needs, cost=2) for name, (call, needs) in TOOLS.items()]
    found += [Case("rvstm help and version", help_and_version), Case("rvstm refusals", refusals)]
    found.append(Case("tool session: typed blocks", typed_blocks, cost=2))
    found.append(Case("tools: mistakes in verdicts are found", mistakes, cost=20))
    return [*found, Case("tools: each has a case", names_of_tools)]

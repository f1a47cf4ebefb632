"""The examples as they are committed, with the programs of both compilers, and their contracts built again by clang."""

import re
import shutil
import tomllib
from collections.abc import Sequence
from functools import partial
from pathlib import Path

from gate.calls import command, rvstm, tool
from gate.runner import CONTRACTS, TOP, Case, Run, Tool, holds, same
from gate.texts import written

EXAMPLES = TOP / "examples"
FIXTURES = TOP / "tests/fixtures"
EXPLORED = FIXTURES / "explored"
MAKEFILE = TOP / "sdk/Makefile"
EXPECTED = ("auction", "digest", "fees", "token")
"""The examples that have a text of what their block prints."""
PLANTED = {"auction-77": ("auction", 2, 1), "auction-own": ("auction", 3, 1), "fees-late": ("fees", 1, 1), "token-doubles": ("token", 1, 1)}
"""The programs with a planted bug: the example, how many calls are left, and the seed."""
DESCRIPTIONS = tomllib.loads(Path(__file__).with_name("descriptions.toml").read_text(encoding="utf-8"))["rows"]
IN_BLOCKS = ("escrow",)
"""The examples whose list has several blocks, so that no block file is all of it."""
SLOW = ("lock",)
"""The examples whose calls have many steps."""
FAILING = ("parts", "files", "tables", "shapes")
CHARGES = re.compile(r" gas \d+ pc [0-9a-f]+")


def folders() -> list[str]:
    return sorted(path.parent.name for path in EXAMPLES.glob("*/*.block") if path.stem == path.parent.name)


def without_registers(text: str) -> str:
    return "".join(line for line in text.splitlines(keepends=True) if not line.startswith("regs "))


def in_order_and_by_workers(run: Run, name: str) -> None:
    """A block by `seq` and by four workers; what it prints, if that is written down; the same by GCC's program."""
    folder = EXAMPLES / name
    wanted = rvstm(run, "seq", f"{name}.block", folder=folder).done()
    same(wanted.splitlines()[-1], "end")
    same(rvstm(run, "run", f"{name}.block", "--workers", "4", folder=folder).done(), wanted, "4 workers")
    if name not in EXPECTED:
        return
    expect = (folder / f"{name}.expect").read_text(encoding="utf-8")
    same(without_registers(wanted), expect, f"{name}.expect")
    text = (folder / f"{name}.block").read_text(encoding="utf-8").replace(f"{name}.elf", f"{name}-gnu.elf")
    other = rvstm(run, "seq", written(run.place / "gnu.block", text), folder=folder).done()
    same(CHARGES.sub("", without_registers(other)), CHARGES.sub("", expect), f"{name}-gnu.elf")


def in_rust(run: Run) -> None:
    """The tally in Rust does what the one in C does, except for gas and pc."""
    texts = [rvstm(run, "seq", f"{name}.block", folder=EXAMPLES / name).done() for name in ("tally", "tally-rust")]
    one, other = (CHARGES.sub("", without_registers(text)) for text in texts)
    same(other, one)


def block_of_list(run: Run, name: str) -> None:
    same(tool(run, "block", EXAMPLES / name / f"{name}.list").done(), (EXAMPLES / name / f"{name}.block").read_text(encoding="utf-8"))


def lists(run: Run) -> None:
    """Each list as a test, with the programs of both compilers, and with those in Rust."""
    tool(run, "test", "--variant", "gnu", ".", folder=EXAMPLES).done()
    tool(run, "test", "--variant", "rust", "exchange", "vault", folder=EXAMPLES).done()


def described(run: Run, name: str, program: str) -> None:
    """A description, with the program of one compiler: nothing is broken."""
    limit = ("--calls", "100") if name in SLOW else ("--seconds", "1")  # so that some call returns
    words = (*limit, "--jobs", "1", "--seed", str(run.setting.seed % 1000), "--replace", f"{name}={EXAMPLES / program}")
    done = tool(run, "explore", EXAMPLES / name / f"{name}.explore", *words).done()
    same(done.splitlines()[-1], "nothing is broken")


def planted(run: Run, name: str) -> None:
    """A planted bug is found, and leaves a list that passes with it and fails without it."""
    example, calls, seed = PLANTED[name]
    folder = EXAMPLES / example
    for path in (EXPLORED / f"{name}.elf", folder / f"{example}.elf"):
        shutil.copy(path, run.place)
    found = run.place / "found.list"
    words = ("--replace", f"{example}={run.place}/{name}.elf", "--seed", str(seed), "--out", found)
    same(tool(run, "explore", folder / f"{example}.explore", *words).status, 1, "explore")
    same(len(re.findall("^call ", found.read_text(encoding="utf-8"), re.M)), calls, "calls that are left")
    same(tool(run, "test", found).status, 0, "with the bug")
    right = written(run.place / "right.list", found.read_text(encoding="utf-8").replace(f"{name}.elf", f"{example}.elf"))
    same(tool(run, "test", right).status, 1, "without the bug")


def modelled(run: Run) -> None:
    """A bank that answers what its model says, and with a bug that does not."""
    made(run, EXPLORED / "bank.c", "bank.elf")
    same((run.place / "bank.elf").read_bytes() == (EXPLORED / "bank.elf").read_bytes(), True)
    last = tool(run, "explore", EXPLORED / "bank.explore", "--calls", "500").done().splitlines()[-1]
    same(last, "nothing is broken")
    made(run, EXPLORED / "bank.c", "bank.elf", more=["MORE=-DBUG=1"])
    words = ("--replace", f"bank={run.place}/bank.elf", "--folder", run.place / "kept")
    same(tool(run, "explore", EXPLORED / "bank.explore", *words).status, 1, "explore")
    found = run.place / "kept/found.list"
    same(len(re.findall("^call ", found.read_text(encoding="utf-8"), re.M)), 2, "calls that are left")
    again = tool(run, "explore", EXPLORED / "bank.explore", *words).out.splitlines()[0]
    holds(again.startswith(f"still broken by the calls of {found}: line 8: method deposit: "), again, "what was found before")


def reached_later(run: Run) -> None:
    """Random calls reach the refund of a deal whose deadline has come, and leave a test of two blocks."""
    text = (EXAMPLES / "escrow/escrow.explore").read_text(encoding="utf-8").replace("include ", f"include {EXAMPLES}/escrow/")
    path = written(run.place / "late.explore", f"{text}returned before.deals[name].deadline <= 1000\n")
    found = run.place / "found.list"
    same(tool(run, "explore", path, "--out", found, "--jobs", "2", "--seed", "1").status, 1, "explore")
    lines = found.read_text(encoding="utf-8").splitlines()
    kinds = [line.split()[0] for line in lines if line.startswith(("call ", "block"))]
    same(kinds, ["call", "block", "call"], "what is left")
    same(tool(run, "test", found).status, 0, "the list as a test")


def traced(run: Run, name: str) -> None:
    """Each call of a block: its steps have as much gas as its receipt. The tool compares them."""
    folder = EXAMPLES / name
    calls = len(re.findall("^call ", (folder / f"{name}.block").read_text(encoding="utf-8"), re.M))
    for call in range(calls):
        tool(run, "trace", f"{name}.block", "--call", str(call), folder=folder).done()


def made(run: Run, source: Path, *targets: str, more: Sequence[str] = ()) -> None:
    """Builds programs of a source in the folder of the case."""
    shutil.copy(source, run.place)
    command(["make", "-s", "-f", MAKEFILE, *more, *targets], run.place).done()


def rebuilt(run: Run, name: str, program: str) -> None:
    """A contract built again has the bytes that are committed."""
    folder = EXAMPLES / name
    made(run, folder / f"{name}.c", program)
    holds((run.place / program).read_bytes() == (folder / program).read_bytes(), "other bytes", f"those of {program}")


def rebuilt_bug(run: Run, name: str) -> None:
    """A program with a planted bug is the example with the difference beside it, built by clang."""
    example = PLANTED[name][0]
    source = run.place / f"{name}.c"
    command(["patch", "-s", "-o", source, EXAMPLES / example / f"{example}.c", EXPLORED / f"{name}.diff"]).done()
    command(["make", "-s", "-f", MAKEFILE, f"{name}.elf"], run.place).done()
    same((run.place / f"{name}.elf").read_bytes() == (EXPLORED / f"{name}.elf").read_bytes(), True)


def by_lines(run: Run) -> None:
    """A call traced by the lines of its source, in which each case of a switch is a part of its function."""
    folder = EXAMPLES / "reckon"
    shutil.copy(folder / "reckon.block", run.place)
    made(run, folder / "reckon.c", "reckon.elf", "reckon.lines.elf")
    text = tool(run, "trace", "reckon.block", "--call", "0", folder=run.place).done()
    found = sorted(re.findall(r" %  (\S.*)$", text, re.M))
    same("\n".join(found), (folder / "reckon.functions").read_text(encoding="utf-8").strip())


def covered(run: Run) -> None:
    """The lines and branches that lists reach, and the sums of the file for lcov."""
    for name in ("token.elf", "token.list", "refusals.list"):
        shutil.copy(EXAMPLES / "token" / name, run.place)
    made(run, EXAMPLES / "token/token.c", "token.lines.elf")
    one = tool(run, "coverage", "token.list", folder=run.place).done()
    both = tool(run, "coverage", "token.list", "refusals.list", "--sdk", "--lcov", "info", folder=run.place).done()
    came = re.sub(r"^[^ ]*/sdk/", "sdk/", one + both, flags=re.M)
    # Files are ordered by their paths, so the order depends on the folder of the checkout.
    expected = (FIXTURES / "covered/token.covered").read_text(encoding="utf-8")
    parts = [sorted(re.split(r"\n(?=\S)", text.rstrip())) for text in (came, expected)]
    same("\n".join(parts[0]), "\n".join(parts[1]))
    for name in ("later.list", "vault.shapes"):
        shutil.copy(EXAMPLES / "vault" / name, run.place)
    made(run, EXAMPLES / "vault/vault.c", "vault.elf", "vault.lines.elf")
    later = tool(run, "coverage", "later.list", folder=run.place).done()
    holds(later.startswith("6 calls, ") and "\nvault.c: lines" in later, later, "the calls of four blocks")
    shown = re.findall(r"^[^ ].*: lines (\d+) of (\d+).*; branches (\d+) of (\d+)", both, re.M)
    info = (run.place / "info").read_text(encoding="utf-8")
    for at, word in enumerate(("LH", "LF", "BRH", "BRF")):
        same(re.findall(rf"^{word}:(\d+)$", info, re.M), [row[at] for row in shown], word)


def on_this_machine(run: Run, name: str) -> None:
    """The tests of a contract, compiled for this machine."""
    shutil.copy(EXAMPLES / name / f"{name}.c", run.place)
    made(run, EXAMPLES / name / f"{name}-test.c", f"{name}-test", more=["CC=cc"])
    holds(bool(re.search(r"^[1-9]\d* passed, 0 failed$", command([run.place / f"{name}-test"]).done(), re.M)), "a failure", "0 failed")


def failing_on_this_machine(run: Run) -> None:
    folder = FIXTURES / "outputs"
    shutil.copy(folder / "failing.c", run.place)
    made(run, folder / "failing-test.c", "failing-test", more=["CC=cc"])
    same(command([run.place / "failing-test"]).out, (folder / "host.out").read_text(encoding="utf-8"))


def failing(run: Run, name: str) -> None:
    """Lists that are refused or not met, and what is said of them."""
    folder = FIXTURES / "outputs"
    same(tool(run, "test", f"{name}.failing", folder=folder).out, (folder / f"{name}.out").read_text(encoding="utf-8"))


def keys_of_tables(run: Run) -> None:
    folder, outputs = EXAMPLES / "lock", FIXTURES / "outputs"
    result = rvstm(run, "seq", "lock.block", folder=folder).done()
    table = tool(run, "result", "--list", "lock.list", folder=folder, data=result).done()
    keys = sorted({found for found in re.findall(r"^ *(?:wrote )*([^ ]*): .*", table, re.M)})
    same("\n".join(keys) + "\n", (outputs / "keys.out").read_text(encoding="utf-8"))
    svg = run.place / "picture"
    tool(run, "conflicts", "lock.block", "--svg", svg, "--list", "lock.list", folder=folder).done()
    found = re.findall(r">(table:[^<]*)", svg.read_text(encoding="utf-8"))
    same("\n".join(found) + "\n", (outputs / "waits.out").read_text(encoding="utf-8"))


def refused_by_tools(run: Run) -> None:
    """The last line of tools whose list or block is refused: it names the line and the program."""
    folder, file = FIXTURES / "outputs", "../../../examples/tally/tally.list"
    made = run.place / "files.block"
    done = tool(run, "block", "files.failing", folder=folder)
    written(made, done.out)
    for ended, wanted in (
        (done, f"block: files.failing, line 3: {file} is not an ELF file; rvstm refuses the block"),
        (tool(run, "trace", made, "--call", "0", folder=folder), f"trace: {made}, line 3, {file}: rvstm: elf BadMagic 2"),
        (tool(run, "conflicts", made, "--svg", run.place / "svg", folder=folder), f"conflicts: {made}, line 3, {file}: rvstm: elf BadMagic 2"),
        (tool(run, "result"), "result: nothing was read: rvstm was refused or did not run, and its own line says why"),
    ):
        same(ended.errors.splitlines()[-1:], [wanted], " ".join(ended.words))


def wrong_description(run: Run, text: str, wanted: str) -> None:
    """A line that is printed of a description which ends with this text; FILE is the description."""
    path = written(run.place / "description", f"program echo {EXAMPLES}/echo/echo.elf\ndraw some 1..9\n{text}\n")
    done = tool(run, "explore", path, "--calls", "100")
    line, lines = wanted.replace("FILE", str(path)), (done.out + done.errors).splitlines()
    holds(line in lines, lines[-1:], line)


def debug_folder(run: Run, contract: str, make: Sequence[str]) -> Path:
    """A folder with the block of a contract, and with its program and its lines. Sources of the sdk are named by their paths from there."""
    folder = run.place / "examples" / contract.partition("/")[0]
    folder.mkdir(parents=True)
    for part in ("sdk", "tools"):
        (run.place / part).symlink_to(TOP / part)
    origin = next(place for place in (EXAMPLES, FIXTURES) if (place / f"{contract}.c").is_file())
    for ending in (".c", ".block"):
        shutil.copy(origin / f"{contract}{ending}", folder)
    program = contract.partition("/")[2]
    command(["make", "-s", "-f", "../../sdk/Makefile", *make, f"{program}.elf", f"{program}.lines.elf"], folder).done()
    return folder


def debugged(run: Run, name: str, contract: str, make: Sequence[str]) -> None:
    """What gdb prints at the lines of a script, with each line before it."""
    folder, program = debug_folder(run, contract, make), contract.partition("/")[2]
    lines = ["set width 110", "set confirm off", "set remotetimeout 600", "set trace-commands on"]
    lines += (FIXTURES / f"debugged/{name}.gdb").read_text(encoding="utf-8").splitlines()
    words = ["gdb-multiarch", "-nx", "-q", "-batch", *(word for line in lines for word in ("-ex", line)), f"{program}.lines.elf"]
    # In a shell, since the order of what gdb says on its two outputs counts.
    done = command(["sh", "-c", 'exec "$@" 2>&1', "sh", *words], folder, more={"RVSTM": str(run.program), "DEBUGINFOD_URLS": ""})
    came = re.sub(r"^\+[a-z]* \n", "", done.out, flags=re.M)
    same(came, (FIXTURES / f"debugged/{name}.out").read_text(encoding="utf-8"))


AT_LINE = ("echo @{0}\\n", "break {0}", "monitor go 0", "maintenance flush register-cache", "continue", "delete")
OF_ITS_FUNCTION = (
    r'dprintf vault.c:61,"amount %llu\n",payment.amount', "break vault.c:61 if payment.amount != 90",
    "tbreak vault.c:61 if payment.amount == 90", "monitor go 0", "maintenance flush register-cache", "continue", "print payment.amount", "continue",
)
"""A payment of 90 (vault.list) is written in line 61, which begins with calls that are inlined."""


def lines_stop(run: Run) -> None:
    """gdb stops at each line of the source that a call runs. A replay and llvm-addr2line say which lines these are."""
    folder = debug_folder(run, "vault/vault", ["TOOLS=clang"])
    steps = rvstm(run, "debug", "vault.block", "--call", "0", folder=folder, data="s\n" * 1000).done()
    addresses = sorted(set(re.findall("^[0-9]+ ([0-9a-f]{8}) ", steps, re.M)))
    found = command(["llvm-addr2line", "-i", "-s", "-e", "vault.lines.elf"], folder, "\n".join(addresses)).done()
    ran = sorted(set(re.findall(r"^vault\.c:[1-9][0-9]*", found, re.M)))
    script = [f"source {TOP}/sdk/gdb_lines.py", "target remote | ../../tools/rvstm-tools gdb vault.block --call 0"]
    script += [line.format(at) for at in ran for line in AT_LINE] + ["echo @\\n", *OF_ITS_FUNCTION]
    words = ["gdb-multiarch", "-nx", "-q", "-batch", *(word for line in script for word in ("-ex", line)), "vault.lines.elf"]
    done = command(words, folder, more={"RVSTM": str(run.program), "DEBUGINFOD_URLS": ""})
    *stops, values = done.out.split("@")[1:]
    missed = [stop.partition("\n")[0] for stop in stops if not re.search("^Breakpoint [0-9]+, ", stop, re.M)]
    same((len(stops), missed), (len(ran), []), f"the lines at which gdb does not stop, of {ran}")
    for text, times in (("amount 90\n", 1), ("Temporary breakpoint", 2), ("$1 = 90\n", 1), ("No more reverse-execution history.", 1)):
        same(values.count(text), times, f"{text} in {values}")


def cases() -> list[Case]:
    names, found = folders(), list[Case]()
    listed = [name for name in names if (EXAMPLES / name / f"{name}.list").is_file()]
    explored = [name for name in (*names, *IN_BLOCKS) if (EXAMPLES / name / f"{name}.explore").is_file()]
    clang = [name for name in (*names, *IN_BLOCKS) if (EXAMPLES / name / f"{name}.c").is_file()]
    programs = [(name, f"{name}/{file.name}") for name in explored for file in sorted((EXAMPLES / name).glob("*.elf"))]
    found += [Case(f"example {name} in order and by 4 workers", partial(in_order_and_by_workers, name=name)) for name in names]
    found += [Case(f"example {name} from its list", partial(block_of_list, name=name)) for name in listed]
    found += [Case(f"example {name} traced", partial(traced, name=name), cost=4, needs_speed=name in SLOW) for name in listed]
    found += [Case(f"description {name} with {program}", partial(described, name=name, program=program), cost=2) for name, program in programs]
    found.append(Case("a deadline that random calls reach", reached_later, cost=5))
    found.append(Case("description tally with tally-rust", partial(described, name="tally", program="tally-rust/tally-rust.elf"), cost=2))
    found += [Case(f"planted bug {name} found", partial(planted, name=name), cost=3, needs_speed=PLANTED[name][0] in SLOW) for name in PLANTED]
    found += [Case(f"contract {name} built again", partial(rebuilt, name=name, program=f"{name}.elf"), CONTRACTS) for name in clang]
    gnu = (Tool.GCC, Tool.MAKE)
    found += [Case(f"contract {name}-gnu built again", partial(rebuilt, name=name, program=f"{name}-gnu.elf"), gnu) for name in EXPECTED]
    found += [Case(f"contract {name} built again", partial(rebuilt_bug, name=name), (*CONTRACTS, Tool.PATCH)) for name in PLANTED]
    found += [Case(f"tests of {name} on this machine", partial(on_this_machine, name=name), (Tool.CC, Tool.MAKE)) for name in ("digest", "tally")]
    found += [Case(f"lists that fail: {name}", partial(failing, name=name), cost=2) for name in FAILING]
    found += [
        Case("checks that fail on this machine", failing_on_this_machine, (Tool.CC, Tool.MAKE)),
        Case("example tally-rust as tally", in_rust),
        Case("keys of tables by their words", keys_of_tables),
        Case("description bank with its model", modelled, CONTRACTS, cost=3, needs_speed=True),
        Case("lists as tests", lists, cost=10),
        Case("reckon traced by its lines", by_lines, (*CONTRACTS, Tool.LLVM), cost=2),
        Case("lines that lists reach", covered, (*CONTRACTS, Tool.LLVM), cost=3),
        Case("lists and blocks that tools refuse", refused_by_tools, cost=2),
    ]
    for name, contract, make, needs in (
        ("token", "token/token", ("TOOLS=clang",), CONTRACTS),
        ("watch", "token/token", ("TOOLS=gnu", "MORE=-O0"), (Tool.GCC, Tool.MAKE)),
        ("ends", "debugged/ends", ("TOOLS=clang",), CONTRACTS),
    ):
        run = partial(debugged, name=name, contract=contract, make=make)
        found.append(Case(f"calls debugged by gdb: {name}", run, (*needs, Tool.GDB), cost=8))
    found.append(Case("calls debugged by gdb: each line", lines_stop, (*CONTRACTS, Tool.GDB, Tool.LLVM), cost=5))
    said = [partial(wrong_description, text=text, wanted=wanted) for text, wanted in DESCRIPTIONS]
    return [*found, *(Case(f"a description and its line, {number}", run) for number, run in enumerate(said, 1))]

import argparse
from collections.abc import Iterator, Sequence
from pathlib import Path

from rvstm_tools import errors, options
from rvstm_tools.errors import MisuseError, Status, UserError
from rvstm_tools.options import Command, argument
from rvstm_tools.programs import finding
from rvstm_tools.testing import junit, listed, reports, testers
from rvstm_tools.testing.gastables import Gas, GasDifference, GasTable
from rvstm_tools.testing.listed import ListedTest
from rvstm_tools.testing.testers import Tester, Tried


def percent(word: str) -> float:
    """A number of at least 0, as argparse wants the type of an option."""
    try:
        number = float(word)
    except ValueError:
        number = -1.0
    if not 0 <= number < float("inf"):
        raise argparse.ArgumentTypeError(f"{word}: it is a number of percent")
    return number


def run(given: argparse.Namespace) -> int:
    """Runs the tests. All lists and the table are read before the first one is run."""
    with errors.taken_for_misuse():
        if given.gas is None and (given.write or given.within):
            raise MisuseError("--within and --write are for --gas FILE")
        program = finding.chosen(options.program_choice(given), "test")
        tests = tests_of(given)
        table = GasTable(given.gas) if given.gas else None
        rows = table.read() if table and not given.write else {}
    tried = []
    for one in Tester(program, is_update=given.update, jobs=given.jobs).tried(tests, given.variant):
        tried.append(one)
        for line in [reports.json_of_run(one)] if given.json else reports.lines_of_run(one):
            print(line, flush=True)
    return ended(given, tried, table, rows)


def ended(given: argparse.Namespace, tried: Sequence[Tried], table: GasTable | None, rows: Gas) -> Status:
    sums = reports.sums_of(tried)
    notes = list(testers.updated(tried)) if given.update else []
    differences: list[GasDifference] = []
    if table and given.write:
        if sums.failed:
            notes.append(f"{table.path} is not written: a test failed")
        else:
            table.write(tried)
            notes.append(f"written to {table.path}")
    elif table:
        differences = list(table.differences(rows, tried, given.within))
    if given.junit:
        junit.write(given.junit, tried, differences, f"{table.path}" if table and not given.write else "")
    inputs = table.inputs_of(tried) if table else []
    if given.json:
        lines = [*map(reports.json_of_gas, differences), *map(reports.json_of_input, inputs), reports.json_of_sums(sums)]
    else:
        gas = reports.lines_of_gas(differences, f"{given.gas}", given.within)
        lines = [*notes, *gas, *reports.lines_of_inputs(inputs), f"{sums}"]
    for line in lines:
        print(line)
    return Status.FAILED if sums.failed or differences else Status.DONE


def tests_of(given: argparse.Namespace) -> list[ListedTest]:
    """The tests of the lists that the command line names. A list that is named alone has to be one."""
    tests = []
    for path, is_named in lists_of(given.files):
        if given.only and not any(name in str(path) for name in given.only):
            continue
        test = listed.read_test(path)
        if test.count():
            tests.append(test)
        elif is_named:
            raise UserError(f"{path}: no line `expect`, so it tests nothing")
        if is_named:
            check_variants([test], given.variant, f"{path}: no program NAME.elf of it has a")
    if not tests:
        of = f"whose path has {' or '.join(given.only)} " if given.only else ""
        raise UserError(f"none of these lists {of}has a line `expect`")
    check_variants(tests, given.variant, "none of these lists has a program NAME.elf with a")
    return tests


def check_variants(tests: Sequence[ListedTest], variants: Sequence[str], fault: str) -> None:
    """Refuses a variant that no program of the tests has."""
    for variant in variants:
        if not any(test.has(variant) for test in tests):
            raise UserError(f"--variant {variant}: {fault} NAME-{variant}.elf beside it")


def lists_of(files: list[str]) -> Iterator[tuple[Path, bool]]:
    """The paths of the lists, and whether each is named itself or was found in a folder."""
    for path in map(Path, files):
        if path.is_dir():
            yield from ((found, False) for found in sorted(path.rglob("*.list")))
        else:
            yield path, True


COMMAND = Command(
    summary="Runs tests of contracts.",
    example="rvstm-tools test --variant gnu examples/token",
    run=run,
    arguments=(
        options.add_program,
        options.JOBS,
        argument(
            "files", nargs="+", metavar="FILE",
            help="a list, or a folder: its lists NAME.list, and those of folders in it, that have a line `expect`",
        ),
        argument(
            "--only", "--filter", action="append", default=[], metavar="NAME",
            help="only lists that have NAME in their path; may be given again",
        ),
        argument(
            "--variant", action="append", default=[], metavar="NAME",
            help="runs each list again with PROGRAM-NAME.elf in place of PROGRAM.elf, if that is there. A list that is named, and one of "
            "a folder, has to have one. May be given again",
        ),
        argument(
            "--update", action="store_true",
            help="writes the numbers of the lines `gas at most` again if all other lines are met: the gas that came, the "
            "most of all variants",
        ),
        argument("--json", action="store_true", help="an object a line: each test, gas that differs, and the sums"),
        argument("--junit", type=options.new_file, metavar="XML", help="a file for the tests in the format of JUnit"),
        argument("--gas", type=options.new_file, metavar="FILE", help="a table of the gas of all calls, to compare with"),
        argument("--within", type=percent, default=0.0, metavar="N", help="by how many percent gas may differ from the table (0)"),
        argument("--write", action="store_true", help="makes the table of --gas again, if all tests pass"),
    ),
)

import argparse
import io
import json
import sys

from rvstm_tools import options
from rvstm_tools.errors import Status
from rvstm_tools.options import Command, argument
from rvstm_tools.texts import objects, result_schema, results, tables
from rvstm_tools.texts.views import View


def run(given: argparse.Namespace) -> int:
    if given.schema:
        print(json.dumps(result_schema.SCHEMA, indent=2))
        return Status.DONE
    view = options.view(given) or View()
    if isinstance(sys.stdin, io.TextIOWrapper):
        sys.stdin.reconfigure(encoding="ascii", errors="backslashreplace")
    items = results.items_of(sys.stdin)
    if given.json:
        lines = objects.json_lines(items, has_registers=given.registers)
    else:
        lines = tables.table_lines(items, view, has_registers=given.registers)
    for line in lines:
        print(line)
    return Status.DONE


COMMAND = Command(
    summary="Prints a result of rvstm for people, or as lines of JSON.",
    example="rvstm seq votes.block | rvstm-tools result --list votes.list",
    run=run,
    arguments=(
        options.LIST,
        argument("--json", action="store_true", help="an object a line: each call with its writes, each key of the storage, and the end"),
        argument("--schema", action="store_true", help="prints the JSON schema of the objects of --json, and reads nothing"),
        argument("--registers", action="store_true", help="prints the registers of each call at its end, too"),
    ),
)

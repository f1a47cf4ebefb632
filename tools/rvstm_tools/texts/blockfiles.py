"""Block files as tools read them: one that rvstm has accepted, of which some lines are wanted."""

from dataclasses import dataclass

from rvstm_tools.errors import UserError


@dataclass(frozen=True)
class CallHead:
    rules: int
    program: str
    limit: int
    data: bytes


def head_of_call(path: str, number: int) -> CallHead:
    """What a block file, which rvstm has accepted, says of a call."""
    with open(path, encoding="ascii", errors="backslashreplace") as file:
        rows = [line.split() for line in file]
    try:
        rules = next((int(row[1]) for row in rows if row[0] == "gas"), 1)
        paths = [row[2] for row in rows if row[0] == "program"]
        call = [row for row in rows if row[0] == "call"][number]
        return CallHead(rules, paths[int(call[1])], int(call[2]), bytes.fromhex(call[3].replace("-", "")))
    except (IndexError, ValueError) as error:
        raise UserError(f"{path}: it is not the block file that rvstm ran") from error

#!/usr/bin/env python3
"""Appends blocks to the log of a cluster over etcd.

usage: examples/cluster/propose.py --etcd URLS [--program FILE].. [--store-lines] BLOCK..

--program      puts FILE into etcd; a BLOCK may name it by this path or its last part, and is sent with its SHA-256
--store-lines  takes a BLOCK with lines `store`, which set any key to any value

No other file is read: a BLOCK with the path of one is refused. Prints a line for each block.
"""

import re
from pathlib import Path

import ledger  # first: it finds tools/
from etcd import Etcd
from rvstm_tools import endings
from rvstm_tools.errors import UserError
from rvstm_tools.sessions import frames


def named(path: Path, programs: dict[bytes, bytes], *, with_store: bool) -> bytes:
    """The block of a file, which names each program by its SHA-256."""

    def line(found: re.Match[bytes]) -> bytes:
        name = programs.get(found[2], found[2])
        if not ledger.DIGEST.fullmatch(name):
            raise UserError(f"{path}: no --program is {found[2].decode()}")
        return found[1] + name

    block = path.read_bytes()
    if not with_store and re.search(rb"^store ", block, re.M):
        raise UserError(f"{path}: it has lines `store`, which set any key; --store-lines takes them")
    return frames.PROGRAM.sub(line, block)


def main() -> int:
    parser = endings.parser_of(__doc__)
    parser.add_argument("--etcd", required=True)
    parser.add_argument("--program", type=Path, action="append", default=[])
    parser.add_argument("--store-lines", action="store_true")
    parser.add_argument("blocks", type=Path, nargs="+")
    given = parser.parse_args()
    log, programs = ledger.Log(Etcd(given.etcd)), dict[bytes, bytes]()
    for path in given.program:
        file = path.read_bytes()
        programs |= dict.fromkeys((str(path).encode(), path.name.encode()), frames.name_of(file).encode())
        log.put_program(file)
    for path in given.blocks:
        print(f"{path}: revision {log.append(named(path, programs, with_store=given.store_lines))}", flush=True)
    return 0


if __name__ == "__main__":
    endings.run(main, __doc__)

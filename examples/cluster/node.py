#!/usr/bin/env python3
"""A node of a cluster over etcd: runs each block of the log, and stops if another node has another digest.

usage: examples/cluster/node.py --etcd URLS --name NAME --store FILE [--workers N] [--begin DUMP]
       examples/cluster/node.py --etcd URLS --store FILE --dump DUMP
       examples/cluster/node.py --etcd URLS --trim DUMP

--etcd     the client URLS of etcd's members, parted by commas, such as http://127.0.0.1:2379
--name     the name of the node, [a-z0-9]+
--store    FILE keeps the session (rvstm chain --store)
--workers  runs the calls on N threads if that pays
--begin    begins with the DUMP of another node, if FILE is new or below its height
--dump     writes a DUMP of FILE, whose node does not run now, and ends
--trim     removes all blocks up to a DUMP from the log, compacts etcd, and ends

RVSTM names the program rvstm; without it the one in crates/rvstm/out runs. README.md in this folder has the rest. If
the node stops, its last line says why, and the status is 1.
"""

import os
import threading
import time
from collections.abc import Callable
from pathlib import Path

import ledger  # first: it finds tools/
import etcd
from etcd import Etcd, Pair
from ledger import ALIVE, NEWEST, Dump, Log
from rvstm_tools import endings
from rvstm_tools.errors import UserError
from rvstm_tools.options import ProgramChoice
from rvstm_tools.programs import finding
from rvstm_tools.programs.pipes import Pipes
from rvstm_tools.sessions import answers, requests
from rvstm_tools.sessions.answers import Answer, Kind, Refusal
from rvstm_tools.sessions.kept import STATE, KeptSession
from rvstm_tools.sessions.processes import Session, Settings
from rvstm_tools.sessions.requests import Request, Word

FRAME_GAS = 2_000_000_000  # of a block. Answers depend on it: all nodes have the same
PATIENCE = 20 + FRAME_GAS // 20_000_000  # seconds for an answer
EVERY, KEPT_DIGESTS = 100, 10_000  # heights
SECONDS_OF_A_LEASE, SECONDS_BETWEEN_LOOKS = 30, 1.0
SECONDS_BETWEEN_TRIES, SECONDS_OF_A_BUSY_FILE = 2.0, 5.0  # a killed node's engine has its file for a moment
NO_LEASE, NOT_FOUND = 1, 5  # no lease has this number; gRPC's code of one that has ended
MOST_STARTS = 3  # of an engine that is killed before it answers


class Engine(Session):
    """A process that the system kills if the node ends, and the node if it does not answer in time."""

    def __init__(self, rvstm: Path, settings: Settings) -> None:
        words = ["setpriv", "--pdeathsig", "KILL", str(rvstm), *settings.words()]
        Pipes.__init__(self, words, is_as_here=True)  # a limit on the size of files is then a full disk

    def ask(self, request: Request) -> Answer | None:
        alarm = threading.Timer(PATIENCE, self.process.kill)
        alarm.start()
        try:
            return super().ask(request)
        finally:
            alarm.cancel()


class Node:
    def __init__(self, name: str, client: Etcd, rvstm: Path, store: Path, workers: int | None = None) -> None:
        self.name, self.client, self.log, self.rvstm = name, client, Log(client), rvstm
        self.settings = Settings(frame_gas=FRAME_GAS, digest=True, brief=True, workers=workers, store=str(store))
        self.height, self.digest, self.starts, self.lease, self.looked = 0, "", 0, NO_LEASE, 0.0
        self.programs, self.strange = set[bytes](), set[bytes]()
        self.digests = dict[int, str]()
        client.say = self.say

    def say(self, text: str) -> None:
        print(f"{time.strftime('%H:%M:%S')} {self.name} {text}", flush=True)

    def engine(self) -> Session:
        self.starts += 1
        if self.starts > MOST_STARTS:
            raise UserError(f"the engine was killed {MOST_STARTS} times before it answered")
        return Engine(self.rvstm, self.settings)

    def begin(self, dump: Dump | None = None) -> None:
        """Continues from the file. A dump of a greater height takes its place."""
        until = time.monotonic() + SECONDS_OF_A_BUSY_FILE
        while not self.starts:
            try:
                self.session = KeptSession(self.engine)
            except UserError as error:
                if "store Busy" not in str(error) or time.monotonic() > until:
                    raise
                self.starts = 0
                time.sleep(0.1)
        if dump and dump.place.height > self.session.height:
            self.need(requests.begin(dump.place.height, bytes.fromhex(dump.digest), dump.storage))
            self.session.height = dump.place.height
        self.note_state()
        self.say(f"begins at height {self.height}")

    def need(self, request: Request) -> bytes:
        """The bytes of an answer `ok` to a request that may be made twice."""
        answer = self.answer(lambda: self.session.ask(request))
        if isinstance(answer, Refusal):
            raise UserError(f"{request.word.decode()} is answered {answer.said}")
        return answer.body

    def answer(self, ask: Callable[[], Answer]) -> Answer:
        """An answer that all nodes give. What this machine can't do now is asked for again, until it can."""
        while (answer := ask()).kind is Kind.FAILED:
            self.say(f"after height {self.height}: {answer.said}; tries again")
            time.sleep(SECONDS_BETWEEN_TRIES)
        self.starts = 0
        return answer

    def note_state(self) -> None:
        """Keeps height and digest, to compare them with those of other nodes."""
        state = answers.state_of(self.need(STATE))
        assert state.digest is not None
        self.height, self.digest = state.height, state.digest.hex()
        self.digests[self.height] = self.digest
        self.digests.pop(self.height - KEPT_DIGESTS, None)

    def run_block(self, pair: Pair) -> None:
        for name, file in self.log.programs(pair, self.programs):
            program = Request(Word.PROGRAM, (), file)
            self.answer(lambda: self.session.ask(program))
            self.programs.add(name)
        answer = self.answer(lambda: self.session.run(pair.value))
        self.note_state()
        if isinstance(answer, Refusal):
            self.say(f"height {self.height}: {answer.said}, {pair.key!r}")

    def look(self) -> None:
        """Says the newest digest, and compares it with those of other nodes: each second, and at a multiple of 100."""
        if time.monotonic() - self.looked < SECONDS_BETWEEN_LOOKS and self.height % EVERY:
            return
        self.looked = time.monotonic()
        newest, strange = ledger.said_in(self.said())
        for key in strange - self.strange:
            self.say(f"{key!r} is no digest of a node")
        self.strange |= strange
        for name, (height, digest) in newest.items():
            self.compare(name, height, digest)
        if self.height and self.height % EVERY == 0:
            key = ledger.digest_key(self.name, self.height)
            self.client.transact([etcd.is_at(key, 0)], [etcd.put(key, self.digest.encode())])
            for name in newest:
                self.compare(name, self.height, self.kept_digest(name, self.height))

    def said(self) -> list[Pair]:
        """Says that the node runs, and its newest digest. Returns what all nodes said last."""
        name, value = self.name.encode(), f"{self.height} {self.digest}".encode()
        while True:
            try:
                self.client.ask("lease/keepalive", {"ID": self.lease})
                puts = etcd.put(ALIVE + name, b"", self.lease), etcd.put(NEWEST + name, value)
                return self.client.transact([], [*puts, etcd.get(etcd.below(NEWEST))]).read[0]
            except etcd.RefusedError as error:
                if error.code != NOT_FOUND:
                    raise
            self.lease = int(self.client.ask("lease/grant", {"TTL": SECONDS_OF_A_LEASE})["ID"])

    def kept_digest(self, name: str, height: int) -> str:
        """The digest that a node keeps of a height; empty if it keeps none."""
        pair = None if height % EVERY else self.client.read(ledger.digest_key(name, height))
        return pair.value.decode() if pair and ledger.DIGEST.fullmatch(pair.value) else ""

    def compare(self, name: str, height: int, digest: str) -> None:
        """Stops the node if another one has another digest at a height."""
        own = self.digests.get(height) or self.kept_digest(self.name, height)
        if own and digest and own != digest:
            raise UserError(f"height {height}: {name} has the digest {digest[:16]}.., and {self.name} has {own[:16]}..")

    def run(self) -> None:
        """Runs blocks until the node has to stop; the error says why."""
        for pairs in self.log.batches(self.height, self.say):
            self.look()
            for pair in pairs:
                self.run_block(pair)
                self.look()


def main() -> int:
    parser = endings.parser_of(__doc__)
    parser.add_argument("--etcd", required=True)
    parser.add_argument("--name", default="")
    parser.add_argument("--workers", type=int)
    for option in ("--store", "--begin", "--dump", "--trim"):
        parser.add_argument(option, type=Path)
    given = parser.parse_args()
    client = Etcd(given.etcd)
    if given.trim:
        print(f"removed {Log(client).trim(ledger.dump_in(given.trim))} blocks")
        return 0
    if not given.store or not given.dump and not ledger.NAME.fullmatch(given.name):
        parser.error("a node needs --store, and a --name of [a-z0-9]+")
    rvstm = finding.find(ProgramChoice(), finding.home(), os.environ)
    node = Node(given.name, client, rvstm, given.store, given.workers)
    node.begin(ledger.dump_in(given.begin) if given.begin else None)
    if not given.dump:
        node.run()
    dump = Dump(node.log.after(node.height)[1], node.digest, node.need(Request(Word.DUMP)))
    given.dump.write_bytes(dump.text())
    node.session.end()
    print(f"{given.dump}: height {node.height}, digest {node.digest}")
    return 0


if __name__ == "__main__":
    endings.run(main, __doc__)

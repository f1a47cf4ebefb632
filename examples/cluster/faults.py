#!/usr/bin/env python3
"""Breaks a cluster on this machine while blocks come: three members of etcd, and three nodes, with 1, 2 and 4 workers.

usage: examples/cluster/faults FOLDER [--heights N] [--faults N] [--seed N]

Makes FOLDER, which gets all data and logs. Blocks come up to height N (200), and N faults (30) in a random order. After
each one all nodes must be at the last height with one digest: no block is lost or doubled. RVSTM names the program.
"""

import contextlib
import os
import resource
import select
import shutil
import signal
import socket
import socketserver
import subprocess
import threading
import time
from collections.abc import Callable
from pathlib import Path
from random import Random
from typing import Any

import ledger  # first: it finds tools/
import etcd
from rvstm_tools import endings, options
from rvstm_tools.errors import UserError
from rvstm_tools.options import ProgramChoice
from rvstm_tools.programs import finding
from rvstm_tools.sessions import frames

HERE = Path(__file__).resolve().parent
COUNTER, URL = (HERE.parent / "counter/counter.elf").read_bytes(), "http://127.0.0.1:{}"
MEMBERS, NODES = 3, {"n1": 1, "n2": 2, "n3": 4}  # the names of the nodes, and their workers
SECONDS, SECONDS_OF_A_CUT = 120, 0.2  # until something has to be so


def block(source: Random, calls: int = 10) -> bytes:
    """Calls that count at some keys: their answers depend on all blocks before."""
    lines = (b"call 0 1000 %064x\n" % source.randrange(100) for _ in range(calls))
    return b"rvblock 1\nprogram 0 %s\n" % frames.name_of(COUNTER).encode() + b"".join(lines)


def wait(what: str, is_so: Callable[[], bool]) -> None:
    until = time.monotonic() + SECONDS
    while not is_so():
        if time.monotonic() > until:
            raise UserError(f"this did not come: {what}")
        time.sleep(0.1)


class Relay(socketserver.ThreadingTCPServer):
    """Passes connections on to a member of etcd, until all are cut."""

    daemon_threads, cuts = True, 0

    def __init__(self, port: int) -> None:
        super().__init__(("127.0.0.1", 0), socketserver.BaseRequestHandler)
        self.member = ("127.0.0.1", port)
        threading.Thread(target=self.serve_forever, daemon=True).start()

    def finish_request(self, request: Any, client_address: object) -> None:
        cuts = Relay.cuts
        with contextlib.suppress(OSError), socket.create_connection(self.member) as member:
            while Relay.cuts == cuts:
                for source in select.select([request, member], [], [], SECONDS_OF_A_CUT / 2)[0]:
                    if not (data := source.recv(1 << 16)):
                        return
                    (member if source is request else request).sendall(data)

    @staticmethod
    def cut() -> None:
        Relay.cuts += 1
        time.sleep(SECONDS_OF_A_CUT)


class Cluster:
    def __init__(self, folder: Path, rvstm: Path, seed: int = 1) -> None:
        if not shutil.which("etcd"):
            raise UserError("etcd is missing: install Debian's package etcd-server")
        folder.mkdir(parents=True)
        self.folder, self.rvstm, self.random, self.height = folder, rvstm, Random(seed), 0
        self.processes = dict[str, subprocess.Popen[bytes]]()
        with contextlib.ExitStack() as held:
            lines = [held.enter_context(socket.create_server(("127.0.0.1", 0))) for _ in range(2 * MEMBERS)]
            self.ports = [line.getsockname()[1] for line in lines]
        self.relays = [Relay(port).server_address[1] for port in self.ports[:MEMBERS]]
        self.urls, self.relayed = (",".join(map(URL.format, ports)) for ports in (self.ports[:MEMBERS], self.relays))
        self.client = etcd.Etcd(self.urls, SECONDS)
        for number in range(MEMBERS):
            self.member(number)
        ledger.Log(self.client).put_program(COUNTER)

    def close(self) -> None:
        for name in list(self.processes):
            self.kill(name)
        self.client.turn()

    def start(self, name: str, *words: object, rvstm: Path | None = None) -> None:
        """Starts a process that ends with this one, and writes to NAME.log."""
        line = ["setpriv", "--pdeathsig", "KILL", *map(str, words)]
        with open(self.folder / f"{name}.log", "ab") as log:
            environment = {**os.environ, "RVSTM": str(rvstm or self.rvstm)}
            self.processes[name] = subprocess.Popen(line, stdout=log, stderr=log, env=environment)

    def kill(self, name: str) -> None:
        process = self.processes.pop(name)
        process.kill()
        process.wait()

    def end(self, name: str) -> None:
        """Waits until a process has ended well."""
        if self.processes.pop(name).wait(SECONDS):
            raise UserError(f"{name}: {self.log(name)}")

    def log(self, name: str) -> str:
        return (self.folder / f"{name}.log").read_text(encoding="utf-8", errors="backslashreplace")

    def member(self, number: int) -> None:
        client, *peers = map(URL.format, (self.ports[number], *self.ports[MEMBERS:]))
        words = ["--name", f"m{number}", "--data-dir", str(self.folder / f"m{number}"), "--log-level", "error"]
        words += ["--listen-client-urls", client, "--advertise-client-urls", client]
        words += ["--listen-peer-urls", peers[number], "--initial-advertise-peer-urls", peers[number]]
        words += ["--initial-cluster", ",".join(f"m{other}={peer}" for other, peer in enumerate(peers))]
        self.start(f"m{number}", "etcd", *words)

    def node(self, name: str, *words: object, rvstm: Path | None = None) -> None:
        place = ("--etcd", self.relayed, "--name", name, "--store", self.folder / f"{name}.store")
        self.start(name, HERE / "node.py", *place, "--workers", NODES.get(name, 1), *words, rvstm=rvstm)

    def propose(self, name: str, count: int, calls: int = 10) -> None:
        """Starts a proposer of some blocks."""
        paths = [self.folder / f"{name}-{number}.block" for number in range(count)]
        for path in paths:
            path.write_bytes(block(self.random, calls))
        self.start(name, HERE / "propose.py", "--etcd", self.urls, *paths)
        self.height += count

    def append(self, data: bytes) -> int:
        self.height += 1
        return ledger.Log(self.client).append(data)

    def newest(self) -> dict[str, ledger.Said]:
        return ledger.said_in(self.client.transact([], [etcd.get(etcd.below(ledger.NEWEST))]).read[0])[0]

    def settle(self, *names: str) -> str:
        """Waits until nodes have run all blocks. Returns the digest that all have."""
        names = names or tuple(NODES)
        wait(f"{names} at {self.height}", lambda: {self.newest().get(name, (0,))[0] for name in names} == {self.height})
        digests = {self.newest()[name][1] for name in names}
        if len(digests) != 1:
            raise UserError(f"height {self.height}: the digests differ")
        return digests.pop()

    def wait_for(self, name: str, text: str, count: int = 1) -> None:
        wait(f"{name} prints '{text}'", lambda: self.log(name).count(text) >= count)


# ---- faults; each gets the name of a node


def node_killed(cluster: Cluster, name: str) -> None:
    cluster.kill(name)
    cluster.node(name)


def engine_of(cluster: Cluster, name: str) -> int:
    """The process that runs the blocks of a node."""
    pid = cluster.processes[name].pid
    children = Path(f"/proc/{pid}/task/{pid}/children")
    wait(f"an engine of {name}", lambda: bool(children.read_text(encoding="ascii")))
    return int(children.read_text(encoding="ascii").split()[0])


def engine_killed(cluster: Cluster, name: str) -> None:
    os.kill(engine_of(cluster, name), signal.SIGKILL)


def member_killed(cluster: Cluster, name: str) -> None:
    number = cluster.random.randrange(MEMBERS)
    cluster.kill(f"m{number}")
    time.sleep(2)
    cluster.member(number)


def leases_lost(cluster: Cluster, name: str) -> None:
    for lease in cluster.client.ask("lease/leases", {}).get("leases", []):
        with contextlib.suppress(etcd.RefusedError):  # it has ended by itself
            cluster.client.ask("lease/revoke", {"ID": lease["ID"]})
    wait("all nodes alive", lambda: all(cluster.client.read(ledger.ALIVE + node.encode()) for node in NODES))


def log_compacted(cluster: Cluster, name: str) -> None:
    """While a node sleeps: it has to read the log again."""
    count = cluster.log(name).count("reads the log again") + 1
    cluster.processes[name].send_signal(signal.SIGSTOP)
    Relay.cut()
    revision = max(cluster.append(block(cluster.random)) for _ in range(2))
    cluster.client.ask("kv/compaction", {"revision": revision})
    cluster.processes[name].send_signal(signal.SIGCONT)
    cluster.wait_for(name, "reads the log again", count)


def watch_cut(cluster: Cluster, name: str) -> None:
    for _ in range(5):
        Relay.cut()
        time.sleep(cluster.random.random() / 2)


def two_proposers(cluster: Cluster, name: str) -> None:
    cluster.propose("p2", 3)
    cluster.end("p2")


def disk_full(cluster: Cluster, name: str) -> None:
    """The files of a node can't grow for a while: it has to say so and wait."""
    count, pid = cluster.log(name).count("failed store Full 8") + 1, engine_of(cluster, name)
    resource.prlimit(pid, resource.RLIMIT_FSIZE, (0, resource.RLIM_INFINITY))
    cluster.append(block(cluster.random))
    cluster.wait_for(name, "failed store Full 8", count)
    resource.prlimit(pid, resource.RLIMIT_FSIZE, (resource.RLIM_INFINITY, resource.RLIM_INFINITY))


def strange_keys(cluster: Cluster, name: str) -> None:
    """What somebody may write by mistake. Each key below /log/ is a block, and the others are nothing."""
    blocks = {b"b": b"\0\xff", b"a": b"hello", b"n3/x/../y": b"", b"\xff\0 /": block(cluster.random)}
    others = (b"/newest/n3/x/n1", b"/newest/n9", b"/digests/n3/x", b"/digests/n9/0000000100", b"/programs/x", b"/last")
    puts = [etcd.put(b"/log/%016x" % cluster.random.getrandbits(64) + key, value) for key, value in blocks.items()]
    cluster.client.transact([], [*puts, *(etcd.put(key, b"of no form \xff") for key in others)])
    cluster.height += len(blocks)


FAULTS: list[Callable[[Cluster, str], None]] = [node_killed, engine_killed, member_killed, leases_lost, log_compacted]
FAULTS += [watch_cut, two_proposers, disk_full, strange_keys]


def main() -> int:
    parser = endings.parser_of(__doc__)
    parser.add_argument("folder", type=Path)
    parser.add_argument("--heights", type=options.count, default=200)
    parser.add_argument("--faults", type=options.count, default=30)
    parser.add_argument("--seed", type=int, default=1)
    given = parser.parse_args()
    rvstm, began = finding.find(ProgramChoice(), finding.home(), os.environ), time.monotonic()
    with contextlib.closing(Cluster(given.folder, rvstm, given.seed)) as cluster:
        for name in NODES:
            cluster.node(name)
        faults = [fault for _ in range(given.faults) for fault in cluster.random.sample(FAULTS, len(FAULTS))]
        for number, fault in enumerate(faults[: given.faults], 1):
            name = cluster.random.choice(list(NODES))
            cluster.propose("p1", max(1, given.heights * number // given.faults - cluster.height))
            fault(cluster, name)
            cluster.end("p1")
            what = f"{fault.__name__.replace('_', ' ')}, {name}; {cluster.settle()[:16]}.. at height {cluster.height}"
            print(f"{time.monotonic() - began:5.1f} s: {what}", flush=True)
        print(f"{cluster.height} heights, {given.faults} faults, 0 wrong")
    return 0


if __name__ == "__main__":
    endings.run(main, __doc__)

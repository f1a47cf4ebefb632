"""Tests of a whole cluster, which need etcd and the program that RVSTM names: python3 -m unittest, in this folder."""

import contextlib
import os
import random
import shutil
import signal
import subprocess
import sys
import tempfile
import unittest
from pathlib import Path
from typing import ClassVar

import faults  # first: it finds tools/
import etcd
import ledger
import node
from faults import Cluster, block, wait
from ledger import Log
from rvstm_tools.errors import UserError
from rvstm_tools.options import ProgramChoice
from rvstm_tools.programs import finding
from rvstm_tools.programs.running import Program
from rvstm_tools.sessions.processes import Settings
from rvstm_tools.sessions.requests import Request, Word

TOP = Path(__file__).resolve().parents[2]
UNKNOWN = "1" * 64  # no program has this name


def program() -> Path | None:
    try:
        return finding.find(ProgramChoice(), finding.home(), os.environ)
    except UserError:
        return None


def missing() -> str:
    lacks = [] if shutil.which("etcd") else ["etcd (Debian's package etcd-server)"]
    return ", ".join(lacks + ([] if program() else ["the program rvstm (RVSTM names it)"]))


class Engines(unittest.TestCase):
    """The process that runs a node's blocks."""

    def setUp(self) -> None:
        if not program():
            self.skipTest("the program rvstm is missing")
        self.rvstm = str(program())

    def is_running(self, pid: int) -> bool:
        with contextlib.suppress(OSError):
            return Path(f"/proc/{pid}/stat").read_text(encoding="ascii").rpartition(")")[2].split()[0] != "Z"
        return False

    def test_it_ends_with_its_node(self) -> None:
        code = "import node, sys, time; engine = node.Engine(sys.argv[1], node.Settings()); "
        code += "print(engine.process.pid, flush=True); time.sleep(60)"
        words = [sys.executable, "-c", code, self.rvstm]
        with subprocess.Popen(words, stdout=subprocess.PIPE, cwd=faults.HERE) as parent:
            assert parent.stdout is not None
            pid = int(parent.stdout.readline())
            self.assertTrue(self.is_running(pid))
            parent.kill()
        wait("its end", lambda: not self.is_running(pid))

    def test_it_is_killed_if_it_does_not_answer(self) -> None:
        with node.Engine(Path(self.rvstm), Settings()) as engine:
            os.kill(engine.process.pid, signal.SIGSTOP)
            before, node.PATIENCE = node.PATIENCE, 1
            self.addCleanup(setattr, node, "PATIENCE", before)
            self.assertIsNone(engine.ask(Request(Word.STATE)))


class WholeCluster(unittest.TestCase):
    """One cluster for all tests, which run in the order of their names."""

    cluster: ClassVar[Cluster]
    blocks: ClassVar[list[bytes]] = []

    @classmethod
    def setUpClass(cls) -> None:
        if missing():
            print(f"skipped, for want of {missing()}: the tests of a whole cluster", file=sys.stderr)
            raise unittest.SkipTest(missing())
        place = tempfile.mkdtemp(prefix="cluster-")
        cls.addClassCleanup(shutil.rmtree, place, ignore_errors=True)
        rvstm = program()
        assert rvstm is not None
        cls.cluster = Cluster(Path(place) / "all", rvstm)
        cls.addClassCleanup(cls.cluster.close)
        for name in faults.NODES:
            cls.cluster.node(name)

    def append(self, *blocks: bytes) -> None:
        for one in blocks:
            self.cluster.append(one)
            self.blocks.append(one)

    def command(self, *words: object) -> str:
        """What node.py prints."""
        line = [str(word) for word in (faults.HERE / "node.py", "--etcd", self.cluster.urls, *words)]
        environment = {**os.environ, "RVSTM": str(self.cluster.rvstm)}
        done = subprocess.run(line, capture_output=True, encoding="utf-8", env=environment, timeout=120)
        return done.stdout + done.stderr

    def test_1_strange_blocks_are_refused_by_all_and_stop_nobody(self) -> None:
        counter = block(random.Random(1))
        strange = {
            "": "block 1 BadHeader 1",
            "hello\n": "block 1 BadHeader 1",
            counter.decode() + "end\nq\nframe 0\ndump\n": "block 13 BadLine 2",
            "rvblock 1\nprogram 0 /etc/passwd\n": "frame NoProgram 3",
            f"rvblock 1\nprogram 0 {UNKNOWN}\n": "frame NoProgram 3",
            counter.decode() + "call 0 10000000 -\n" * 201: "frame TooMuchGas 5",
        }
        self.append(*(text.encode() for text in strange), counter)
        self.cluster.settle()
        for height, refusal in enumerate(strange.values(), 1):
            for name in faults.NODES:
                self.assertIn(f"height {height}: refused {refusal}, b'/log/", self.cluster.log(name))

    def test_2_two_keys_of_one_transaction_and_keys_of_no_form_stop_nobody(self) -> None:
        faults.strange_keys(self.cluster, "n1")
        places = Log(self.cluster.client).after(len(self.blocks))[2]
        self.assertEqual(len(places), 4)
        self.blocks.extend(pair.value for pairs in Log(self.cluster.client).read(places) for pair in pairs)
        self.assertIn(b"hello", self.blocks)
        self.cluster.settle()
        self.cluster.wait_for("n1", "b'/newest/n3/x/n1' is no digest of a node")

    @unittest.skipUnless((TOP / "tools/rvstm_developers").is_dir(), "only a checkout has the model of a session")
    def test_3_the_digest_is_that_of_the_answers_of_seq(self) -> None:
        sys.path.append(str(TOP / "tests"))
        from rvstm_developers.models.sessions import SessionModel

        self.append(*(block(self.cluster.random) for _ in range(3)))
        settings = Settings(frame_gas=node.FRAME_GAS, digest=True, brief=True)
        model = SessionModel(Program(self.cluster.rvstm), settings)
        self.addCleanup(model.place.cleanup)
        model.answer(Request(Word.PROGRAM, (), faults.COUNTER))
        for one in self.blocks:
            model.answer(Request(Word.FRAME, (), one))
        assert model.digest is not None
        self.assertEqual(self.cluster.settle(), model.digest.hex())

    def test_4_a_node_begins_with_a_dump_and_the_log_is_trimmed(self) -> None:
        path, store = self.cluster.folder / "dump", self.cluster.folder / "n3.store"
        self.cluster.kill("n3")
        height = self.cluster.height
        printed = self.command("--store", store, "--dump", path)
        self.assertRegex(printed, f"dump: height {height}, digest [0-9a-f]{{64}}\n$")
        self.append(block(self.cluster.random))
        self.assertEqual(self.command("--trim", path), f"removed {height} blocks\n")
        for file in self.cluster.folder.glob("n3.store*"):
            file.unlink()
        self.cluster.node("n3")
        self.cluster.wait_for("n3", f"the session is at height 0, and the log goes from {height} to {height + 1}")
        self.cluster.kill("n3")
        self.cluster.node("n3", "--begin", path)
        self.cluster.settle()
        self.assertIn(f"n3 begins at height {height}\n", self.cluster.log("n3"))
        self.assertEqual(self.command("--trim", path), "removed 0 blocks\n")

    def test_5_a_node_that_is_killed_continues_from_its_file(self) -> None:
        for name in faults.NODES:
            self.cluster.kill(name)
        self.append(block(self.cluster.random))
        for name in faults.NODES:
            self.cluster.node(name)
        self.cluster.settle()
        self.assertIn(f"n1 begins at height {self.cluster.height - 1}\n", self.cluster.log("n1"))

    def test_6_a_file_has_one_node(self) -> None:
        printed = self.command("--name", "twin", "--store", self.cluster.folder / "n1.store")
        self.assertEqual(printed, "node.py: rvstm: store Busy 1\n")

    def test_6_a_name_has_no_slash(self) -> None:
        for name in ("n1/x", "", "N1", "n-1"):
            self.assertIn("--name of [a-z0-9]+", self.command("--name", name, "--store", self.cluster.folder / "other"))

    def test_7_a_node_that_differs_stops_all_and_the_others_continue_without_it(self) -> None:
        changed = self.cluster.folder / "rvstm"
        changed.write_bytes(self.cluster.rvstm.read_bytes().replace(b"returned", b"Returned"))
        changed.chmod(0o755)
        self.cluster.node("n4", "--begin", self.cluster.folder / "dump", rvstm=changed)
        self.append(block(self.cluster.random))
        for name in ("n4", *faults.NODES):
            self.cluster.wait_for(name, " has the digest ")
            self.assertEqual(self.cluster.processes.pop(name).wait(60), 1)
        self.assertRegex(self.cluster.log("n4"), r"height \d+: n\d has the digest \w{16}\.\., and n4 has \w{16}\.\.")
        keys = etcd.one(ledger.NEWEST + b"n4"), etcd.below(ledger.DIGESTS + b"n4/")
        self.cluster.client.transact([], [etcd.delete(wanted) for wanted in keys])
        for name in faults.NODES:
            self.cluster.node(name)
        self.append(block(self.cluster.random))
        self.cluster.settle()

    def test_8_only_users_write(self) -> None:
        ask = self.cluster.client.ask
        for name in ("root", "team"):
            ask("auth/role/add", {"name": name})
            ask("auth/user/add", {"name": name, "password": f"{name}'s"})
            ask("auth/user/grant", {"user": name, "role": name})
        rights = {"permType": "READWRITE", "key": etcd.packed(b"/"), "range_end": etcd.packed(b"0")}
        ask("auth/role/grant", {"name": "team", "perm": rights})
        ask("auth/enable", {})
        stranger = etcd.Etcd(self.cluster.urls)
        self.assertRaisesRegex(UserError, "etcd: .*user name is empty", Log(stranger).append, b"")
        stranger.turn()
        os.environ["ETCDCTL_USER"] = "team:team's"
        self.addCleanup(os.environ.pop, "ETCDCTL_USER")
        for name in faults.NODES:
            self.cluster.kill(name)
            self.cluster.node(name)
        self.append(block(self.cluster.random))
        self.cluster.settle()


if __name__ == "__main__":
    unittest.main()

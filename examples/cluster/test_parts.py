"""Tests of the parts of a cluster, which need neither etcd nor rvstm: python3 -m unittest, in this folder."""

import base64
import http.server
import json
import math
import tempfile
import threading
import unittest
from collections.abc import Callable, Iterator
from pathlib import Path
from typing import Any

import ledger  # first: it finds tools/
import etcd
import node
import propose
from etcd import Object, Pair
from ledger import Dump, Log, Place
from rvstm_tools.errors import UserError
from rvstm_tools.sessions import frames

ONE, OTHER = "1" * 64, "2" * 64
NAMED = b"rvblock 1\nprogram 0 %s\n"


def unpacked(text: str) -> bytes:
    return base64.b64decode(text)


class Shelf(etcd.Etcd):
    """A client whose pairs are in a dictionary. Each transaction is one revision."""

    def __init__(self) -> None:
        super().__init__("http://127.0.0.1:1")
        self.pairs, self.revision = dict[bytes, Pair](), 1
        self.compacted = self.refused = 0  # a revision; how many transactions were not done
        self.before: Callable[[], None] | None = None  # runs once, before a transaction
        self.is_lost = False  # the answer of the next transaction that writes

    def ask(self, path: str, body: Object) -> Object:
        if path == "kv/compaction":
            self.compacted = body["revision"]
        if path == "lease/grant":
            return {"ID": "7"}
        if path != "kv/txn":
            return {}
        before, self.before = self.before, None
        if before:
            before()
        is_done = all(self.holds(one) for one in body["compare"])
        self.revision += 1
        self.refused += not is_done
        found = [self.does(one) for one in body["success"]] if is_done else []
        if self.is_lost and is_done and any("request_put" in one for one in body["success"]):
            self.is_lost = False
            return self.ask(path, body)  # as a client does that lost the answer
        return {"succeeded": is_done, "responses": found, "header": {"revision": self.revision}}

    def holds(self, one: Object) -> bool:
        pair = self.pairs.get(unpacked(one["key"]))
        return (pair.changed if pair else 0) == int(one["mod_revision"])

    def does(self, one: Object) -> Object:
        [(word, wanted)] = one.items()
        key = unpacked(wanted["key"])
        last = unpacked(wanted.get("range_end", "")) or key + b"\0"
        if word == "request_put":
            made = self.pairs[key].made if key in self.pairs else self.revision
            self.pairs[key] = Pair(key, unpacked(wanted["value"]), made, self.revision)
            return {}
        found = [pair for pair in self.pairs.values() if key <= pair.key < last]
        if word == "request_delete_range":
            for pair in found:
                del self.pairs[pair.key]
            return {}
        keys = ("key", "value", "create_revision", "mod_revision")
        rows = [(etcd.packed(pair.key), etcd.packed(pair.value), pair.made, pair.changed) for pair in found]
        return {"response_range": {"kvs": [dict(zip(keys, row)) for row in rows]}}

    def puts(self, **pairs: bytes) -> None:
        """One transaction; a name begins with log or newest, and _ is for /."""
        self.transact([], [etcd.put(b"/" + name.replace("_", "/").encode(), value) for name, value in pairs.items()])


def keys_of(places: list[Place]) -> list[bytes]:
    return [place.key.rpartition(b"/")[2] for place in places]


class TheLog(unittest.TestCase):
    """The order of blocks, and what is appended."""

    def setUp(self) -> None:
        self.shelf = Shelf()
        self.log = Log(self.shelf)

    def test_the_order_is_that_of_revisions_and_then_of_keys(self) -> None:
        self.shelf.puts(log_z=b"1")
        self.shelf.puts(log_c=b"4", log_a=b"2", log_b_n3_x=b"3")
        self.shelf.puts(log_0=b"5")
        _, begin, places = self.log.after(0)
        self.assertEqual([place.key for place in places], [b"/log/z", b"/log/a", b"/log/b/n3/x", b"/log/c", b"/log/0"])
        self.assertEqual(b"".join(pair.value for pairs in self.log.read(places) for pair in pairs), b"12345")
        self.assertEqual((begin, [place.height for place in places]), (Place(), [1, 2, 3, 4, 5]))

    def test_a_session_continues_between_two_blocks_of_one_revision(self) -> None:
        self.shelf.puts(log_b=b"", log_a=b"")
        _, place, places = self.log.after(1)
        self.assertEqual((place.key, keys_of(places)), (b"/log/a", [b"b"]))

    def test_a_height_above_the_log_is_an_error(self) -> None:
        self.shelf.puts(log_a=b"")
        self.assertRaisesRegex(UserError, "at height 2, and the log goes from 0 to 1", self.log.after, 2)

    def test_a_changed_or_removed_block_is_named(self) -> None:
        self.shelf.puts(log_a=b"1")
        self.shelf.puts(log_a=b"2")
        _, _, places = self.log.after(0)
        self.assertRaisesRegex(UserError, "heights 1 to 1 was removed or changed", list, self.log.read(places))

    def test_a_watch_gives_whole_revisions_in_order_and_reads_again_after_compaction(self) -> None:
        self.shelf.puts(log_b=b"", log_a=b"")
        told = [[Pair(b"/log/y", b"", 8, 8), Pair(b"/log/x", b"", 8, 8), Pair(b"/log/a", b"changed", 2, 9)]]

        def watch(prefix: bytes, revision: int, quiet: float) -> Iterator[list[Pair]]:
            self.assertEqual((prefix, revision), (b"/log/", 4 if told else 10))
            if not told:
                self.shelf.puts(log_x=b"", log_y=b"")
                self.shelf.puts(log_new=b"")
                raise etcd.CompactedError("compacted")
            yield told.pop()

        said = list[str]()
        setattr(self.shelf, "watch", watch)
        batches = self.log.batches(0, said.append)
        keys = [[pair.key.rpartition(b"/")[2] for pair in next(batches)] for _ in range(4)]
        self.assertEqual(keys, [[b"a", b"b"], [b"x", b"y"], [], [b"new"]])
        self.assertEqual(said, ["compacted: reads the log again"])

    def test_of_two_proposers_at_once_the_later_tries_again(self) -> None:
        self.shelf.before = lambda: setattr(self.shelf, "before", lambda: self.log.append(b"other"))
        self.log.append(b"mine")
        self.assertEqual([self.shelf.pairs[place.key].value for place in self.log.after(0)[2]], [b"other", b"mine"])
        self.assertEqual(self.shelf.refused, 1)

    def test_a_lost_answer_appends_nothing_twice(self) -> None:
        self.shelf.is_lost = True
        revision = self.log.append(b"mine")
        self.assertFalse(self.shelf.is_lost)
        self.assertEqual([(place.height, place.revision) for place in self.log.after(0)[2]], [(1, revision)])

    def test_a_block_has_at_most_a_million_bytes(self) -> None:
        self.log.append(bytes(1_000_000))
        self.assertRaisesRegex(UserError, "at most 1,000,000 bytes", self.log.append, bytes(1_000_001))

    def test_a_program_counts_if_it_was_put_before_the_block(self) -> None:
        files = {frames.name_of(file).encode(): file for file in (b"one", b"two", b"late")}
        one, two, late = files
        self.log.put_program(b"one")
        self.shelf.transact([], [etcd.put(ledger.PROGRAMS + two, b"of another name")])
        self.log.append(NAMED % one + b"program 1 %s\nprogram 2 %s\nprogram 3 /etc/passwd\n" % (two, late))
        self.log.put_program(b"late")
        [[pair]] = self.log.read(self.log.after(0)[2])
        self.assertEqual(list(self.log.programs(pair, set())), [(one, b"one")])
        self.assertEqual(list(self.log.programs(pair, {one})), [])
        many = pair._replace(value=pair.value + b"".join(b"program 4 %064x\n" % number for number in range(62)))
        self.assertEqual(list(self.log.programs(many, set())), [])


class Dumps(unittest.TestCase):
    def setUp(self) -> None:
        self.shelf, self.place = Shelf(), tempfile.TemporaryDirectory()
        self.addCleanup(self.place.cleanup)
        self.log, self.path = Log(self.shelf), Path(self.place.name) / "dump"
        for number in range(3):
            self.shelf.puts(**{f"log_{number}": b"", f"log_{number}_": b""})
        self.dump = Dump(self.log.after(3)[1], ONE, b"rvblock 2\ngas 1\n")

    def test_a_changed_dump_is_refused(self) -> None:
        text = self.dump.text()
        self.path.write_bytes(text)
        self.assertEqual(ledger.dump_in(self.path), self.dump)
        head = json.loads(text.split(b"\n")[0])
        self.assertEqual((head["height"], head["digest"]), (3, ONE))
        changes = (b'"sha256": "', b'"sha256": "0'), (b"gas 1", b"gas 2"), (b" 1\n", b" 1\n\n"), (ONE.encode(), b"1")
        for changed in (text.replace(*change) for change in changes):
            self.path.write_bytes(changed)
            self.assertRaisesRegex(UserError, "SHA-256", ledger.dump_in, self.path)
        for other in (b"", b"rvblock 2\n", b"[]", b'{"height": 3}', b'{"height": 3, "revision": 1, "key": "no hex"}'):
            self.path.write_bytes(other)
            self.assertRaisesRegex(UserError, "not the head of a dump", ledger.dump_in, self.path)

    def test_a_trim_leaves_what_comes_after_the_dump(self) -> None:
        later = self.log.after(3)[2]
        for _ in range(2):
            gone = self.log.trim(self.dump)
            self.assertEqual(self.log.after(3)[1:], (self.dump.place, later))
        self.assertEqual((gone, [place.height for place in later]), (0, [4, 5, 6]))
        self.assertRaisesRegex(UserError, "at height 2, and the log goes from 3 to 6", self.log.after, 2)
        self.assertEqual(self.shelf.compacted, self.shelf.revision - 2)  # two more transactions have read

    def test_a_trim_that_was_cut_counts_no_block_twice(self) -> None:
        self.shelf.transact([], [etcd.put(ledger.TRIMMED, self.dump.text().split(b"\n")[0])])
        self.assertEqual([place.height for place in self.log.after(3)[2]], [4, 5, 6])
        self.assertEqual(self.log.trim(self.dump), 3)

    def test_a_dump_of_another_log_trims_nothing(self) -> None:
        other = Dump(self.dump.place._replace(key=b"/log/other"), ONE, b"")
        self.assertRaisesRegex(UserError, "another block at height 3", self.log.trim, other)
        self.assertEqual(len(self.log.after(0)[2]), 6)


class Said(unittest.TestCase):
    """What nodes say of their digests. A node at height 200 compares it with its own."""

    def setUp(self) -> None:
        self.shelf = Shelf()
        self.node = node.Node("n1", self.shelf, Path("rvstm"), Path("FILE"))
        self.lines = list[str]()
        setattr(self.node, "say", self.lines.append)
        self.node.height, self.node.digest = 200, ONE
        self.node.digests = {198: ONE, 200: ONE}

    def said(self, key: bytes, value: bytes) -> None:
        self.shelf.transact([], [etcd.put(key, value)])

    def test_equal_digests_and_unknown_heights_stop_nobody(self) -> None:
        for name, height, digest in (("n2", 200, ONE), ("n3", 198, ONE), ("n4", 201, OTHER), ("n5", 7, OTHER)):
            self.said(b"/newest/" + name.encode(), f"{height} {digest}".encode())
        self.node.look()
        self.assertEqual(self.shelf.pairs[b"/newest/n1"].value, f"200 {ONE}".encode())
        self.assertEqual(self.shelf.pairs[b"/digests/n1/0000000200"].value, ONE.encode())
        self.assertEqual(self.lines, [])

    def test_another_newest_digest_stops_the_node(self) -> None:
        self.said(b"/newest/n2", f"198 {OTHER}".encode())
        self.assertRaisesRegex(UserError, "height 198: n2 has the digest 2{16}.., and n1 has 1{16}..", self.node.look)

    def test_another_hundredth_digest_stops_the_node(self) -> None:
        self.said(b"/newest/n2", f"1000 {OTHER}".encode())
        self.said(b"/digests/n2/0000000200", OTHER.encode())
        self.assertRaisesRegex(UserError, "height 200: n2 has", self.node.look)

    def test_what_a_node_said_before_binds_it(self) -> None:
        self.said(b"/digests/n1/0000000200", OTHER.encode())
        self.assertRaisesRegex(UserError, "height 200: n1 has the digest 2{16}.., and n1 has 1{16}", self.node.look)

    def test_a_hundredth_height_is_compared_after_a_restart(self) -> None:
        self.said(b"/digests/n1/0000000100", ONE.encode())
        self.said(b"/newest/n2", f"100 {OTHER}".encode())
        self.assertRaisesRegex(UserError, "height 100: n2 has", self.node.look)

    def test_malformed_keys_and_values_are_named_once_and_stop_nobody(self) -> None:
        strange = [b"/newest/n3/x/n2", b"/newest/N2", b"/newest/", b"/newest/n\xff", b"/newest/n-2"]
        for key in strange:
            self.said(key, f"200 {OTHER}".encode())
        values = [b"", b"\xff", b"200", b"9" * 99, *(sign + OTHER.encode() for sign in (b"200  ", b"+200 ", b"0200 "))]
        for number, value in enumerate(values):
            self.said(b"/newest/v%d" % number, value)
            self.said(b"/digests/n%d/0000000200" % number, value)
            self.said(b"/newest/n%d" % number, f"200 {ONE}".encode())
        for _ in range(2):
            self.node.looked = -math.inf
            self.node.look()
        self.assertEqual(len(self.lines), len(strange) + len(values))
        self.assertTrue(all("is no digest of a node" in line for line in self.lines))


class Proposed(unittest.TestCase):
    """What a file of a block may make `propose.py` read."""

    def setUp(self) -> None:
        place = tempfile.TemporaryDirectory()
        self.addCleanup(place.cleanup)
        self.path = Path(place.name) / "a.block"
        self.programs = {b"a.elf": ONE.encode(), b"x/a.elf": ONE.encode()}

    def named(self, text: str, *, with_store: bool = False) -> bytes:
        self.path.write_text(text, encoding="ascii")
        return propose.named(self.path, self.programs, with_store=with_store)

    def test_programs_are_named_by_their_hashes(self) -> None:
        text = f"rvblock 1\nprogram 0 a.elf\nprogram 1 x/a.elf\nprogram 2 {OTHER}\ncall 0 1 -\n"
        expected = f"rvblock 1\nprogram 0 {ONE}\nprogram 1 {ONE}\nprogram 2 {OTHER}\ncall 0 1 -\n"
        self.assertEqual(self.named(text).decode(), expected)

    def test_no_other_file_is_read(self) -> None:
        for name in ("/etc/passwd", "a.block", "../a.elf", "/dev/stdin", ONE[:-1]):
            self.assertRaisesRegex(UserError, f"no --program is {name}$", self.named, f"rvblock 1\nprogram 0 {name}\n")

    def test_store_lines_are_asked_for(self) -> None:
        text = f"rvblock 1\nstore {ONE} 00\n"
        self.assertRaisesRegex(UserError, "lines `store`", self.named, text)
        self.assertEqual(self.named(text, with_store=True).decode(), text)


class Gateway(unittest.TestCase):
    """The client, over a server that answers as told."""

    def setUp(self) -> None:
        self.lines = list[Object]()
        test = self

        class Handler(http.server.BaseHTTPRequestHandler):
            def do_POST(self) -> None:
                test.asked.append(json.loads(self.rfile.read(int(self.headers["Content-Length"]))))
                self.send_response(test.statuses.pop(0))
                self.end_headers()
                self.wfile.write(b"".join(json.dumps(line).encode() + b"\n" for line in test.lines)[: test.cut])

            def log_message(self, *_: object) -> None:
                pass

        self.asked, self.statuses, self.cut = list[Any](), [200] * 9, 1 << 20
        server = http.server.ThreadingHTTPServer(("127.0.0.1", 0), Handler)
        threading.Thread(target=server.serve_forever, daemon=True).start()
        self.addCleanup(server.server_close)
        self.addCleanup(server.shutdown)
        self.client = etcd.Etcd(f"http://127.0.0.1:1,http://127.0.0.1:{server.server_port}", 5)

    def event(self, key: bytes, revision: int) -> Object:
        return {"kv": {"key": etcd.packed(key), "create_revision": str(revision), "mod_revision": str(revision)}}

    def watched(self, *results: Object) -> list[list[bytes]]:
        self.lines = [{"result": result} for result in results]
        self.client.urls.sort(key=lambda url: not url.endswith(":1"))
        return [[pair.key for pair in pairs] for pairs in self.client.watch(b"/log/", 5, 2)]

    def test_the_next_member_is_asked(self) -> None:
        self.lines = [{"x": 1}]
        self.assertEqual(self.client.ask("kv/range", {"a": 2}), {"x": 1})
        self.assertEqual(self.asked, [{"a": 2}])

    def test_no_member_answers(self) -> None:
        self.client.urls, self.client.patience = ["http://127.0.0.1:1"], 0.2
        self.assertRaisesRegex(UserError, "no member of etcd answers", self.client.ask, "kv/range", {})

    def test_a_refusal_is_an_error_unless_it_may_pass(self) -> None:
        self.lines, self.statuses = [{"code": 14, "error": "no leader"}], [503, 200]
        self.assertEqual(self.client.ask("kv/range", {})["code"], 14)
        self.lines, self.statuses = [{"code": 3, "error": "too large"}], [400]
        self.assertRaisesRegex(etcd.RefusedError, r"etcd: too large \(3\)", self.client.ask, "kv/put", {})

    def test_a_revision_in_fragments_comes_whole(self) -> None:
        one, two, three = self.event(b"/log/b", 5), self.event(b"/log/a", 5), self.event(b"/log/c", 6)
        told = {"created": True}, {"events": [one], "fragment": True}, {"events": [two]}, {"events": [three]}
        self.assertEqual(self.watched(*told), [[b"/log/b", b"/log/a"], [b"/log/c"]])

    def test_a_watch_that_is_cut_ends(self) -> None:
        one, two = self.event(b"/log/b", 5), self.event(b"/log/a", 5)
        self.assertEqual(self.watched({"events": [one], "fragment": True}), [])
        self.cut = 30
        self.assertEqual(self.watched({"events": [two]}), [])

    def test_a_compacted_revision_is_an_error(self) -> None:
        told = {"compact_revision": "9"}
        self.assertRaisesRegex(etcd.CompactedError, "revision 5 is compacted, up to 9", self.watched, told)

if __name__ == "__main__":
    unittest.main()

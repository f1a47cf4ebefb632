"""A client for the JSON gateway of etcd, with Python's library alone. etcd answers /v3/ at its client ports since 3.4.

Certificates and the user come from the environment, as for etcdctl: ETCDCTL_CACERT, ETCDCTL_CERT, ETCDCTL_KEY, and
ETCDCTL_USER, which is USER:PASSWORD.
"""

import base64
import http.client
import json
import math
import os
import ssl
import time
import urllib.parse
from collections.abc import Callable, Iterator, Sequence
from typing import Any, NamedTuple

from rvstm_tools.errors import UserError

SECONDS_A_REQUEST, SECONDS_BETWEEN_TRIES, SECONDS_UNTIL_SAID = 5, 0.1, 30
MAY_ANSWER_LATER = (1, 4, 8, 13, 14, 16)
"""gRPC's codes after which another member, or the same one later, may answer; 16 is for a token that is too old."""
FAULTS = (OSError, http.client.HTTPException, ValueError)  # of a connection, and of an answer that is cut
Object = dict[str, Any]  # of JSON


class RefusedError(UserError):
    """A request that etcd refuses, with gRPC's code."""

    def __init__(self, reply: Object) -> None:
        self.code = int(reply.get("code", 0))
        super().__init__(f"etcd: {reply.get('error', 'no reason given')} ({self.code})")


class CompactedError(Exception):
    """A revision that etcd has compacted away."""


class Pair(NamedTuple):
    """A key with its value, and the revisions at which it was made and last changed."""

    key: bytes
    value: bytes
    made: int
    changed: int


class Reply(NamedTuple):
    """Whether the comparisons of a transaction held, the pairs that each of its requests read, and etcd's revision."""

    is_done: bool
    read: list[list[Pair]]
    revision: int


def packed(data: bytes) -> str:
    return base64.b64encode(data).decode()


def pair_of(given: Object) -> Pair:
    key, value = (base64.b64decode(given.get(word, "")) for word in ("key", "value"))
    return Pair(key, value, int(given["create_revision"]), int(given["mod_revision"]))


def one(key: bytes) -> Object:
    return {"key": packed(key)}


def below(prefix: bytes) -> Object:
    """All keys that begin with a prefix, whose last byte is not 255."""
    return {"key": packed(prefix), "range_end": packed(prefix[:-1] + bytes([prefix[-1] + 1]))}


def get(wanted: Object, *, keys_only: bool = False) -> Object:
    return {"request_range": {**wanted, "keys_only": keys_only}}


def put(key: bytes, value: bytes, lease: int = 0) -> Object:
    return {"request_put": {"key": packed(key), "value": packed(value), "lease": lease}}


def delete(wanted: Object) -> Object:
    return {"request_delete_range": wanted}


def is_at(key: bytes, revision: int) -> Object:
    """Whether a key was last changed at this revision; 0 if it is absent."""
    return {"key": packed(key), "target": "MOD", "result": "EQUAL", "mod_revision": revision}


class Etcd:
    """Asks one member, and the next one if it does not answer. For one thread at a time."""

    def __init__(self, urls: str, patience: float = math.inf, say: Callable[[str], None] = print) -> None:
        """`patience` is how many seconds it waits for an answer; `say` gets a line now and then meanwhile."""
        self.urls, self.patience, self.say = urls.split(","), patience, say
        self.connection: http.client.HTTPConnection | None = None
        self.token = ""

    def ask(self, path: str, body: Object) -> Object:
        """The first answer that a member gives. The request may be carried out twice: that has to do no harm."""
        began = said = time.monotonic()
        while True:
            try:
                self.connection = line = self.connection or self.connected(SECONDS_A_REQUEST)
                return posted(line, path, body, self.headers(line))
            except (*FAULTS, RefusedError) as error:
                now, fault = time.monotonic(), f"no member of etcd answers: {error}"
                if isinstance(error, RefusedError) and error.code not in MAY_ANSWER_LATER:
                    raise
            if now - began > self.patience:
                raise UserError(fault)
            if now - said > SECONDS_UNTIL_SAID:
                self.say(fault)
                said = now
            self.turn()
            self.token = ""
            time.sleep(SECONDS_BETWEEN_TRIES)

    def connected(self, seconds: float) -> http.client.HTTPConnection:
        """A connection with the first member of the list."""
        url = urllib.parse.urlsplit(self.urls[0])
        if url.scheme != "https":
            return http.client.HTTPConnection(url.hostname or "", url.port, timeout=seconds)
        context = ssl.create_default_context(cafile=os.environ.get("ETCDCTL_CACERT"))
        if certificate := os.environ.get("ETCDCTL_CERT"):
            context.load_cert_chain(certificate, os.environ.get("ETCDCTL_KEY"))
        return http.client.HTTPSConnection(url.hostname or "", url.port, timeout=seconds, context=context)

    def headers(self, line: http.client.HTTPConnection) -> dict[str, str]:
        """The token of the user, if there is one."""
        name, _, password = os.environ.get("ETCDCTL_USER", "").partition(":")
        if name and not self.token:
            self.token = str(posted(line, "auth/authenticate", {"name": name, "password": password}, {})["token"])
        return {"Authorization": self.token} if name else {}

    def turn(self) -> None:
        """Continues with the next member."""
        if self.connection:
            self.connection.close()
        self.connection = None
        self.urls.append(self.urls.pop(0))

    def transact(self, compare: Sequence[Object], success: Sequence[Object]) -> Reply:
        reply = self.ask("kv/txn", {"compare": [*compare], "success": [*success]})
        found = [answer["response_range"] for answer in reply.get("responses", []) if "response_range" in answer]
        read = [[pair_of(pair) for pair in one.get("kvs", [])] for one in found]
        return Reply(reply.get("succeeded", False), read, int(reply["header"]["revision"]))

    def read(self, key: bytes) -> Pair | None:
        found = self.transact([], [get(one(key))]).read[0]
        return found[0] if found else None

    def watch(self, prefix: bytes, revision: int, quiet: float) -> Iterator[list[Pair]]:
        """What is put below a prefix from a revision on: lists of the pairs of whole revisions. It ends if nothing came
        for some seconds, or if the watch is cut: the caller then watches on, by the next member."""
        self.turn()
        line, held = self.connected(quiet), list[Pair]()
        wanted = {**below(prefix), "start_revision": revision, "filters": ["NODELETE"], "fragment": True}
        try:
            line.request("POST", "/v3/watch", json.dumps({"create_request": wanted}), self.headers(line))
            for text in line.getresponse():
                reply = json.loads(text)["result"]
                if "compact_revision" in reply:
                    raise CompactedError(f"revision {revision} is compacted, up to {reply['compact_revision']}")
                held += [pair_of(event["kv"]) for event in reply.get("events", [])]
                if held and not reply.get("fragment"):  # a revision may be in several fragments
                    yield held
                    held = []
        except TimeoutError:
            pass
        except (*FAULTS, KeyError, RefusedError):
            self.token = ""
            time.sleep(SECONDS_BETWEEN_TRIES)
        finally:
            line.close()


def posted(line: http.client.HTTPConnection, path: str, body: Object, headers: dict[str, str]) -> Object:
    line.request("POST", f"/v3/{path}", json.dumps(body), headers)
    answer = line.getresponse()
    reply: Object = json.loads(answer.read())
    if answer.status != http.client.OK:
        raise RefusedError(reply)
    return reply

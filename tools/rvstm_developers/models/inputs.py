"""Inputs of a session: the requests in some bytes, and the fault that ends them (docs/formats.md, "Sessions")."""

import re
from dataclasses import dataclass

from rvstm_tools.sessions.requests import WITH_BODY, Bytes, Request, Word

LINE_LIMIT = 128  # bytes of a request's line with its LF
DECIMAL, NAME, COUNT = rb"(?:0|[1-9][0-9]{0,9})", rb"[0-9a-f]{64}", rb"(?:[1-9][0-9]{0,2}|10[01][0-9]|102[0-4])"
FORMS = re.compile(
    rb"programs|last|dump|state|q|(?:program|frame|try) %s|(?:forget|get) %s|list %s %s|begin %s (?:-|%s) %s"
    % (DECIMAL, NAME, NAME, COUNT, DECIMAL, NAME, DECIMAL)
)


class Fault(Bytes):
    NONE = b""  # it ends there
    BAD_LINE = b"request BadLine 1\n"
    CUT = b"request Cut 2\n"


@dataclass(frozen=True)
class FoundRequest:
    request: Request
    after: int


def next_request(text: bytes, place: int = 0) -> FoundRequest | Fault:
    """The request at a place of an input, or why there is none."""
    if place == len(text):
        return Fault.NONE
    end = text.find(b"\n", place, place + LINE_LIMIT)
    if end < 0 or not FORMS.fullmatch(text[place:end]):
        return Fault.BAD_LINE
    first, *fields = text[place:end].split(b" ")
    word = Word(first)
    if word not in WITH_BODY:
        return FoundRequest(Request(word, tuple(fields)), end + 1)
    after = end + 1 + int(fields.pop())
    if after > len(text):
        return Fault.CUT
    return FoundRequest(Request(word, tuple(fields), text[end + 1 : after]), after)


@dataclass(frozen=True)
class Input:
    """The requests of an input up to a `q`, and the fault that ends them."""

    requests: list[Request]
    fault: Fault


def requests_of(text: bytes) -> Input:
    requests: list[Request] = []
    found = next_request(text)
    while isinstance(found, FoundRequest):
        if found.request.word == Word.QUIT:
            return Input(requests, Fault.NONE)
        requests.append(found.request)
        found = next_request(text, found.after)
    return Input(requests, found)

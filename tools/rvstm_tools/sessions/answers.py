"""Answers of a session: `ok` with bytes, or a refusal by its name (docs/formats.md, "Sessions")."""

import re
from dataclasses import dataclass
from typing import ClassVar, Protocol

from rvstm_tools.errors import UserError
from rvstm_tools.sessions.requests import Bytes

NUMBER = rb"(0|[1-9][0-9]{0,18})"
ANSWER = re.compile(rb"(ok) %s\n|(refused|failed) ([a-z]+)(?: %s)? ([A-Za-z]+) %s\n" % (NUMBER, NUMBER, NUMBER))
SHOWN_OF_WRONG_LINE = 200  # bytes


class Kind(Bytes):
    OK = b"ok"
    REFUSED = b"refused"
    FAILED = b"failed"  # this machine could not do what was asked for; another one may


def said(line: bytes) -> str:
    return line.decode().strip()


@dataclass(frozen=True)
class Done:
    """What was asked for is done, and these are the bytes that it gives."""

    body: bytes = b""
    kind: ClassVar[Kind] = Kind.OK

    @property
    def line(self) -> bytes:
        return b"ok %d\n" % len(self.body)

    @property
    def said(self) -> str:
        return said(self.line)

    def text(self) -> bytes:
        return self.line + self.body


@dataclass(frozen=True)
class Refusal:
    kind: Kind
    area: str
    name: str
    number: int
    line_number: int | None = None
    body: ClassVar[bytes] = b""  # no bytes follow the line

    @property
    def line(self) -> bytes:
        """The whole answer, which is one line."""
        place = "" if self.line_number is None else f" {self.line_number}"
        return b"%s %s\n" % (self.kind, f"{self.area}{place} {self.name} {self.number}".encode())

    @property
    def said(self) -> str:
        return said(self.line)

    def text(self) -> bytes:
        return self.line


Answer = Done | Refusal


class Lines(Protocol):
    def readline(self) -> bytes:
        """The next line, with its LF if it has one."""

    def read(self, count: int, /) -> bytes:
        """So many bytes; fewer if the stream ends."""


def next_answer(lines: Lines) -> Answer | None:
    """The next answer of a stream, or None if it ends before the answer does."""
    line = lines.readline()
    form = ANSWER.fullmatch(line)
    if form is None:
        if line.endswith(b"\n"):
            raise UserError(f"not a line of an answer: {line[:SHOWN_OF_WRONG_LINE]!r}")
        return None
    if form[3]:
        return refusal_by(form)
    body = lines.read(int(form[2]))
    return Done(body) if len(body) == int(form[2]) else None


def refusal_by(form: re.Match[bytes]) -> Refusal:
    _, _, kind, area, line, name, number = form.groups()
    return Refusal(Kind(kind), area.decode(), name.decode(), int(number), None if line is None else int(line))


def refused(words: bytes, kind: Kind = Kind.REFUSED) -> Refusal:
    """A refusal by its words, such as b"frame NoFrame 7", with an LF or without it."""
    form = ANSWER.fullmatch(b"%s %s\n" % (kind, words.removesuffix(b"\n")))
    if form is None:
        raise ValueError(f"not the words of a refusal: {words!r}")
    return refusal_by(form)


@dataclass(frozen=True)
class State:
    rules: int
    height: int
    keys: int
    programs: int
    frame_limit: int
    frame_gas: int | None
    is_brief: bool
    digest: bytes | None


STATE = re.compile(
    rb"rules %s\nheight %s\nkeys %s\nprograms %s\nframe-limit %s\nframe-gas (?:none|%s)\nbrief ([01])\n(?:digest ([0-9a-f]{64})\n)?"
    % ((NUMBER,) * 6)
)


def state_of(body: bytes) -> State:
    """What the answer to `state` says. A UserError for other lines."""
    form = STATE.fullmatch(body)
    if form is None:
        raise UserError(f"not the lines of a state: {body[:SHOWN_OF_WRONG_LINE]!r}")
    rules, height, keys, programs, limit, gas, brief, digest = form.groups()
    return State(
        int(rules), int(height), int(keys), int(programs), int(limit), None if gas is None else int(gas), brief == b"1",
        None if digest is None else bytes.fromhex(digest.decode()),
    )


def state_text(state: State) -> bytes:
    gas = "none" if state.frame_gas is None else f"{state.frame_gas}"
    digest = "" if state.digest is None else f"digest {state.digest.hex()}\n"
    return (
        f"rules {state.rules}\nheight {state.height}\nkeys {state.keys}\nprograms {state.programs}\n"
        f"frame-limit {state.frame_limit}\nframe-gas {gas}\nbrief {state.is_brief:d}\n{digest}"
    ).encode()

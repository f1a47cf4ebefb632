"""Blocks that somebody types: a call or a key at once, or several between `block` and `run`."""

from collections.abc import Iterator, Sequence
from typing import TYPE_CHECKING

from rvstm_tools import errors
from rvstm_tools.errors import UserError
from rvstm_tools.sessions.requests import Request, Word
from rvstm_tools.texts import words
from rvstm_tools.texts.blocks import Rules
from rvstm_tools.texts.lists import BlockReader, Line

if TYPE_CHECKING:
    from rvstm_tools.sessions.clients import Client


class TypedBlock:
    """The block that is typed, and what a line of it does. Its rules are the session's, or a list's higher ones."""

    def __init__(self, client: "Client") -> None:
        self.client = client
        self.reader: BlockReader | None = None  # between `block` and `run`

    def begin(self) -> Iterator[str]:
        """`block`: one that was not run is dropped."""
        dropped = self.size()
        self.reader = self._new()
        return iter([f"      dropped calls and keys: {dropped}"] if dropped else [])

    def size(self) -> int:
        """How many calls and keys wait for `run`."""
        return len(self.reader.block.calls) + len(self.reader.block.storage) if self.reader else 0

    def run(self) -> Iterator[str]:
        """`run`: a block that is refused stays, so that it can be run again."""
        if not self.reader:
            raise UserError("run: `block` begins a block")
        lines = self._sent(self.reader)
        self.reader = None
        return lines

    def call(self, given: Sequence[str]) -> Iterator[str]:
        return self._take("call", given)

    def store(self, given: Sequence[str]) -> Iterator[str]:
        """A key by itself is a block without calls; then its value is shown."""
        lines = self._take("store", given)
        return lines if self.reader else self.client.get(words.key_of(given[0]))

    def _new(self) -> BlockReader:
        reader = BlockReader({})
        reader.block.rules = Rules(max(self.client.state().rules, self.client.rules))
        return reader

    def _take(self, kind: str, given: Sequence[str]) -> Iterator[str]:
        self.client.view.take_names(given)
        errors.warn("session", self.client.view.doubts(given))
        reader = self.reader or self._new()
        if kind == "store" and reader.block.calls:
            raise UserError("store: a call is above it; `run` runs the block, and its keys come before its calls")
        if kind == "call" and given[0] not in reader.block.programs:
            reader.take(Line("", 0, ["program", given[0], self.client.program_of(given[0])]))
        reader.take(Line("", 0, [kind, *given]))
        return iter(()) if self.reader else self._sent(reader)

    def _sent(self, reader: BlockReader) -> Iterator[str]:
        return self.client.receipts(self.client.body(Request(Word.FRAME, (), reader.block.text().encode())))

"""Requests that somebody types: a line for each, with help, completion and a history."""

import glob
import readline
from collections.abc import Callable, Iterable, Iterator, Sequence
from dataclasses import dataclass
from pathlib import Path
from typing import TextIO

from rvstm_tools.errors import UserError
from rvstm_tools.sessions import frames
from rvstm_tools.sessions.clients import FIRST_KEY, HASH, MOST_KEYS, Client, read_frames
from rvstm_tools.sessions.requests import Word
from rvstm_tools.texts import lists, numbers, views, words
from rvstm_tools.texts.keys import Key

PROMPT = "rvstm> "
HIGHEST = 9_999_999_999  # the greatest height
NO_DIGEST = "0" * 64
HELP, QUIT = "help", "q"


@dataclass(frozen=True)
class Form:
    """A request that may be typed: its words, what it does, and how it is done."""

    word: str
    arguments: str  # the names of the words after it; those in brackets may be left out, and one with `..` may come again
    help: str
    run: Callable[[Client, Sequence[str]], Iterator[str]]
    completes: str = ""  # what the words after it are: `file`, `key`, `name` of a program, or nothing

    @property
    def text(self) -> str:
        return f"{self.word} {self.arguments}".rstrip()

    def check(self, given: Sequence[str]) -> None:
        """A UserError if there are too few words, or too many."""
        names = self.arguments.split()
        least = sum(not name.startswith("[") for name in names)
        if len(given) < least or len(given) > len(names) and not self.arguments.endswith("..]"):
            raise UserError(f"the request is `{self.text}`")


def path_of(word: str) -> Path:
    """A path, with or without quotes. A UserError if it has a zero byte."""
    if "\0" in word:
        raise UserError(f"{word}: a path has no zero byte")
    return Path(word[1:-1] if words.is_text(word) else word)


def run_list(client: Client, given: Sequence[str]) -> Iterator[str]:
    first = words.key_of(given[0]) if given else FIRST_KEY
    return client.list(first, numbers.number_of(given[1], 1, MOST_KEYS, "COUNT") if len(given) > 1 else MOST_KEYS)


def run_begin(client: Client, given: Sequence[str]) -> Iterator[str]:
    """`begin`: a dump in place of the storage, by default at height 0 and with no digest of frames before it."""
    path, *more = given
    height, digest = (more[0] if more else "0"), (more[1] if len(more) > 1 else NO_DIGEST)
    if not HASH.fullmatch(digest):
        raise UserError(f"{digest}: a digest is 64 digits in hex, in small letters")
    return client.begin(numbers.number_of(height, 0, HIGHEST, "HEIGHT"), bytes.fromhex(digest), path_of(path))


def run_forget(client: Client, given: Sequence[str]) -> Iterator[str]:
    if HASH.fullmatch(given[0]):
        return client.forget(given[0])
    return client.forget(frames.name_of(path_of(given[0]).read_bytes()))


FORMS = (
    Form("frame", "FILE", "runs a list (NAME.list) or a block file, after it sends its programs, and compares its lines `expect`",
         lambda client, given: client.run(Word.FRAME, read_frames(path_of(given[0]))), "file"),
    Form("try", "FILE", "the same, and keeps nothing of it but the programs",
         lambda client, given: client.run(Word.TRY, read_frames(path_of(given[0]))), "file"),
    Form("call", "NAME GAS [WORD..]", "runs a block of this call, as a list has it; NAME is that of a program of a list or of a file",
         lambda client, given: client.typed.call(given), "name"),
    Form("store", "KEY [WORD..]", "runs a block that gives the key this value", lambda client, given: client.typed.store(given), "key"),
    Form("block", "", "begins a block of the calls and keys that follow", lambda client, given: client.typed.begin()),
    Form("run", "", "runs it", lambda client, given: client.typed.run()),
    Form("last", "", "what the last frame was answered", lambda client, given: client.last()),
    Form("get", "KEY", "the value at a key, such as key:alice, row:acct:key:alice or bytes in hex",
         lambda client, given: client.get(client.key_of(given[0])), "key"),
    Form("list", "[FROM] [COUNT]", f"the keys from FROM on, at most {MOST_KEYS:,}", run_list, "key"),
    Form("dump", "[OUT]", "the whole storage; with OUT it is written there for `begin`",
         lambda client, given: client.dump(path_of(given[0]) if given else None), "file"),
    Form("begin", "FILE [HEIGHT] [DIGEST]", "puts the storage of a dump in place of this one, with the height and digest of its session",
         run_begin, "file"),
    Form("state", "", "rules, height, keys, programs, settings and digest", lambda client, given: client.lines(Word.STATE)),
    Form("program", "FILE", "sends a program, and prints its hash; calls name NAME.elf by NAME", lambda client, given: client.program(path_of(given[0])), "file"),
    Form("programs", "", "the hashes of all programs", lambda client, given: client.lines(Word.PROGRAMS)),
    Form("forget", "PROGRAM", "frees a program, by its hash or its file", run_forget, "file"),
)
"""The requests, in the order of the help. `help` and `q` are beside them."""
BY_WORD = {form.word: form for form in FORMS}


def help_lines() -> Iterator[str]:
    width = max(len(form.text) for form in FORMS)
    for text, help_ in (*((form.text, form.help) for form in FORMS), (HELP, "these lines"), (QUIT, "ends the session")):
        yield f"{text:<{width}}  {help_}"


def answer_lines(client: Client, line: str) -> Iterator[str]:
    lists.check_encoding(line)
    word, *given = words.words_of(line) or ["#"]
    if word == "#":
        return iter(())
    if word == HELP:
        return help_lines()
    if word not in BY_WORD:
        raise UserError(f"{word}: not a request; `{HELP}` lists them")
    BY_WORD[word].check(given)
    return BY_WORD[word].run(client, given)


class Completion:
    def __init__(self, client: Client) -> None:
        self.client = client
        self.found: list[str] = []

    def word_of(self, key: Key) -> str:
        """A word that says a key: that of a list, or by its text, or in hex."""
        word, text = self.client.view.word_of_key(key), views.text_of(key)
        return f"key:{text}" if text and word == key.hex() else word

    def candidates(self, before: str, word: str) -> Iterable[str]:
        """What a word may be, after the rest of the line before it."""
        given = before.split()
        if not given:
            texts = [f"{form.word} " if form.arguments else form.word for form in FORMS]
            return [text for text in (*texts, HELP, QUIT) if text.startswith(word)]
        kind = BY_WORD[given[0]].completes if given[0] in BY_WORD else ""
        if kind == "file":
            return [f"{path}/" if Path(path).is_dir() else path for path in sorted(glob.glob(f"{glob.escape(word)}*"))]
        if kind == "name":
            return sorted(f"{name} " for name in self.client.programs if name.startswith(word) and len(given) == 1)
        if kind == "key":
            named = {self.word_of(key) for key in self.client.keys} | set(self.client.view.names.values())
            return sorted(name for name in named if name.startswith(word))
        return []

    def complete(self, word: str, number: int) -> str | None:
        """The candidate of this number, or None after the last one."""
        if number == 0:
            self.found = list(self.candidates(readline.get_line_buffer()[: readline.get_begidx()], word))
        return self.found[number] if number < len(self.found) else None


def set_readline(client: Client) -> None:
    readline.set_completer_delims(" \t\n")
    readline.set_completer(Completion(client).complete)
    readline.parse_and_bind("tab: complete")


def typed_lines(source: TextIO, *, is_terminal: bool) -> Iterator[str]:
    """The lines of a terminal, by readline, or of a file, up to its end or a line `q`."""
    while True:
        try:
            line = input(PROMPT) if is_terminal else next(source).rstrip("\n")
        except (EOFError, StopIteration):
            return
        if line.strip() == QUIT:
            return
        if line.strip():
            yield line

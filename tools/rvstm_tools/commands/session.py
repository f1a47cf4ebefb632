import argparse
import io
import sys
from collections.abc import Callable, Iterator
from dataclasses import dataclass
from pathlib import Path

from rvstm_tools import errors, options
from rvstm_tools.errors import MisuseError, Status, UserError
from rvstm_tools.options import Command, argument
from rvstm_tools.programs import finding
from rvstm_tools.sessions import answers, typed
from rvstm_tools.sessions.clients import FIRST_KEY, Client, FrameFile, read_frames
from rvstm_tools.sessions.processes import LONGEST_FRAME, Session, Settings
from rvstm_tools.sessions.replays import Replay
from rvstm_tools.sessions.requests import Word
from rvstm_tools.texts import lists, words
from rvstm_tools.texts.views import View

SETTING = options.number(0, 9_999_999_999, "a setting")
DETAILS = f"""\
It starts `rvstm chain`, and sends the programs of each LIST (`rvstm-tools block --help`). Then it runs a frame for each block of a
LIST, over the storage that the ones before it left, and prints the result as a table. A line `store` of a LIST sets its key again
each time. Lines `expect` that are not met are printed below (`rvstm-tools test --help`); what they say of all keys is of the storage
of the session. After the lists it does what the options ask for, in their order. Put the lists
first. Keys and values are printed by the words and shapes of all lists.

A block file may be in place of a LIST. Its programs are named by their paths, or by the SHA-256 of their files.

Without a LIST and without such an option it reads requests from standard input, a line for each:

{''.join(f"    {line}{chr(10)}" for line in typed.help_lines())}
On a terminal the tab key completes requests, files and keys, and the arrow keys go back to earlier lines.

--replay sends the frames of FOLDER again: its files {', '.join('NAME' + ending for ending in ('.frame', '.block', '.list'))}, in the order of their names, after
its programs NAME.elf. The digest after each is compared with that in NAME.frame.digest. The first one that differs ends the run.

With --store the session is kept in a file, and continues from it: `rvstm-tools session --store FILE --state` reads it. With
--shapes LIST its values are shown by their fields, and typed calls name the programs of LIST.
Without --store the session is in memory, and ends with this command. A FILE belongs to the settings that it was made with.

The status is 0 if all is done, 1 if a request is refused, a line is not met or a digest differs, and 2 for a wrong command line."""


@dataclass(frozen=True)
class Asked:
    """What an option asks for, as the line that is printed above the answer, and what answers it."""

    title: str
    answer: Callable[[Client], Iterator[str]]


def get_of(word: str) -> Asked:
    words.key_of(word)
    return Asked(f"get {word}", lambda client: client.get(client.key_of(word)))


def list_of(word: str) -> Asked:
    key = words.key_of(word) if word else FIRST_KEY
    return Asked(f"list {word}".rstrip(), lambda client: client.list(key))


def frame_of(file: FrameFile) -> Asked:
    return Asked(f"frame {file.path}", lambda client: client.run(Word.FRAME, file))


def dump_of(word: str) -> Asked:
    out = Path(word) if word else None
    return Asked(f"dump {word}".rstrip(), lambda client: client.dump(out))


STATE = Asked("state", lambda client: client.lines(Word.STATE))
LAST = Asked("last", lambda client: client.last())


def settings_of(given: argparse.Namespace) -> Settings:
    return Settings(given.frame_limit, given.frame_gas, True, given.brief, given.workers, given.store)


def run(given: argparse.Namespace) -> int:
    if given.write and not given.replay:
        raise MisuseError("--write: it needs --replay")
    if given.replay and given.lists:
        raise MisuseError("--replay: its frames are those of the folder, so no LIST may be given")
    program = finding.chosen(options.program_choice(given), "session")
    with Session(program.path, settings_of(given)) as session:
        client = Client(session, View())
        for path in given.shapes:
            client.take_list(path, lists.read_list(str(path)))
        status = answer_all(client, given)
        ended = session.end()
    if ended.status:
        raise UserError(ended.said() or f"the session ended with status {ended.status}")
    if ended.output:
        raise UserError(f"the session wrote more than its answers: {ended.output[:answers.SHOWN_OF_WRONG_LINE]!r}")
    return status


def answer_all(client: Client, given: argparse.Namespace) -> int:
    if not (given.lists or given.asked or given.replay):
        return answer_typed(client)
    if given.replay:
        for line in Replay(given.replay).sent(client, is_write=given.write):
            print(line, flush=True)
    for file in list(map(read_frames, given.lists)):  # all are read first: a wrong line ends it before a frame
        with lists.named(str(file.path)):
            show(client, frame_of(file))
    for asked in given.asked:
        show(client, asked)
    return Status.FAILED if client.missed else Status.DONE


def show(client: Client, asked: Asked) -> None:
    lines = asked.answer(client)
    print(asked.title)
    for line in lines:
        print(line)
    sys.stdout.flush()


def answer_typed(client: Client) -> int:
    """Answers what is typed, or comes from a file. On a terminal a wrong line changes no status."""
    is_terminal = sys.stdin.isatty()
    if isinstance(sys.stdin, io.TextIOWrapper):
        sys.stdin.reconfigure(errors="surrogateescape")  # so that a line that is no text is refused alone
    if is_terminal:
        typed.set_readline(client)
        print(f"`{typed.HELP}` lists the requests; the tab key completes")
    client.state()  # a session that does not begin says so at once
    status = Status.DONE
    for line in typed.typed_lines(sys.stdin, is_terminal=is_terminal):
        try:
            for text in typed.answer_lines(client, line):
                print(text, flush=True)
        except (UserError, OSError) as error:
            print(f"session: {errors.reason(error)}", file=sys.stderr, flush=True)
            status = status if is_terminal else Status.FAILED
            if client.session.process.poll() is not None:
                return Status.FAILED
    if client.typed.size():
        raise UserError("the last block was not run: `run` is missing")
    return Status.FAILED if client.missed and not is_terminal else status


COMMAND = Command(
    summary="Runs frames in a session of `rvstm chain`, and asks it.",
    details=DETAILS,
    example="rvstm-tools session --store ledger votes.list --get key:alice --state",
    run=run,
    arguments=(
        options.add_program,
        argument("lists", nargs="*", type=Path, metavar="LIST", help="a list or a block file, which is run as a frame"),
        argument(
            "--get", dest="asked", action="append", default=[], type=options.checked(get_of), metavar="KEY",
            help="the value at a key, which a word of a list says; it may be given again, as each of the next four",
        ),
        argument(
            "--list", dest="asked", action="append", nargs="?", const=list_of(""), type=options.checked(list_of), metavar="FROM",
            help="the keys from FROM on, at most 1,024; without FROM from the first one",
        ),
        argument("--state", dest="asked", action="append_const", const=STATE, help="rules, height, keys, programs, settings and digest"),
        argument(
            "--dump", dest="asked", action="append", nargs="?", const=dump_of(""), type=dump_of, metavar="OUT",
            help="the whole storage; with OUT it is written there, as `begin` takes it",
        ),
        argument("--last", dest="asked", action="append_const", const=LAST, help="what the last frame was answered"),
        argument(
            "--shapes", action="append", type=Path, default=[], metavar="LIST",
            help="shows keys and values by the words and shapes of a list, and runs nothing of it; it may be given again",
        ),
        argument("--replay", type=Path, metavar="FOLDER", help="sends the frames of a folder again, and compares digests"),
        argument("--write", action="store_true", help="with --replay: writes the digests in place of comparing them"),
        argument("--store", metavar="FILE", help="the file that the session is kept in; without it the session is in memory"),
        argument("--frame-limit", type=SETTING, default=LONGEST_FRAME, metavar="BYTES", help="the most bytes of a frame"),
        argument("--frame-gas", type=SETTING, metavar="N", help="the most gas of all calls of a frame"),
        argument("--workers", type=int, choices=range(1, 33), metavar="N", help="runs calls on so many threads if that pays"),
        argument("--brief", action="store_true", help="answers have no lines `regs`; they are not printed here anyway"),
    ),
)

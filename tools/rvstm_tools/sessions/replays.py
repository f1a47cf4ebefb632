"""Frames of a folder that are sent again, and the digests that are compared after each of them."""

from collections.abc import Iterator
from dataclasses import dataclass
from pathlib import Path

from rvstm_tools.errors import UserError
from rvstm_tools.sessions.answers import State
from rvstm_tools.sessions.clients import Client, read_frames
from rvstm_tools.sessions.requests import Request, Word

OF_FRAMES = (".frame", ".block", ".list")
OF_PROGRAMS, OF_DIGESTS = ".elf", ".digest"


@dataclass(frozen=True)
class Replay:
    """A folder of frames. They are sent in the order of their names, after all programs of the folder."""

    folder: Path

    def files(self, *endings: str) -> list[Path]:
        return sorted(path for path in self.folder.iterdir() if path.suffix in endings)

    def frames(self) -> list[Path]:
        """The files of the frames, of which there is one at least."""
        found = self.files(*OF_FRAMES)
        if not found:
            raise UserError(f"{self.folder}: no file in it ends with {' or '.join(OF_FRAMES)}")
        return found

    def sent(self, client: Client, *, is_write: bool) -> Iterator[str]:
        """Sends all frames to a new session. The lines say what each was answered. The first digest that differs is an error; with
        `is_write` the digests are written in place of that."""
        paths = self.frames()
        if height := client.state().height:
            raise UserError(f"the session is at height {height}: a replay begins a new one")
        for program in self.files(OF_PROGRAMS):
            client.body(Request(Word.PROGRAM, (), program.read_bytes()))
        for path in paths:
            wanted = None if is_write else digest_in(digest_file_of(path))
            file = read_frames(path)
            if file.test:
                client.take_list(path, file.test.file)
            for named in file.frames:
                for request in named.programs():
                    client.body(request)
                answer = client.answer(named.frame()).said
            digest = digest_of(client.state())
            if wanted is None:
                digest_file_of(path).write_text(f"{digest}\n", encoding="ascii")
            elif digest != wanted:
                raise UserError(f"{path}: answered `{answer}`, and the digest is {digest}; {digest_file_of(path)} has {wanted}")
            yield f"{path}: {answer}, digest {digest}"


def digest_file_of(path: Path) -> Path:
    return path.with_name(f"{path.name}{OF_DIGESTS}")


def digest_in(path: Path) -> str:
    """The digest of a file, 64 digits in hex. A UserError if it has another text, or is not there."""
    try:
        text = path.read_text(encoding="ascii", errors="backslashreplace").strip()
    except FileNotFoundError:
        raise UserError(f"{path}: not there; --write makes it") from None
    if len(text) != 64 or set(text) - set("0123456789abcdef"):
        raise UserError(f"{path}: a digest is 64 digits in hex, in small letters")
    return text


def digest_of(state: State) -> str:
    assert state.digest is not None
    return state.digest.hex()

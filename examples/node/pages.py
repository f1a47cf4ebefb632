"""The page of the node: the last blocks, how their calls ended, and which of them waited for which."""

import tempfile
import threading
import time
from collections.abc import Iterator, Mapping, Sequence
from dataclasses import dataclass, field
from html import escape
from pathlib import Path

from rvstm_tools import errors
from rvstm_tools.errors import UserError
from rvstm_tools.pictures.waits import Picture
from rvstm_tools.programs.running import Program
from rvstm_tools.texts import conflicts, shown
from rvstm_tools.texts.results import Receipt
from rvstm_tools.texts.views import View

SHOWN_CALLS = 12  # of a block
SHOWN_OF_ACCOUNT = 8  # digits
STYLE = """
body { font: 15px/1.4 sans-serif; color: #1f2933; background: #eef1f4; margin: 0 auto; padding: 16px 24px }
body { max-width: 1248px } h1 { font-size: 24px; margin: 8px 0 }
p { margin: 4px 0 } code { font-size: 13px }
section { background: white; border: 1px solid #cdd5dd; border-radius: 6px; padding: 16px; margin: 16px 0 }
svg { display: block; margin: 0 -16px }
table { border-collapse: collapse; margin-top: 8px } th { text-align: left } th, td { padding: 2px 20px 2px 0 }
td.number, th.number { text-align: right } .other { color: #b3261e }
"""


DRAWING = threading.Lock()  # of the pictures: one is drawn at a time


@dataclass
class Shown:
    """A block of the page: its file over what its calls read, who sent them, their receipts, and the picture."""

    height: int
    file: bytes
    senders: Sequence[bytes]
    receipts: Sequence[Receipt]
    ran_at: float = field(default_factory=time.time)  # seconds since 1970
    drawn: str = ""

    def picture(self, program: Program, programs: Mapping[str, bytes]) -> str:
        """Which calls wait for which, or why there is no picture. `programs` are files by the paths in the block."""
        title = f"Block {self.height}, {time.strftime('%H:%M:%S', time.gmtime(self.ran_at))} UTC"
        with DRAWING:
            try:
                self.drawn = self.drawn or Picture(title, waits_in(self.file, program, programs), View()).svg()
            except (UserError, OSError) as error:
                return f"<p>{title}: no picture: {escape(errors.reason(error))}</p>"
            return self.drawn


def waits_in(block: bytes, program: Program, programs: Mapping[str, bytes]) -> conflicts.Conflicts:
    """Which calls of a block file wait for which."""
    with tempfile.TemporaryDirectory() as place:
        for name, file in {"block": block, **programs}.items():
            (Path(place) / name).write_bytes(file)
        printed = program.run(["conflicts", "block"], Path(place))
    if printed.refusal:
        raise UserError(printed.refusal)
    return conflicts.conflicts_of(printed.text)


def page_of(sections: Sequence[str], state: str, ledger: str, program: str, fault: str) -> str:
    """The page. The browser asks for it again every two seconds."""
    said = dict(line.split(" ") for line in state.splitlines())
    body = "\n".join(sections) or "<section>No block has run since the node started.</section>"
    return f"""<!doctype html>
<html lang="en"><head><meta charset="utf-8"><meta http-equiv="refresh" content="2">
<title>rvstm node, height {said["height"]}</title><style>{STYLE}</style></head><body>
<h1>Height {said["height"]}, {int(said["keys"]):,} keys</h1>
<p class="other">{escape(fault)}</p>
<p>ledger <code>{escape(ledger)}</code></p>
<p>program <code>{escape(program)}</code></p>
<p>digest <code>{escape(said["digest"])}</code></p>
<p>A bar is a call, as wide as its gas. Calls one below the other can run side by side;
a line leads from a call to one that waits for it.</p>{body}
</body></html>
"""


def section_of(block: Shown, picture: str) -> str:
    """What the page says of a block."""
    rows, left = "\n".join(row_lines(block)), len(block.receipts) - SHOWN_CALLS
    more = f"<p>and {left} more</p>" if left > 0 else ""
    return f"""<section>{picture}
<table><tr><th class="number">call</th><th>sender</th><th>end</th><th class="number">gas</th><th>output</th></tr>
{rows}</table>{more}</section>"""


def row_lines(block: Shown) -> Iterator[str]:
    """The rows of the table of calls."""
    for sender, receipt in list(zip(block.senders, block.receipts))[:SHOWN_CALLS]:
        output = shown.shown_bytes(receipt.output).split("  ")[-1]  # the number or the text that it may be
        kind = "" if receipt.end == "returned" else ' class="other"'
        yield (
            f'<tr><td class="number">{receipt.number}</td><td><code>{sender.hex()[:SHOWN_OF_ACCOUNT]}..</code></td>'
            f'<td{kind}>{receipt.end}</td><td class="number">{receipt.gas:,}</td><td>{escape(output)}</td></tr>'
        )

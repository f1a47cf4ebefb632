"""What a page consists of: text and blocks of code, headings and links."""

import re
from collections.abc import Iterator
from dataclasses import dataclass
from pathlib import Path

INDENT = "    "
FENCE = "```"
PROMPT = "$ "
HEADING = re.compile(r"^#{1,6} +(.+?) *#*$")
LINK = re.compile(r"\]\(([^()\s]+)\)")


@dataclass(frozen=True)
class PageLine:
    """A line of a page. `text` is without the indent of a block of code."""

    text: str
    is_code: bool
    is_fenced: bool = False

    @property
    def is_command(self) -> bool:
        """Whether it may be a command: in a fenced block only after the prompt."""
        return self.is_code and (not self.is_fenced or self.text.startswith(PROMPT))


def lines_of(text: str) -> Iterator[PageLine]:
    """The lines of a page, without those that begin or end a fenced block."""
    is_fenced = False
    for line in text.splitlines():
        if line.startswith(FENCE):
            is_fenced = not is_fenced
        elif is_fenced:
            yield PageLine(line, is_code=True, is_fenced=True)
        else:
            is_code = line.startswith(INDENT)
            yield PageLine(line.removeprefix(INDENT) if is_code else line, is_code)


def anchor_of(heading: str) -> str:
    """The anchor of a heading, as GitHub makes it."""
    plain = re.sub(r"\[([^\]]*)\]\([^)]*\)", r"\1", heading).replace("`", "")
    return re.sub(r"[^\w\- ]", "", plain.lower()).replace(" ", "-")


def anchors_of(text: str) -> set[str]:
    """The anchors of a page. Of equal headings the second one gets `-1`, the third one `-2`."""
    found = dict[str, int]()
    anchors = set[str]()
    for line in lines_of(text):
        heading = None if line.is_code else HEADING.match(line.text)
        if heading:
            anchor = anchor_of(heading[1])
            count = found.get(anchor, 0)
            anchors.add(f"{anchor}-{count}" if count else anchor)
            found[anchor] = count + 1
    return anchors


def links_of(text: str) -> list[str]:
    return [link for line in lines_of(text) if not line.is_code for link in LINK.findall(line.text)]


def broken_links(page: Path, text: str) -> Iterator[str]:
    """The links of a page that lead to no file, or to no heading of a page. Addresses of the network are not tried."""
    for link in links_of(text):
        if re.match(r"\w+:", link):
            continue
        file, _, anchor = link.partition("#")
        to = page.parent / file if file else page
        if file and not to.exists():
            yield f"{page.name}: the link {link} leads nowhere"
        elif anchor and to.suffix == ".md" and anchor not in anchors_of(to.read_text(encoding="utf-8") if file else text):
            yield f"{page.name}: the link {link} leads to no heading"

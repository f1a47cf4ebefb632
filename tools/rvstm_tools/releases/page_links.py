"""The links of a page in a package: beside the other pages of the package, without the rest of the repository."""

import posixpath
import re
from collections.abc import Collection

LINK = re.compile(r"!?\[([^\[\]]*)\]\(([^()\s]+)\)")
ADDRESS = re.compile(r"\w+:")
INDENT = "    "


def target_of(page: str, link: str) -> str:
    """The path of the repository that a link of a page leads to, without its anchor; empty if it stays in the page or leaves the
    repository."""
    path = link.partition("#")[0]
    return "" if not path or ADDRESS.match(link) else posixpath.normpath(posixpath.join(posixpath.dirname(page), path))


def in_package(page: str, text: str, pages: Collection[str]) -> str:
    """The text of a page, if a package has these pages in one folder. A link to one of them leads there. Of any other file the text
    names the path in the repository."""

    def linked(match: re.Match[str]) -> str:
        label, link = match[1], match[2]
        target = target_of(page, link)
        if not target or text[text.rfind("\n", 0, match.start()) + 1 :].startswith(INDENT):
            return match[0]
        if target in pages:
            return f"[{label}]({posixpath.basename(target)}{''.join(link.partition('#')[1:])})"
        return f"{label} ({target})"

    return LINK.sub(linked, text)

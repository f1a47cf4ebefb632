"""A book for auditors as one HTML page: each name in a definition is a link to what it refers to."""

import re
from collections import defaultdict
from collections.abc import Iterable, Iterator, Mapping
from dataclasses import dataclass, field
from html import escape
from pathlib import Path

from checks import book, citations, definitions, reading, sources
from checks.book import Book, BookEntry, Names
from checks.citations import CitationPlace, Cited
from checks.definitions import Type
from checks.reading import AskedCall, ReadingRow

TOKEN = re.compile(r"[^\s(){}\[\];,λ]+")
RUST_WORD = re.compile(r"\b([A-Z]\w*)\b")
FIELD = re.compile(r"[{;]\s*$")
STYLE = Path(__file__).with_name("book.css")


def anchor(cited: Cited) -> str:
    place = reading.module_of(cited).library + "." + reading.module_of(cited).name if cited.kind is CitationPlace.KIT else f"{cited.place}.{cited.name}"
    return f"{cited.kind.value}-{re.sub(r'[^0-9A-Za-z_.◌]+', '-', place)}" + ("" if place.isascii() else f"-{abs(sum(map(ord, place)))}")


def file_anchor(file: str) -> str:
    return f"file-{file.replace('/', '-')}"


@dataclass
class Page:
    """A page in the making: the book, and which definitions and types of it cite which."""

    held: Book
    citing: dict[Cited, list[Cited]] = field(default_factory=lambda: defaultdict(list))

    def __post_init__(self) -> None:
        for row in self.held.reading.rows:
            for entry in book.entries_of(row):
                for other in citations.citations(entry.cited):
                    self.citing[other].append(entry.cited)

    # ---- links

    def link(self, cited: Cited, text: str) -> str:
        """A text, as a link if the book has what it refers to."""
        if cited not in self.held.reading.cited:
            return escape(text)
        kind = {CitationPlace.KIT: "kit", CitationPlace.TYPE: "type", CitationPlace.DEFINITION: "definition"}[cited.kind]
        where = f"{reading.module_of(cited).library} {reading.module_of(cited).name}" if cited.kind is CitationPlace.KIT else cited.place
        return f'<a class="{kind}" href="#{anchor(cited)}" title="{escape(where)}">{escape(text)}</a>'

    def linked_token(self, token: str, names: Mapping[str, Cited]) -> str:
        """A word of a definition: a name, a name with a field of its value, or a name of a module with a short name."""
        core = token.rstrip(".")
        rest = token[len(core) :]
        parts = core.split(".")
        for count in (len(parts), 2, 1):
            begin = ".".join(parts[:count])
            if begin in names:
                return self.link(names[begin], begin) + escape(core[len(begin) :] + rest)
        return escape(token)

    def linked_line(self, line: str, names: Mapping[str, Cited]) -> str:
        """A line of a definition with its links; its comment is not searched for names."""
        code, dashes, note = line.partition("--")
        out, end = list[str](), 0
        for match in TOKEN.finditer(code):
            out.append(escape(code[end : match.start()]))
            is_field = FIELD.search(code[: match.start()]) and code[match.end() :].startswith(" = ")
            out.append(escape(match[0]) if is_field else self.linked_token(match[0], names))
            end = match.end()
        out.append(escape(code[end:]))
        return "".join(out) + (f'<span class="note">{escape(dashes + note)}</span>' if dashes else "")

    def linked(self, text: str, names: Mapping[str, Cited]) -> str:
        return "\n".join(self.linked_line(line, names) for line in text.splitlines())

    def linked_code(self, text: str, types: Mapping[str, Cited], names: Mapping[str, Cited]) -> str:
        """A text of the code with links: names of types, and in `ghost` lines and clauses names of definitions."""
        out = list[str]()
        for line in text.splitlines():
            if line.strip().startswith("//"):
                out.append(f'<span class="note">{escape(line)}</span>')
            elif re.match(r" *(?:pub )?(?:ghost|requires|ensures)\b", line):
                out.append(self.linked_line(line, names))
            else:
                out.append(self.linked_types(line, types))
        return "\n".join(out)

    def linked_types(self, line: str, types: Mapping[str, Cited]) -> str:
        return "".join(self.link(types[part], part) if part in types else escape(part) for part in RUST_WORD.split(line))

    # ---- parts

    def contract(self, asked: AskedCall) -> Iterator[str]:
        call = asked.call
        text = "\n".join(line for line in book.contract_of(asked).splitlines() if not line.startswith("///"))
        names = by_word(citations.names_in(call.path, sources.without_comments(text)))
        types = citations.code_names(call.path, sources.without_comments(text))
        yield f'<section class="entry"><p class="quiet">{escape(sources.shown(call.path))}, line {call.line}</p>'
        yield f"<p>{prose(' '.join(call.comment))}</p><pre>{self.linked_code(text, types, names)}</pre></section>"

    def file(self, number: int, row: ReadingRow) -> Iterator[str]:
        lines = f"{row.read} of {row.lines} lines" if row.rest else f"{row.lines} lines"
        yield f'<h2 id="{file_anchor(row.file)}">{number}&ensp;{escape(row.file)}</h2>'
        yield f'<p>{prose(" ".join(definitions.head_comment(row.file)))} <span class="quiet">({lines})</span></p>'
        for entry in book.entries_of(row):
            yield from self.entry(entry)
        if row.rest:
            left = ", ".join(f"<code>{escape(name)}</code>" for name in row.rest)
            yield f'<p class="quiet">{escape(book.LEFT_OUT)}{left}</p>'

    def entry(self, entry: BookEntry) -> Iterator[str]:
        """A definition: its comment as text, its lines, and what uses it."""
        lines = entry.text.splitlines()
        notes = [line.removeprefix("--").strip() for line in lines if line.startswith("--")]
        code = "\n".join(line for line in lines if not line.startswith("--"))
        path = sources.CRATES / entry.cited.place
        names = by_word(citations.names_in(path, sources.without_comments(code)))
        names |= by_word({name: {cited} for name, cited in citations.own_names(entry.cited).items()})
        yield f'<section class="entry" id="{anchor(entry.cited)}">'
        yield f"<p>{prose(' '.join(notes))}</p>" if notes else ""
        yield f"<pre>{self.linked(code, names)}</pre>{self.users(entry.cited)}</section>"

    def users(self, cited: Cited) -> str:
        users = self.citing.get(cited, [])
        links = ", ".join(self.link(user, user.name) for user in users)
        return f'<p class="quiet">used by {links}</p>' if users else ""

    def type(self, held: Type) -> Iterator[str]:
        cited = Cited(CitationPlace.TYPE, held.crate, held.name)
        ghost = "\n".join([*held.model.values(), *re.findall(r"ghost .*", held.code)])
        names = by_word(citations.names_in(held.path, sources.without_comments(ghost)))
        types = citations.code_names(held.path, held.code)
        yield f'<section class="entry" id="{anchor(cited)}"><h3>{held.kind.value} {escape(held.name)}</h3>'
        yield f'<p>{prose(" ".join(held.comment))} <span class="quiet">{escape(sources.shown(held.path))}, line {held.line}</span></p>'
        yield f"<pre>{self.linked_code(held.text, types, names)}</pre>"
        seen = "".join(f"<dt>{escape(words)}</dt><dd><pre>{self.linked(text, names)}</pre></dd>" for words, text in book.seen_of(held))
        yield (f"<dl>{seen}</dl>" if seen else "") + self.users(cited) + "</section>"

    def kit(self, names: Names) -> Iterator[str]:
        module = names.module
        cited = next(cited for cited in self.held.reading.cited if cited.kind is CitationPlace.KIT and reading.module_of(cited) == module)
        file = reading.kit_file(module)
        yield f'<section class="entry" id="{anchor(cited)}"><h3>{escape(module.library)} {escape(module.name)}</h3>'
        yield f'<p class="quiet">{escape(str(file))}</p>' if file else ""
        yield f"<p>{', '.join(f'<code>{escape(name)}</code>' for name in names.names)}</p></section>"

    def contents(self) -> Iterator[str]:
        held = self.held.reading
        yield '<nav><h2>The clauses</h2><ul><li><a href="#top">the contract</a></li></ul><h2>Definitions</h2><ol>'
        for number, row in enumerate(held.rows, 1):
            yield f'<li><a href="#{file_anchor(row.file)}">{number} {escape(short_name(row.file))}</a><span>{row.read}</span></li>'
        yield f"<li><b>together</b><span>{held.lines:,}</span></li></ol>"
        yield "<h2>Types of the code</h2><ul>" if held.types else ""
        for entry in held.types:
            place = anchor(Cited(CitationPlace.TYPE, entry.crate, entry.name))
            yield f'<li><a href="#{place}">{escape(entry.name)}</a><span>{entry.crate}</span></li>'
        yield "</ul>" if held.types else ""
        yield '<h2>Of the kit</h2><ul><li><a href="#kit">modules</a></li></ul></nav>' if held.modules else "</nav>"

    def parts(self) -> Iterator[str]:
        held = self.held.reading
        yield from self.contents()
        yield f'<main id="top"><h1>{escape(self.held.title)}</h1><p class="quiet">{self.held.summary}. Each file comes after those that it uses.</p>'
        yield (
            '<p class="quiet key">Links: <a class="definition" href="#top">definitions</a>, <a class="type" href="#top">types of the code</a>, '
            '<a class="kit" href="#kit">names of the kit</a>.</p>'
        )
        for asked in held.asked:
            yield from self.contract(asked)
        for number, row in enumerate(held.rows, 1):
            yield from self.file(number, row)
        yield "<h2>Types of the code</h2>" if held.types else ""
        for entry in held.types:
            yield from self.type(entry)
        yield '<h2 id="kit">Of the kit</h2>' if held.modules else ""
        for names in self.held.kit:
            yield from self.kit(names)
        yield "</main>"


def by_word(names: Mapping[str, Iterable[Cited]]) -> dict[str, Cited]:
    """What the words of a text refer to. A name with arguments in its middle, such as `◌∷◌`, is the words between."""
    found = dict[str, Cited]()
    for name, entries in names.items():
        for cited in entries:
            words = citations.parts_of_name(name) if "◌" in name else [name]
            for word in [*words, "←"] if name == citations.BIND else words:
                found.setdefault(word, cited)
    return found


def short_name(file: str) -> str:
    """A file of definitions in the list at the side: its crate and its own name."""
    crate, _, name = file.removesuffix(".antt").partition("/specs/")
    return f"{crate} {name}"


def prose(text: str) -> str:
    return re.sub(r"`([^`]+)`", r"<code>\1</code>", escape(text))


def page_of(made: Book) -> str:
    body = "\n".join(part for part in Page(made).parts() if part)
    return f"""<!DOCTYPE html>
<html lang="en">
<head>
<meta charset="utf-8">
<meta name="viewport" content="width=device-width, initial-scale=1">
<title>{escape(made.title)}</title>
<style>
{STYLE.read_text(encoding="utf-8")}</style>
</head>
<body>
{body}
</body>
</html>
"""

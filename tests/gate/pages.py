"""The blocks of the pages that have a command and its output: each is run, and what it prints is compared.

In a block the lines that begin with `$ ` are commands, and those after a command are what it prints. `..` and `[...]` match what is
cut: some text of a line, or, if it is the whole line, any number of lines. A block that begins with `cd` begins in the folder that has
the examples; any other one continues in the folder of the block before it. A block after a comment `<!-- not run: WHY -->` is not run.
A comment `<!-- the page needs: TOOLS -->` is of all blocks of its page.
"""

import dataclasses
import os
import re
import shutil
import subprocess
from collections.abc import Iterator, Sequence
from dataclasses import dataclass
from pathlib import Path

from gate.runner import TOP, Case, Differs, Lacks, Run, Tool, shown

PROMPT = "$ "
MARKER = re.compile(r"<!-- (not run|needs): (.+) -->")
OF_PAGE = re.compile(r"^<!-- the page needs: (.+) -->$", re.M)
REASONS = ("the network", "root", "an editor", "a compiler that may be missing", "more than 20 seconds")
BUILT = "the built program"
MOST_MARKED = 5
"""One block of so many may be marked."""
SECONDS_A_BLOCK = 20
COPIED = ("examples",)
"""What commands of pages write into; the rest is the checkout's."""
CUT, CLEAR_CUT = "..", "[...]"
"""What is cut; the second is clear if a tool prints the first."""


@dataclass(frozen=True)
class PageStep:
    """A command, which may have several lines, and the lines that it prints."""

    command: str
    printed: tuple[str, ...]


@dataclass(frozen=True)
class PageBlock:
    """A block of a page that has a command and its output."""

    page: str
    line: int
    steps: tuple[PageStep, ...]
    reason: str = ""
    """Why it is not run; empty if it is."""
    needs: tuple[Tool, ...] = ()
    needs_speed: bool = False
    """It takes minutes over the unproved program."""

    @property
    def name(self) -> str:
        return f"{self.page}:{self.line}"


def page_files() -> list[Path]:
    others = ("bench/README.md", "examples/cluster/README.md")
    return [TOP / "README.md", TOP / "CONTRIBUTING.md", *sorted((TOP / "docs").glob("*.md")), *(TOP / name for name in others)]


def code_blocks(lines: Sequence[str]) -> Iterator[tuple[int, list[str]]]:
    """The indented and the fenced blocks of a page: the number of the first line, and the lines without indent."""
    number, size = 0, len(lines)
    while number < size:
        line = lines[number]
        if line.startswith("```"):
            end = next((n for n in range(number + 1, size) if lines[n].startswith("```")), size)
            yield number + 2, list(lines[number + 1 : end])
            number = end + 1
        elif line.startswith("    ") and (number == 0 or not lines[number - 1].strip()):
            end = number
            while end < size and (lines[end].startswith("    ") or not lines[end].strip()):
                end += 1
            block = [text[4:] for text in lines[number:end]]
            while not block[-1].strip():
                block.pop()
            yield number + 1, block
            number = end
        else:
            number += 1


def steps_of(lines: Sequence[str]) -> tuple[PageStep, ...]:
    """The commands of a block with what they print. A line that ends with `\\`, or a text after `<<'END'`, belongs to its command."""
    steps: list[tuple[list[str], list[str]]] = []
    ending, goes_on = "", False
    for line in lines:
        if ending or goes_on:
            steps[-1][0].append(line)
            ending = "" if ending and line == ending else ending
            goes_on = not ending and line.endswith("\\")
        elif line.startswith(PROMPT):
            steps.append(([line.removeprefix(PROMPT)], []))
            here = re.search(r"<<'(\w+)'", line)
            ending, goes_on = here[1] if here else "", line.endswith("\\")
        elif steps:
            steps[-1][1].append(line)
    return tuple(PageStep("\n".join(command), tuple(printed)) for command, printed in steps)


def marker_before(lines: Sequence[str], number: int) -> tuple[str, str]:
    """The kind and the text of the comment before the line with this number."""
    above = number - 2
    while above >= 0 and (not lines[above].strip() or lines[above].startswith("```")):
        above -= 1
    found = MARKER.fullmatch(lines[above].strip()) if above >= 0 else None
    return (found[1], found[2]) if found else ("", "")


def tools_of(words: Sequence[str]) -> tuple[Tool, ...]:
    """The tools that a comment names."""
    return tuple(tool for tool in Tool if tool.name.lower() in words)


def needs_of_page(text: str) -> tuple[Tool, ...]:
    """The tools that all blocks of a page need."""
    found = OF_PAGE.search(text)
    return tools_of(found[1].split(", ")) if found else ()


def blocks_of(page: str, text: str) -> list[PageBlock]:
    """The blocks of a page that have a command and its output, and the commands that such blocks continue."""
    lines, found = text.splitlines(), []
    for number, block in code_blocks(lines):
        if any(line.startswith(PROMPT) for line in block):
            kind, value = marker_before(lines, number)
            words = value.split(", ") if kind == "needs" else []
            found.append(PageBlock(page, number, steps_of(block), value if kind == "not run" else "", tools_of(words), BUILT in words))
    return found


# ---- what is printed


def line_pattern(line: str) -> str:
    return ".*".join(re.escape(part) for part in line.split(CUT))


def first_difference(wanted: Sequence[str], came: Sequence[str]) -> str:
    """How lines that came differ from those of a page; empty if they do not."""
    wanted, came = trimmed([line.replace(CLEAR_CUT, CUT) for line in wanted]), trimmed(came)
    reached = {0}  # how many lines of `came` the lines of the page so far can match
    for number, line in enumerate(wanted):
        if line.strip() == CUT:
            after = set(range(min(reached), len(came) + 1))
        else:
            pattern = re.compile(line_pattern(line.rstrip()))
            after = {place + 1 for place in reached if place < len(came) and pattern.fullmatch(came[place].rstrip())}
        if not after:
            place = min(reached)
            other = shown(came[place]) if place < len(came) else "the end"
            return f"line {number + 1} of the output: came {other}; wanted {shown(line)}"
        reached = after
    if len(came) in reached:
        return ""
    return f"came {shown(came[min(reached)])} after the last line; wanted the end"


def trimmed(lines: Sequence[str]) -> list[str]:
    """Lines without the empty ones at the start and the end, which a page does not show."""
    kept = list(lines)
    while kept and not kept[-1].strip():
        kept.pop()
    while kept and not kept[0].strip():
        kept.pop(0)
    return kept


# ---- the shell


class Shell:
    """One shell for a page: folders and variables last from block to block."""

    def __init__(self, run: Run, tree: Path) -> None:
        self.tree, self.is_preview = tree, run.setting.is_preview
        path = f"{tree}/bin:{os.environ['PATH']}"
        environment = {**os.environ, "PATH": path, "RVSTM": str(run.program), "PS1": "", "LC_ALL": "C.UTF-8"}
        self.process = subprocess.Popen(
            ["bash", "--noprofile", "--norc"], cwd=tree, env=environment, stdin=subprocess.PIPE, stdout=subprocess.PIPE,
            stderr=subprocess.STDOUT, encoding="utf-8", errors="backslashreplace",
        )
        self.count = 0

    def printed(self, command: str) -> list[str]:
        """What a command prints, on both of its outputs."""
        assert self.process.stdin and self.process.stdout
        self.count += 1
        end = f"end of command {self.count} {os.getpid()}"
        self.process.stdin.write(f"{{ {command}\n}} </dev/null\nprintf '\\n%s\\n' '{end}'\n")
        self.process.stdin.flush()
        lines: list[str] = []
        for line in self.process.stdout:
            if line.rstrip("\n") == end:
                # The line before has no text, if the output ended with LF.
                if lines and not lines[-1]:
                    lines.pop()
                return lines
            lines.append(line.rstrip("\n"))
        raise Differs(f"came the end of the shell, after {shown(lines[-1] if lines else '')}; wanted the end of {shown(command)}")

    def block(self, block: PageBlock) -> None:
        """Runs a block, and compares what each of its commands prints."""
        if block.steps and block.steps[0].command.startswith("cd "):
            self.printed(f"cd {self.tree}")
        for step in block.steps:
            difference = first_difference(step.printed, self.printed(step.command))
            if difference:
                raise Differs(f"{block.name}: {step.command.splitlines()[0]}: {difference}")


def tree_of(run: Run) -> Path:
    """A tree as the checkout is, in which commands may write: the folders that they write into are copies."""
    tree = run.place / "tree"
    (tree / "bin").mkdir(parents=True)
    for part in TOP.iterdir():
        if part.name in COPIED:
            shutil.copytree(part, tree / part.name, ignore=shutil.ignore_patterns("*.lines.elf", "target"))
        elif part.name not in (".git", "crates"):
            (tree / part.name).symlink_to(part)
    (tree / "crates/rvstm/out").mkdir(parents=True)
    for path in (tree / "bin/rvstm", tree / "crates/rvstm/out/rvstm"):
        path.symlink_to(run.program)
    (tree / "bin/rvstm-tools").symlink_to(TOP / "tools/rvstm-tools")
    return tree


def missing(run: Run, block: PageBlock) -> list[str]:
    """What a block needs that is not there."""
    found = [tool.label for tool in block.needs if not tool.is_there()]
    return [*found, BUILT] if block.needs_speed and run.setting.is_preview else found


def run_page(run: Run, blocks: Sequence[PageBlock]) -> None:
    """Runs the blocks of a page in their order. Of one that is left out only the change of the folder is made."""
    shell, lacks = Shell(run, tree_of(run)), dict[str, None]()
    for block in blocks:
        lacking = missing(run, block)
        lacks |= dict.fromkeys(lacking)
        if block.reason or lacking:
            block = dataclasses.replace(block, steps=tuple(step for step in block.steps[:1] if step.command.startswith("cd ")))
        shell.block(block)
    if lacks:
        raise Lacks(f"{', '.join(lacks)} (the other blocks passed)")


def counted(run: Run, pages: dict[str, list[PageBlock]]) -> None:
    """How many blocks are run, and how many are marked: at most a fifth."""
    blocks = [block for found in pages.values() for block in found]
    for block in blocks:
        if block.reason and block.reason not in REASONS:
            raise Differs(f"{block.name}: came the reason {shown(block.reason)}; wanted one of {', '.join(REASONS)}")
    marked = [block for block in blocks if block.reason]
    run.note(f"{len(blocks) - len(marked)} blocks of the pages are run, {len(marked)} are marked")
    if len(marked) * MOST_MARKED > len(blocks):
        names = ", ".join(block.name for block in marked)
        raise Differs(f"came {len(marked)} marked blocks of {len(blocks)} ({names}); wanted a fifth at most")
    if not any(block.page == "README.md" and not block.reason for block in blocks):
        raise Differs("came no block of README.md; wanted one at least")


def cases() -> list[Case]:
    """A case for each page that has blocks, and one that counts them all."""
    pages: dict[str, list[PageBlock]] = {}
    needs: dict[str, tuple[Tool, ...]] = {}
    for file in page_files():
        name, text = str(file.relative_to(TOP)), file.read_text(encoding="utf-8")
        found = blocks_of(name, text)
        if found:
            pages[name], needs[name] = found, needs_of_page(text)

    def of(name: str, blocks: list[PageBlock]) -> Case:
        most = 1 + sum(not block.reason for block in blocks)
        return Case(f"pages: {name}", lambda run: run_page(run, blocks), needs[name], seconds=SECONDS_A_BLOCK * most, cost=3.0 * most)

    runnable = [of(name, blocks) for name, blocks in pages.items() if any(not block.reason for block in blocks)]
    return [Case("pages: blocks and marks", lambda run: counted(run, pages)), *runnable]

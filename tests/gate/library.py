"""The library for C: the examples in C, C++ and Python by the archive and by the shared object, its header, the names that it shows,
random sessions beside `rvstm chain`, and the crates in Rust."""

import ctypes
import hashlib
import re
from collections.abc import Sequence
from functools import partial
from pathlib import Path

from gate.calls import command, tool_words
from gate.outside import last_lines
from gate.runner import TOP, Case, Run, Tool, holds, same
from gate.texts import written

EMBED, TOKEN, INCLUDE = TOP / "examples/embed", TOP / "examples/token", TOP / "include"
COUNTER = TOP / "examples/counter/counter.elf"
STRICT = ("-Wall", "-Wextra", "-Wpedantic", "-Werror", f"-I{INCLUDE}")
VALGRIND = "valgrind -q --error-exitcode=9 --leak-check=full --errors-for-leak-kinds=definite,indirect,possible"
CARGO_TEST = ("/usr/bin/cargo", "test", "--offline", "--locked")
PAIRS = 3
"""Of random sessions, side by side in one process."""


def folder(run: Run) -> Path:
    """Where the library is."""
    assert run.setting.library
    return run.setting.library


def built(run: Run, compiler: Sequence[str], source: str, is_shared: bool) -> None:
    """An example is built without a warning, by the archive or the shared object, and prints embed.expect."""
    made = run.place / "program"
    links = [f"-L{folder(run)}", "-lrvstm"] if is_shared else [str(folder(run) / "librvstm.a")]
    done = command([*compiler, *STRICT, EMBED / source, *links, "-o", made])
    same((done.status, done.errors), (0, ""), "the compiler")
    prints(run, made, run.program)


def prints(run: Run, *words: str | Path) -> None:
    """A command prints embed.expect in the folder of the token."""
    done = command(words, TOKEN, more={"LD_LIBRARY_PATH": str(folder(run)), "PYTHONDONTWRITEBYTECODE": "1"})
    same(done.done(), (EMBED / "embed.expect").read_text(encoding="utf-8"))


def in_python(run: Run) -> None:
    prints(run, "python3", EMBED / "embed.py", folder(run) / "librvstm.so", run.program)


def header(run: Run) -> None:
    """The header alone, as C of 1999 and as C++ of 2011, and the one for C++ of 2017."""
    in_cpp = ("c++", "-xc++")
    for name, *words in (("rvstm.h", "cc", "-std=c99"), ("rvstm.h", *in_cpp, "-std=c++11"), ("rvstm.hpp", *in_cpp, "-std=c++17")):
        done = command([*words, *STRICT, "-fsyntax-only", written(run.place / "header.c", f'#include "{name}"\n')])
        same((done.status, done.errors), (0, ""), " ".join(words))


def version(run: Run) -> None:
    declared = re.search(r"^#define RVSTM_VERSION (\d+)$", (INCLUDE / "rvstm.h").read_text(encoding="utf-8"), re.M)
    assert declared
    same(ctypes.CDLL(str(folder(run) / "librvstm.so")).rvstm_version(), int(declared[1]))


def shown_names(run: Run) -> None:
    """The functions of the header are all that the archive and the shared object show."""
    declared = sorted(re.findall(r"^[a-z].* (rvstm_[a-z_]*)\(", (INCLUDE / "rvstm.h").read_text(encoding="utf-8"), re.M))
    holds(len(declared) > 10, declared, "the functions of the header")
    for words in (("librvstm.a",), ("-D", "librvstm.so")):
        text = command(["nm", "-g", "--defined-only", *words], folder(run)).done()
        same(sorted(re.findall(r"^[0-9a-f]+ [A-Z] (\S+)$", text, re.M)), declared, words[-1])


def two_copies(run: Run) -> None:
    declared = re.findall(r"^[a-z].* (rvstm_([a-z_]*))\(", (INCLUDE / "rvstm.h").read_text(encoding="utf-8"), re.M)
    names = written(run.place / "names", "".join(f"{name} second_{rest}\n" for name, rest in declared))
    second, made = run.place / "second.a", run.place / "two"
    command(["objcopy", f"--redefine-syms={names}", folder(run) / "librvstm.a", second]).done()
    command(["cc", *STRICT, EMBED / "two.c", folder(run) / "librvstm.a", second, "-o", made]).done()
    command([made, TOKEN / "token.elf"]).done()


def beside_chain(run: Run) -> None:
    """Random sessions by a driver in C, two side by side in one process: each answer equals that of `rvstm chain`."""
    run.note(f"seed {run.setting.seed}")
    done = command([*tool_words("embedded"), run.program, str(PAIRS), str(run.setting.seed)])
    holds(done.status == 0, last_lines(done.out + done.errors), "no difference")
    run.note(last_lines(done.out, 1))


def nothing_left(run: Run) -> None:
    """41 sessions of 100 frames, some of them wrong, while allocations are refused: each frees all that it took."""
    made, wraps = run.place / "memory", [f"-Wl,--wrap={name}" for name in ("malloc", "realloc", "free")]
    command(["cc", *STRICT, TOP / "tests/gate/session_memory.c", *wraps, folder(run) / "librvstm.a", "-o", made]).done()
    head = f"rvblock 1\nprogram 0 {hashlib.sha256(COUNTER.read_bytes()).hexdigest()}\n"
    frame, wrong = written(run.place / "frame", head + f"call 0 1000 {1:064x}\n" * 3), written(run.place / "wrong", f"{head}call\n")
    found = re.fullmatch(r"done (\d+), refused (\d+), failed (\d+)\n", command([made, COUNTER, frame, wrong]).done())
    done, refused, failed = map(int, found.groups()) if found else (0, 0, 0)
    same((done + refused + failed, done > 0, refused > 0, failed > 0), (41 * 100, True, True, True))


def crates_in_rust(run: Run) -> None:
    """The crates are built with Debian's compiler, offline and with nothing written into the checkout. Their tests pass, some also
    under valgrind. Sessions need no library; blocks without one are refused."""
    more = {name.upper(): f"/usr/bin/{name}" for name in ("rustc", "rustdoc")} | {"RUST_BACKTRACE": "0", "RVSTM": str(run.program)}
    more |= {"RUSTFLAGS": "-Dwarnings"} | {f"CARGO_{name}": str(run.place / name) for name in ("HOME", "TARGET_DIR")}

    def faults(library: Path | str, *words: str) -> list[str]:
        done = command((*CARGO_TEST, *words), TOP / "rust", more=more | {"RVSTM_LIBRARY": str(library)})
        if done.status == 0:
            return []
        found = re.findall(r"^.*(?:panicked at|error[:\[]|  (?:left|right): |RVSTM_LIBRARY |== \w).*", done.out + done.errors, re.M)
        return found[:3] or [f"status {done.status}"]

    missing = "  rvstm-sys: set RVSTM_LIBRARY to the folder that has librvstm.a"
    same(missing in faults(""), True, "no library")
    same(faults("", "-p", "rvstm", "--no-default-features"), [])
    same(faults(folder(run), "--workspace"), [])
    more["CARGO_TARGET_X86_64_UNKNOWN_LINUX_GNU_RUNNER"] = VALGRIND
    same(faults(folder(run), "--test", "library", "--", "uses", "rules_three"), [])


def cases() -> list[Case]:
    found = []
    for compiler, source, needs in ((("cc",), "embed.c", Tool.CC), (("c++", "-std=c++11"), "embed.cpp", Tool.CPP)):
        for is_shared in (False, True):
            run = partial(built, compiler=compiler, source=source, is_shared=is_shared)
            found.append(Case(f"library: {source} by the {'shared object' if is_shared else 'archive'}", run, (needs,), needs_library=True))
    return [
        *found,
        Case("library: embed.py", in_python, needs_library=True),
        Case("library: its header", header, (Tool.CC, Tool.CPP)),
        Case("library: its version", version, needs_library=True),
        Case("library: the names that it shows", shown_names, (Tool.NM,), needs_library=True),
        Case("library: two copies in one program", two_copies, (Tool.CC, Tool.NM), needs_library=True),
        Case("library: random sessions beside chain", beside_chain, (Tool.CC, Tool.NM), needs_library=True, cost=8),
        Case("library: sessions leave no memory", nothing_left, (Tool.CC,), needs_library=True),
        Case("library: the crates in Rust", crates_in_rust, (Tool.CARGO, Tool.RUSTC, Tool.VALGRIND, Tool.CC), needs_library=True, cost=20),
    ]

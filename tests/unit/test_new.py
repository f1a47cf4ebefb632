"""The folder of a new contract: its files, what builds it, and what is reported if it cannot be built."""

import os
import re
import shutil
import subprocess
import tomllib
import unittest
from pathlib import Path
from unittest import mock

from rvstm_tools.programs import compilers, finding
from rvstm_tools.programs.finding import Home
from unit.helpers import InFolder, called

TOP = Path(__file__).resolve().parents[2]
OF_ALL = (".github/workflows/ci.yml", ".gitignore", "Makefile", "README.md", "votes.explore", "votes.list")
FILES = {
    "": {*OF_ALL, "votes.c", "compile_flags.txt"},
    "--rust": {*OF_ALL, ".cargo/config.toml", "Cargo.toml", "src/main.rs"},
}
PROGRAMS = ("make", "clang", "ld.lld", "llvm-addr2line", "llvm-strip", "cargo", "rustc")
MAKE = "#!/bin/sh\nfor made; do case $made in *.elf) echo built >$made ;; esac; done\n"
RUSTC = '#!/bin/sh\necho "${0%/*}/libraries"\n'


class New(InFolder):
    """Stubs are in place of make and the compilers, and the path has nothing else."""

    def setUp(self) -> None:
        super().setUp()
        self.programs = self.folder / "bin"
        self.put_stubs()
        self.enterContext(mock.patch.dict(os.environ, {"PATH": str(self.programs)}))
        self.enterContext(mock.patch.object(finding, "home", lambda: Home(TOP)))

    def put_stubs(self) -> None:
        (self.programs / "libraries").mkdir(parents=True, exist_ok=True)
        self.write("bin/libraries/libcore-1.rlib", "")
        for name in PROGRAMS:
            self.stub(name, {"make": MAKE, "rustc": RUSTC}.get(name, "#!/bin/sh\n"))

    def stub(self, name: str, text: str) -> None:
        Path(self.write(f"bin/{name}", text)).chmod(0o755)

    def made(self, *words: str) -> tuple[int, str, str]:
        """The same as `called`, with `FOLDER` in place of the folder's path."""
        status, output, faults = called("new", *words)
        return status, output.replace(str(self.folder), "FOLDER"), faults.replace(str(self.folder), "FOLDER")

    def test_the_files(self) -> None:
        for option, wanted in FILES.items():
            with self.subTest(option):
                folder = self.folder / f"in{option}/votes"
                status, output, faults = self.made(str(folder), *option.split())
                self.assertEqual((status, faults), (0, ""))
                last = output.splitlines()[-1]
                self.assertEqual(last, f"built FOLDER/in{option}/votes/votes.elf; `make` in FOLDER/in{option}/votes builds it again "
                                       "and runs its test")
                found = {str(path.relative_to(folder)) for path in folder.rglob("*") if path.is_file()}
                self.assertEqual(found, wanted | {"votes.elf", "votes.lines.elf"})
                for name in wanted:
                    self.assertNotRegex((folder / name).read_text(encoding="utf-8"), "@(name|sdk|tools)@")

    def test_the_places(self) -> None:
        self.stub("rvstm-tools", "#!/bin/sh\n")
        self.made(str(self.folder / "votes"))
        lines = (self.folder / "votes/Makefile").read_text(encoding="utf-8").splitlines()
        self.assertEqual(lines[0], f"SDK ?= {TOP}/sdk")
        self.assertEqual(lines[1], "RVSTM_TOOLS ?= rvstm-tools")
        self.assertIn("program votes votes.elf\n", (self.folder / "votes/votes.list").read_text(encoding="utf-8"))

    def test_an_empty_folder_may_be_there(self) -> None:
        (self.folder / "votes").mkdir()
        self.assertEqual(self.made(str(self.folder / "votes"))[0], 0)

    def test_wrong_names(self) -> None:
        rule = "a name has 1 to 31 of a to z, 0 to 9, _ and -, and begins with a letter"
        for name in ("Votes", "1votes", "vo tes", "votes.c", "v" * 32, "-v", "wähle"):
            with self.subTest(name):
                self.assertEqual(self.made(f"{self.folder}/{name}"), (1, "", f"new: {name}: {rule}\n"))
                self.assertFalse((self.folder / name).exists())

    def test_messages(self) -> None:
        used, votes = self.folder / "used", self.folder / "votes"
        used.mkdir()
        self.write("used/file", "")
        self.write("votes", "")
        for words, message in {
            (str(used),): "FOLDER/used: it is there, and is not empty",
            (str(votes),): "FOLDER/votes: File exists",
            (f"{self.folder}/contract", "--rust"): "contract: the crate of the SDK has this name",
        }.items():
            with self.subTest(message):
                self.assertEqual(self.made(*words), (1, "", f"new: {message}\n"))

    def test_what_is_missing(self) -> None:
        """The folder is made all the same."""
        target, packages = compilers.TARGET, compilers.OF_LIBRARIES
        rust = (
            f"Rust has no libraries for {target}; `sh {TOP}/sdk/rust/build-libraries` builds them, once and as root, of Debian's "
            f"packages {packages}; with rustup `rustup target add {target}` fetches them"
        )
        for number, (option, missing, lack) in enumerate((
            ("", ("clang",), "clang not found; `apt-get install clang` installs it"),
            ("", ("clang", "ld.lld", "make"), "clang, ld.lld, make not found; `apt-get install clang lld make` installs it"),
            ("", ("llvm-addr2line",), "llvm-addr2line not found; `apt-get install llvm` installs it"),
            ("--rust", ("libraries/libcore-1.rlib",), rust),
            ("--rust", ("cargo", "rustc"), "cargo, rustc not found; `apt-get install cargo rustc` installs it"),
        )):
            with self.subTest(lack):
                self.put_stubs()
                for name in missing:
                    (self.programs / name).unlink()
                folder = f"{self.folder}/{number}/votes"
                status, output, faults = self.made(folder, *option.split())
                place = f"FOLDER/{number}/votes"
                self.assertEqual((status, faults), (1, f"new: {place} is made, and not built: {lack}; then run `make` in {place}\n"))
                self.assertTrue(output.startswith(place))

    def test_a_build_that_fails(self) -> None:
        self.stub("make", "#!/bin/sh\nexit 2\n")
        message = "new: FOLDER/votes is made, and `make -s votes.elf votes.lines.elf` there ended with status 2\n"
        self.assertEqual(self.made(f"{self.folder}/votes")[::2], (1, message))

    def test_the_sdk(self) -> None:
        for top, message in {
            self.folder: "FOLDER/sdk: no SDK; the package rvstm-sdk has it, and pip installs it with these tools from a checkout",
            self.folder / "a$b": 'FOLDER/a$b/sdk: a path with one of " $ # \\ cannot be in a Makefile; move the SDK',
        }.items():
            if top != self.folder:
                (top / "sdk").mkdir(parents=True)
                (top / "sdk/Makefile").write_text("", encoding="utf-8")
            with self.subTest(message), mock.patch.object(finding, "home", lambda: Home(top)):
                self.assertEqual(self.made(f"{self.folder}/votes"), (1, "", f"new: {message}\n"))


@unittest.skipUnless(all(map(shutil.which, ("clang", "ld.lld", "make", "llvm-addr2line"))), "clang, lld, llvm or make is missing")
class Built(InFolder):
    def test_it_is_a_program(self) -> None:
        with mock.patch.dict(os.environ, {"MAKEFLAGS": "-j2"}):  # the program, and beside it the one with lines
            status, _, faults = called("new", f"{self.folder}/votes")
        self.assertEqual((status, faults), (0, ""))
        self.assertTrue((self.folder / "votes/votes.elf").read_bytes().startswith(b"\x7fELF"))


class Installed(unittest.TestCase):
    def test_pip_installs_each_file_of_the_sdk(self) -> None:
        """The patterns of pyproject.toml name all of sdk but its tests."""
        tools = TOP / "tools"
        patterns = tomllib.loads((tools / "pyproject.toml").read_text(encoding="utf-8"))["tool"]["setuptools"]["data-files"]
        named = {path.resolve() for globs in patterns.values() for pattern in globs for path in tools.glob(pattern)}
        listed = subprocess.run(["git", "ls-files", "sdk"], cwd=TOP, capture_output=True, encoding="utf-8", check=False).stdout
        files = {TOP / name for name in listed.splitlines() if not re.match("sdk/rust/tests/", name)}
        self.assertEqual(files - named, set())
        for folder, globs in patterns.items():
            for path in (path for pattern in globs for path in tools.glob(pattern)):
                self.assertEqual(str(path.resolve().parent.relative_to(TOP)), folder.removeprefix("share/rvstm-sdk/"))

"""Proofs of crates by rt: as many at once as there are processors, and those first for which the others wait."""

import contextlib
import fcntl
import os
import re
import shutil
import subprocess
import sys
import time
from collections.abc import Iterator, Sequence
from concurrent.futures import FIRST_COMPLETED, Future, ThreadPoolExecutor, wait
from pathlib import Path

from rvstm_tools.errors import UserError
from rvstm_tools.programs.checkouts import Checkout

MEMORY_OF_PROOF = 5_000_000  # that has to be free for each crate that is proved at once, in KiB
LINES_FOR_LIBRARIES = 100  # of code, which cost as much as to read the libraries of a crate
NICENESS = 10  # of proofs for which the longest chain of crates does not wait
KEPT = ("out/rlib", "out/incremental")
TREE = ("src", "specs", "proofs", "out/rlib")
NO_RT = "there is no rt: install Rattle's kit, rattle-kit-13f, and put its bin/rt on the path"


def tell(text: str) -> None:
    print(text, file=sys.stderr, flush=True)


def need_rt() -> None:
    """A UserError if there is no rt on the path."""
    if not shutil.which("rt"):
        raise UserError(NO_RT)


def run_rt(words: Sequence[str], folder: Path, niceness: int = 0) -> None:
    """Runs rt in a folder. If it fails, what it said is printed, and a UserError has the status."""
    command = ["nice", "-n", str(niceness), "rt", *words]
    done = subprocess.run(command, cwd=folder, stdout=subprocess.PIPE, stderr=subprocess.STDOUT, encoding="utf-8", check=False)
    if done.returncode != 0:
        sys.stderr.write(done.stdout)
        raise UserError(f"rt ended with status {done.returncode} in {folder.name}; what it said is above")


def link_or_copy(source: str, target: str) -> None:
    """Gives a file a second name, or copies it if the file system has no such names."""
    try:
        os.link(source, target)
    except OSError:
        shutil.copy2(source, target)


@contextlib.contextmanager
def locked(folder: Path) -> Iterator[None]:
    """Keeps rt and other tools out of a crate's folder, as rt does it."""
    held = os.open(folder, os.O_RDONLY)
    try:
        with contextlib.suppress(OSError):  # some file systems have no locks
            fcntl.flock(held, fcntl.LOCK_EX)
        yield
    finally:
        os.close(held)


def most_at_once(memory: str, processors: int) -> int:
    """How many crates are proved at once: one a processor, as far as memory is free. `memory` is /proc/meminfo."""
    free = re.search(r"MemAvailable: +([0-9]+)", memory)
    return max(1, min(processors, int(free[1]) // MEMORY_OF_PROOF if free else 1))


class Prover:
    def __init__(self, checkout: Checkout, crate: str, words: Sequence[str], at_once: int | None = None) -> None:
        """`words` are those for rt that prove the crate itself."""
        self.checkout = checkout
        self.crates = checkout.crates_of(crate)
        self.words = words
        processors = len(os.sched_getaffinity(0))
        self.at_once = at_once or most_at_once(Path("/proc/meminfo").read_text(encoding="utf-8"), processors)
        self.lengths = self._lengths_of_chains()
        self.chain = self._longest_chain()
        self.began = time.monotonic()

    def _lengths_of_chains(self) -> dict[str, int]:
        """How many lines of code the longest chain of crates has, from each one up to the last."""
        lengths: dict[str, int] = {}
        for name in reversed(self.crates):
            above = max((lengths[other] for other in lengths if name in self.checkout.needs[other]), default=0)
            lengths[name] = LINES_FOR_LIBRARIES + self.checkout.lines_of(name) + above
        return lengths

    def _longest_chain(self) -> list[str]:
        """The crates of the longest chain of all, from the lowest up to the last."""
        chain: list[str] = []
        above = list(self.lengths)
        while above:
            chain.append(max(above, key=lambda name: self.lengths[name]))
            above = [name for name in self.lengths if chain[-1] in self.checkout.needs[name]]
        return chain

    def _tell(self, text: str) -> None:
        tell(f"after {(time.monotonic() - self.began) / 60:.0f} minutes: {text}")

    def prove(self) -> None:
        """Proves the crates, each after those that it is built on, and those below the longest chain first. A crate of the longest
        chain gets a job for each processor, though these cost more than one. Reports each crate as it begins and when it is
        proved."""
        waiting, proved = list(self.crates), list[str]()
        running: dict[Future[None], str] = {}
        with ThreadPoolExecutor(self.at_once) as pool:
            while waiting or running:
                ready = [name for name in waiting if all(needed in proved for needed in self.checkout.needs[name])]
                ready.sort(key=lambda name: self.lengths[name], reverse=True)
                for name in ready[: self.at_once - len(running)]:
                    waiting.remove(name)
                    self._tell(f"proving {name}")
                    running[pool.submit(self._prove_one, name)] = name
                for ended in wait(running, return_when=FIRST_COMPLETED).done:
                    name = running.pop(ended)
                    error = ended.exception()
                    if error:
                        waiting.clear()
                        raise error
                    proved.append(name)
                    left = len(self.crates) - len(proved)
                    self._tell(f"{name} is proved; {left} of {len(self.crates)} crates are left")
        self._tell("done")

    def _prove_one(self, name: str) -> None:
        if name == self.crates[-1]:
            run_rt(self.words, self.checkout.crate(name))
        elif name in self.chain:
            self._prove_library(name, self.at_once, 0)
        else:
            self._prove_library(name, 1, NICENESS)

    def _prove_library(self, name: str, jobs: int, niceness: int) -> None:
        """Proves a library in a tree of its own, and takes over what rt keeps there, also if it ends too early. In one tree rt would
        prove two libraries that share a third one one after the other, since it locks the folders of all three."""
        folder = self.checkout.crate(name)
        tree = folder / "out/tree"
        with locked(folder):
            shutil.rmtree(tree, ignore_errors=True)
            self._fill_tree(tree, self.checkout.crates_of(name)[:-1], name)
            try:
                run_rt(["lib", "--jobs", str(jobs)], tree / "crates" / name, niceness)
            finally:
                for part in KEPT:
                    if (tree / "crates" / name / part).is_dir():
                        shutil.rmtree(folder / part, ignore_errors=True)
                        (tree / "crates" / name / part).rename(folder / part)
                shutil.rmtree(tree, ignore_errors=True)

    def _fill_tree(self, tree: Path, below: Sequence[str], name: str) -> None:
        """Makes a tree of files with a crate, what rt keeps of it, and those below it as they are built."""
        tree.mkdir(parents=True)
        top, crates = self.checkout.top, [*below, name]
        lines = (top / "crates.txt").read_text(encoding="utf-8").splitlines(keepends=True)
        (tree / "crates.txt").write_text("".join(line for line in lines if first_word(line) in crates), encoding="utf-8")
        paths = [f"crates/{crate}/{part}" for crate in crates for part in TREE]
        for path in [*paths, f"crates/{name}/out/incremental"]:
            if (top / path).is_dir():
                shutil.copytree(top / path, tree / path, copy_function=link_or_copy)


def first_word(line: str) -> str:
    """The name that a line of crates.txt begins with; empty if it is not one of a crate."""
    found = re.match(r"\w+", line)
    return found[0] if found else ""

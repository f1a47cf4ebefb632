"""What a release is made of: version, commit, and the program and library without what differs by accident."""

import ctypes
import enum
import os
import re
import resource
import shutil
import subprocess
import tempfile
from pathlib import Path

from rvstm_tools.errors import UserError
from rvstm_tools.programs import checkouts
from rvstm_tools.programs.checkouts import Checkout

VERSION_FILE = "crates/cmdline/src/commands.rt"
VERSION = re.compile(r'\.version\("([0-9]+\.[0-9]+\.[0-9]+)"\)')
STRIPPER = "llvm-objcopy"
LONGEST_STRIPPED, MOST_MEMORY = 64_000_000, 1_000_000_000  # bytes


class Product(enum.Enum):
    """A file that a checkout builds, by its path."""

    PROGRAM = "crates/rvstm/out/rvstm"
    ARCHIVE = "crates/rvstm_c/out/embedded/librvstm.a"
    SHARED = "crates/rvstm_c/out/embedded/librvstm.so"

    @property
    def crate(self) -> str:
        return "rvstm" if self is Product.PROGRAM else "rvstm_c"

    @property
    def way(self) -> str:
        return "rvstm-tools example counter" if self is Product.PROGRAM else "rvstm-tools library"

    @property
    def file(self) -> str:
        return self.value.rpartition("/")[2]


def version_of(text: str) -> str:
    found = VERSION.findall(text)
    if len(found) != 1:
        raise UserError(f"{VERSION_FILE} has {len(found)} versions, and needs one")
    return str(found[0])


class Products:
    def __init__(self, checkout: Checkout) -> None:
        self.checkout = checkout

    def version(self) -> str:
        """The version that `rvstm --version` prints, from where the program has it."""
        return version_of((self.checkout.top / VERSION_FILE).read_text(encoding="utf-8"))

    def version_number(self) -> int:
        """The same as one number, as the library and its header have it."""
        major, minor, patch = map(int, self.version().split("."))
        return major * 1_000_000 + minor * 1_000 + patch

    def shared_name(self) -> str:
        """The name by which a program asks for the shared object: while the major number is 0, calls may change with the minor."""
        return f"librvstm.so.{'.'.join(self.version().split('.')[:2])}"

    def git(self, *words: str) -> str:
        command = ["git", "-C", str(self.checkout.top), *words]
        done = subprocess.run(command, check=False, capture_output=True, encoding="utf-8")
        if done.returncode:
            raise UserError(f"git {words[0]}: {done.stderr.strip()}")
        return done.stdout

    def commit_of_clean(self, *parts: str) -> str:
        """The commit of the checkout, in which nothing is changed or added, in all or in some parts."""
        commit = self.git("rev-parse", "HEAD").strip()
        changed = self.git("status", "--porcelain", "--", *parts).splitlines()
        if changed:
            first = f"{changed[0].strip()}, {len(changed)} in all"
            raise UserError(f"the checkout is not as commit {commit} has it: {first}; commit or remove that")
        return commit

    def path(self, product: Product) -> Path:
        return self.checkout.top / product.value

    def sources(self, product: Product) -> str:
        return self.checkout.sum_of_sources(self.checkout.crates_of(product.crate))

    def is_built(self, product: Product) -> bool:
        return checkouts.is_built(self.path(product), self.sources(product))

    def built(self, product: Product) -> bytes:
        """The bytes of a product, built of the sources of the checkout; without symbols, except the archive."""
        if not self.is_built(product):
            raise UserError(f"{product.value} is not there as these sources make it: `{product.way}` builds it")
        data = self.path(product).read_bytes()
        return data if product is Product.ARCHIVE else stripped(data)

    def proof_of(self, product: Product) -> str:
        """What was proved of a product that is built, with which kit, and the checksum of the sources."""
        below = len(self.checkout.crates_of(product.crate)) - 1
        kit = checkouts.kit_of(self.path(product)) or "a kit that is not noted"
        crate, sources = product.crate, self.sources(product)
        return f"every function of {crate} and of the {below} crates below it, by {kit}; SHA-256 of the sources {sources}"

    def check_versions(self) -> None:
        program, shared = self.path(Product.PROGRAM), self.path(Product.SHARED)
        said = subprocess.run([program, "--version"], capture_output=True, encoding="utf-8", check=False).stdout.strip()
        if said != f"rvstm {self.version()}":
            raise UserError(f"{program} says {said}, not {self.version()}")
        number = ctypes.CDLL(os.fspath(shared)).rvstm_version()
        if number != self.version_number():
            raise UserError(f"{shared} says version {number}, not {self.version_number()}, which is that of {self.version()}")


def limit_stripper() -> None:
    """A program of a stranger may name places so far from one another that gigabytes would be between them."""
    resource.setrlimit(resource.RLIMIT_FSIZE, (LONGEST_STRIPPED, LONGEST_STRIPPED))
    resource.setrlimit(resource.RLIMIT_AS, (MOST_MEMORY, MOST_MEMORY))


def stripped(data: bytes) -> bytes:
    """The bytes of a program or a shared object without symbols and build id. GNU's objcopy drops GNU_RELRO, too."""
    if not shutil.which(STRIPPER):
        raise UserError(f"there is no {STRIPPER}: install the package llvm")
    with tempfile.TemporaryDirectory() as place:
        given, made = Path(place, "given"), Path(place, "made")
        given.write_bytes(data)
        words = [STRIPPER, "--strip-all", "-R", ".note.gnu.build-id", str(given), str(made)]
        done = subprocess.run(words, capture_output=True, encoding="utf-8", errors="replace", check=False, preexec_fn=limit_stripper)
        if done.returncode:
            raise UserError(f"{STRIPPER} cannot read it: {done.stderr.strip() or f'it ended with status {done.returncode}'}")
        return made.read_bytes()

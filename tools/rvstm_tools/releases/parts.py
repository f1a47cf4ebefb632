"""What is in each package of a release: files by their paths below a prefix, such as /usr."""

import re
from collections.abc import Mapping

from rvstm_tools.errors import UserError
from rvstm_tools.releases import archives, helps, page_links, parsers
from rvstm_tools.releases.archives import EXECUTABLE, Entries, File, Link
from rvstm_tools.releases.products import Product, Products

TRIPLET = "x86_64-linux-gnu"
SDK = "share/rvstm-sdk"
TOOLS = f"{SDK}/tools/rvstm-tools"
TOOLS_LINK = Link(f"../{TOOLS}")
CHANGES = "CHANGELOG.md"
PAGES = {
    "rvstm": ("README.md", CHANGES, "docs/formats.md", "docs/messages.md", "docs/operators.md", "docs/glossary.md"),
    "librvstm-dev": ("docs/embedding.md",),
    "rvstm-sdk": ("docs/tutorial.md", "docs/contracts.md", "docs/assembly.md", "docs/debugging.md"),
}
PROVED = {"rvstm": Product.PROGRAM, "librvstm-dev": Product.ARCHIVE}
OF_LIBRARY = ("examples/embed/", "examples/state/")
NO_LICENCE = "No licence is chosen for rvstm yet: its owner decides.\n"
# What lintian takes for mistakes, and is meant.
OVERRIDES = {
    "librvstm-dev": """# The shared object is in this package until others need it alone.
librvstm-dev: link-to-shared-library-in-wrong-package *
librvstm-dev: package-name-doesnt-match-sonames *
""",
    "rvstm-sdk": """# Programs of contracts are for a machine of 32 bits, and are data here.
rvstm-sdk: arch-dependent-file-in-usr-share *
rvstm-sdk: arch-independent-package-contains-binary-or-object *
rvstm-sdk: binary-from-other-architecture *
rvstm-sdk: statically-linked-binary *
""",
}
MODES = ("100644", "100755")
GLIBC = re.compile(rb"GLIBC_([0-9]+(?:\.[0-9]+)+)\0")
LINKED_PROGRAM = re.compile(r"^bin/rvstm$|\.so\.")


class Parts:
    def __init__(self, products: Products) -> None:
        self.products = products
        self.top = products.checkout.top

    def tracked(self, *parts: str) -> Entries:
        """The files of the commit in some folders, or some files, by their paths."""
        found: Entries = {}
        for line in self.products.git("ls-files", "--stage", "--", *parts).splitlines():
            mode, path = line.split(" ")[0], line.split("\t")[1]
            if mode not in MODES:
                raise UserError(f"{path}: mode {mode} was not looked for")
            found[path] = File((self.top / path).read_bytes(), int(mode[-3:], 8))
        return found

    def file(self, path: str) -> File:
        return File((self.top / path).read_bytes())

    def packed(self, path: str) -> File:
        return File(archives.gzip_of(self.file(path).data))

    def pages(self, package: str, *, is_packed: bool) -> Entries:
        """The pages of a package, with links among them; CHANGELOG.md compressed, as Debian has it, if asked for."""
        folder = f"share/doc/{package}"
        found: Entries = {}
        for path in PAGES[package]:
            page = page_links.in_package(path, self.file(path).data.decode(), PAGES[package]).encode()
            if is_packed and path == CHANGES:
                found[f"{folder}/{path}.gz"] = File(archives.gzip_of(page))
            else:
                found[f"{folder}/{path.rpartition('/')[2]}"] = File(page)
        return found

    def program(self) -> Entries:
        return {
            "bin/rvstm": File(self.products.built(Product.PROGRAM), EXECUTABLE),
            "share/man/man1/rvstm.1.gz": self.packed(helps.PAGE),
            "share/bash-completion/completions/rvstm": self.file("completions/rvstm.bash"),
        }

    def library(self, prefix: str, folder: str) -> Entries:
        """The archive, the shared object under three names, the headers, the file for pkg-config and the examples."""
        whole, asked_for = f"librvstm.so.{self.products.version()}", self.products.shared_name()
        found: Entries = {
            f"{folder}/librvstm.a": File(self.products.built(Product.ARCHIVE)),
            f"{folder}/{whole}": File(self.products.built(Product.SHARED)),
            f"{folder}/{asked_for}": Link(whole),
            f"{folder}/librvstm.so": Link(asked_for),
            f"{folder}/pkgconfig/rvstm.pc": File(pkg_config(prefix, folder, self.products.version()).encode()),
            **self.tracked("include"),
        }
        return found | {f"share/doc/librvstm-dev/{path}": file for path, file in self.tracked(*OF_LIBRARY).items()}

    def sdk(self) -> Entries:
        """The SDK: a folder with sdk, examples and tools as in the checkout, so that paths from one to the other are the same; and
        the command on the path, with its man page and its completion."""
        found = self.tracked("sdk", "examples", "tools/rvstm-tools", "tools/rvstm_tools")
        placed = {f"{SDK}/{path}": file for path, file in found.items() if not path.startswith(OF_LIBRARY)}
        return placed | {
            "bin/rvstm-tools": TOOLS_LINK,
            "share/man/man1/rvstm-tools.1.gz": self.packed(parsers.PAGE),
            "share/bash-completion/completions/rvstm-tools": self.file(parsers.COMPLETION),
        }


def pkg_config(prefix: str, folder: str, version: str) -> str:
    return f"""prefix={prefix}
libdir=${{prefix}}/{folder}
includedir=${{prefix}}/include

Name: rvstm
Description: blocks of contract calls, run in order over a storage in memory or the caller's own
Version: {version}
Libs: -L${{libdir}} -lrvstm
Cflags: -I${{includedir}}
"""


def glibc(entries: Mapping[str, File | Link]) -> str:
    """The least version of the C library that has what some programs ask of it."""
    data = b"".join(entry.data for path, entry in entries.items() if isinstance(entry, File) and LINKED_PROGRAM.search(path))
    found = [list(map(int, match.decode().split("."))) for match in GLIBC.findall(data)]
    if not found:
        raise UserError("no program of the package asks for a version of the C library")
    return ".".join(map(str, max(found)))

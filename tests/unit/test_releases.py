"""Releases: archives as Debian's tools read them, damaged packages, comparisons, man pages and completions."""

import json
import lzma
import os
import re
import shutil
import struct
import subprocess
import tarfile
import unittest
from collections.abc import Mapping
from pathlib import Path
from unittest import mock

from rvstm_tools import commandline
from rvstm_tools.errors import UserError
from rvstm_tools.programs import checkouts
from rvstm_tools.releases import archives, bills, helps, kit_crates, packing, page_links, parsers, parts, products, roff, verifying
from rvstm_tools.releases.archives import Entries, File, Link, Member
from rvstm_tools.releases.helps import Item
from rvstm_tools.releases.products import Product
from unit.helpers import InFolder, called

TOP = Path(__file__).resolve().parents[2]
ENTRIES: Entries = {"usr/bin/rvstm": File(b"\x7fELF and more", 0o755), "usr/lib/librvstm.so.1": Link("librvstm.so.1.2.3"),
                    "usr/lib/librvstm.so.1.2.3": File(b"\x7fELF too")}
FIELDS = {"Package": "rvstm", "Version": "1.2.3", "Architecture": "amd64", "Maintainer": "A <a@b>", "Description": "what\n more"}


SECONDS = 1_700_000_000
HAS_PACKER = shutil.which("dpkg-deb") is not None


def deb(entries: Entries = ENTRIES) -> bytes:
    return packing.deb_of(FIELDS, {"prerm": File(b"#!/bin/sh\n", 0o755)}, entries, SECONDS)


def ar(*members: Member) -> bytes:
    """An archive of ar, by hand: deb(5) has the widths."""
    heads = (b"%-16s%-12d%-6d%-6d%-8s%-10d`\n" % (name.encode(), 0, 0, 0, b"100644", len(data)) for name, data in members)
    bodies = (data + b"\n" * (len(data) % 2) for _, data in members)
    return b"!<arch>\n" + b"".join(head + body for head, body in zip(heads, bodies))


def header(path: str, kind: bytes = tarfile.REGTYPE, prefix: str = "", size: int = 0) -> bytes:
    """The header of a file in a tar, as GNU's tar writes it; with something in the place of the prefix of ustar."""
    info = tarfile.TarInfo(path)
    info.type, info.size = kind, size
    made = info.tobuf(tarfile.GNU_FORMAT)
    made = made[:148] + b" " * 8 + made[156:345] + prefix.encode().ljust(167, b"\0")
    return made[:148] + b"%06o\0 " % sum(made) + made[156:]


def tar(*headers: bytes) -> bytes:
    return b"".join(headers) + bytes(1024)


def package(files: bytes, control: bytes = lzma.compress(tar())) -> bytes:
    """A package of Debian, with its compressed files."""
    return ar(Member("debian-binary", b"2.0\n"), Member("control.tar.xz", control), Member("data.tar.xz", files))


class OfArchives(InFolder):
    def test_what_is_read_is_what_was_written(self) -> None:
        one: Entries = {"one": File(b"file")}
        for entries in (ENTRIES, one):
            packed = archives.gzip_of(archives.tar_of(entries, 5))
            self.assertEqual(archives.files_in(packed), entries)
        self.assertEqual(packed[3:8], bytes(5), "no name and no time, as RFC 1952 has them")

    def test_the_tar_that_others_make_of_the_same_files(self) -> None:
        self.addCleanup(os.umask, os.umask(0o022))
        for path, entry in ENTRIES.items():
            place = self.folder / path
            place.parent.mkdir(parents=True, exist_ok=True)
            if isinstance(entry, Link):
                place.symlink_to(entry.target)
            else:
                place.write_bytes(entry.data)
                place.chmod(entry.mode)
        words = ["tar", "--format=gnu", "--owner=root:0", "--group=root:0", f"--mtime=@{SECONDS}", "--sort=name", "-c", "usr"]
        made = subprocess.run(words, cwd=self.folder, capture_output=True, check=True).stdout
        self.assertEqual(archives.tar_of(ENTRIES, SECONDS), made)

    def test_ar(self) -> None:
        members = [Member("one", b"odd"), Member("two", b"even")]
        self.assertEqual(list(archives.ar_members(ar(*members))), members)

    def refused(self, data: bytes, message: str) -> None:
        with self.subTest(message), self.assertRaises(UserError) as caught:
            archives.files_in(data)
        self.assertEqual(str(caught.exception), message)

    def test_messages(self) -> None:
        for data, message in {
            archives.gzip_of(tar(header("a"), header("./a"))): "a is there twice, or is neither a file nor a link",
            archives.gzip_of(tar(header("d", tarfile.CHRTYPE))): "d is there twice, or is neither a file nor a link",
            archives.gzip_of(tar(header("a"), header("a/b"))): "it has a path that is a folder and a file",
            archives.gzip_of(tar(header("l", tarfile.SYMTYPE, size=1), b"x".ljust(512, b"\0"))): "l is there twice, or is neither a file nor a link",
            archives.gzip_of(tar(header("a/../b"))): "'a/../b' is a path that no release has",
            archives.gzip_of(tar(header("/a"))): "'/a' is a path that no release has",
            archives.gzip_of(tar(header("../a"))): "'../a' is a path that no release has",
            archives.gzip_of(tar(header("a", size=-512))): "the entry 'a' of its tar is not as GNU's tar writes it",
            archives.gzip_of(tar(header("a", size=1), b"xy".ljust(512, b"\0"))): "the entry 'a' of its tar is not as GNU's tar writes it",
            archives.gzip_of(tar(header("a"))[:-512]): "its tar does not end with zeros",
            ar(Member("x", b"odd"))[:-1] + b"y": "it is a damaged archive of ar",
            ar(Member("x", b"even"))[:-1]: "it is a damaged archive of ar",
            ar(Member("x", b"even")).replace(b"4   ", b"+4  "): "it is a damaged archive of ar",
            b"!<arch>\nnonsense": "it is a damaged archive of ar",
            b"!<arch>\n" + b"x" * 60: "it is a damaged archive of ar",
            ar(Member("x", b"")): "it is an archive of ar, and not a package of Debian as a release has it",
        }.items():
            self.refused(data, message)
        with self.assertRaises(UserError) as caught:
            archives.files_in(archives.gzip_of(b"nonsense"))
        self.assertTrue(str(caught.exception).startswith("its files cannot be read: "))

    def test_tars_that_others_read_otherwise(self) -> None:
        """GNU's tar and dpkg-deb find other files in each than Python's tarfile does."""
        right, damaged = archives.tar_of(ENTRIES, 5), b"y" + header("x")[1:]
        for packed, message in {
            tar(header("bin/rvstm", prefix="usr")): "the entry 'usr/bin/rvstm' of its tar is not as GNU's tar writes it",
            tar(header("a"), damaged, header("usr/bin/rvstm")): "its files cannot be read: bad checksum",
            right + tar(header("usr/bin/rvstm")): "its tar does not end with zeros",
        }.items():
            self.refused(archives.gzip_of(packed), message)
            self.refused(package(lzma.compress(packed)), message)
        self.assertEqual(archives.files_in(package(lzma.compress(right))), ENTRIES)
        for packed in (right + bytes(512), tar(header("usr/bin/rvstm"))):
            self.refused(archives.gzip_of(packed), "its tar is not the one that a release makes of its files")

    def test_packages_that_others_read_otherwise(self) -> None:
        tar_gz, most = archives.gzip_of(archives.tar_of(ENTRIES, 5)), bytes(archives.LONGEST_UNPACKED + 1)
        right, damage = package(lzma.compress(archives.tar_of(ENTRIES, 5))), "it is a damaged archive of ar"
        ended = "its files are cut, are followed by something, or have more than 67,108,864 bytes"
        other = "it is an archive of ar, and not a package of Debian as a release has it"
        for data, message in {
            tar_gz[:-1]: ended, tar_gz * 2: ended, tar_gz + bytes(1): ended,
            archives.gzip_of(most): ended, package(lzma.compress(most, preset=0)): ended,
            package(tar_gz): "its files cannot be read: Input format not supported by decoder",
            right + b"\n": damage, right.replace(b"0     0     1", b"0     1     1"): damage,
            right.replace(b"2.0\n", b"3.0\n"): other, right + ar(Member("data.tar.xz", b""))[8:]: other,
        }.items():
            self.refused(data, message)


@unittest.skipUnless(HAS_PACKER, "there is no dpkg-deb")
class OfPackages(InFolder):
    def run_packer(self, *words: str) -> str:
        """What dpkg-deb prints. Its dates are those of the zone."""
        return subprocess.run(["dpkg-deb", *words], capture_output=True, encoding="utf-8", check=True, env={**os.environ, "TZ": "UTC"}).stdout

    def test_what_is_read_is_what_was_written(self) -> None:
        self.assertEqual(archives.files_in(deb()), ENTRIES)

    def test_two_builds_give_one_file(self) -> None:
        """Whatever the mask of rights, the zone, and the order in which the files were written."""
        first = deb()
        before = os.umask(0o077)
        self.addCleanup(os.umask, before)
        with mock.patch.dict(os.environ, {"TZ": "Asia/Tokyo", "XZ_DEFAULTS": "-9"}):
            self.assertEqual(deb(dict(reversed(ENTRIES.items()))), first)

    def test_as_debian_reads_it(self) -> None:
        path = self.write("a.deb", deb())
        self.assertEqual(self.run_packer("--field", path, "Package", "Version", "Installed-Size"),
                         "Package: rvstm\nVersion: 1.2.3\nInstalled-Size: 6\n")  # two files, a link and three folders
        rows = [line.split() for line in self.run_packer("--contents", path).splitlines()]
        self.assertEqual([row[0] for row in rows],
                         ["drwxr-xr-x", "drwxr-xr-x", "drwxr-xr-x", "-rwxr-xr-x", "drwxr-xr-x", "-rw-r--r--", "lrwxrwxrwx"])
        self.assertEqual({row[1] for row in rows}, {"root/root"})
        self.assertEqual({row[3] for row in rows}, {"2023-11-14"})  # of SECONDS
        self.assertIn("prerm", self.run_packer("--info", path))

    def test_messages(self) -> None:
        with self.assertRaises(UserError) as caught:
            packing.deb_of({**FIELDS, "Version": "no version"}, {}, ENTRIES, SECONDS)
        self.assertIn("dpkg-deb ended with status 2: ", str(caught.exception))
        with mock.patch.dict(os.environ, {"PATH": str(self.folder)}), self.assertRaises(UserError) as caught:
            deb()
        self.assertEqual(str(caught.exception), "there is no dpkg-deb: packages are made on Debian")


def program_of_64_bits(code: bytes) -> bytes:
    """A program with one segment that is loaded and one that is a note."""
    head = b"\x7fELF\x02\x01\x01" + bytes(9) + struct.pack("<HHIQQQIHHHHHH", 2, 62, 1, 0, 64, 0, 0, 64, 56, 2, 64, 0, 0)
    end = 64 + 2 * 56
    loaded = struct.pack("<IIQQQQQQ", 1, 5, 0, 0, 0, end + 8 + len(code), end + 8 + len(code), 4096)
    note = struct.pack("<IIQQQQQQ", 4, 4, end, 0, 0, 8, 8, 4)
    return head + loaded + note + b"buildid!" + code


class OfComparisons(InFolder):
    def setUp(self) -> None:
        super().setUp()
        self.program = program_of_64_bits(b"the code")
        self.enterContext(mock.patch.object(products, "stripped", lambda data: data.replace(b"buildid!", bytes(8))))

    def test_what_is_loaded(self) -> None:
        other = self.program.replace(b"buildid!", b"another!")
        self.assertTrue(verifying.is_loaded_so(self.program, other))
        self.assertFalse(verifying.is_loaded_so(self.program, program_of_64_bits(b"bad code")))

    def test_by_sums(self) -> None:
        bare = self.program.replace(b"buildid!", bytes(8))
        path = self.write("rvstm", self.program)
        sums = self.write("sums", f"{verifying.digest(bare)}  rvstm\n")
        line = f"{path}: SAME as rvstm in {sums}: without symbols and build id, SHA-256 {verifying.digest(bare)}\n"
        self.assertEqual(called("verify", path, "--sums", sums), (0, line, ""))
        as_it_is = self.write("sums", f"{verifying.digest(self.program)}  rvstm\n")
        self.assertIn("bytes as they are", called("verify", path, "--sums", as_it_is)[1])
        other = self.write("other", program_of_64_bits(b"bad code"))
        status, output, _ = called("verify", other, "--sums", sums)
        self.assertEqual((status, output.split()[1]), (1, "NOT"))

    def test_a_package_by_sums(self) -> None:
        data = archives.gzip_of(archives.tar_of({"rvstm-1.2.3/bin/rvstm": File(self.program, 0o755),
                                                 "rvstm-1.2.3/bin/rvstm-tools": parts.TOOLS_LINK}, 5))
        path = self.write("a.tar.gz", data)
        sums = self.write("sums", f"{verifying.digest(data)}  a.tar.gz\n{verifying.digest(self.program)}  rvstm\n")
        status, output, _ = called("verify", path, "--sums", sums)
        self.assertEqual((status, output.count("SAME as")), (0, 2))
        self.assertIn(f"{path}, rvstm-1.2.3/bin/rvstm: SAME as rvstm", output)

    def packed(self, entries: Mapping[str, File | Link]) -> bytes:
        return archives.gzip_of(archives.tar_of(entries, 5))

    def test_messages(self) -> None:
        sums = self.write("sums", f"{'0' * 64}  other\n")
        for data, message in {
            b"nonsense": "neither a program nor a package",
            b"": "neither a program nor a package",
            self.packed({"usr/bin/rvstm": File(b""), "bin/rvstm": File(b"")}): "it has a file, bin/rvstm, which no release has",
            self.packed({"usr/local/bin/rvstm": File(b"")}): "it has a file, usr/local/bin/rvstm, which no release has",
            self.packed({"usr/bin/rvstm": Link("/bin/sh")}): "it has a link, usr/bin/rvstm, which no release has",
            self.packed({"usr/lib/librvstm.so": Link("/tmp/x")}): "it has a link, usr/lib/librvstm.so, which no release has",
            self.packed({"usr/bin/rvstm-tools": Link("/tmp/x")}): "it has a link, usr/bin/rvstm-tools, which no release has",
        }.items():
            path = self.write("a", data)
            with self.subTest(message), self.assertRaises(UserError) as caught:
                verifying.parts_of(path, data)
            self.assertEqual(str(caught.exception), f"{path}: {message}")
        path = self.write("a", self.program)
        self.assertEqual(called("verify", path, "--sums", sums), (1, "", f"verify: {sums} has no line for rvstm\n"))
        wrong = self.write("wrong", "nonsense\n")
        self.assertEqual(called("verify", path, "--sums", wrong), (1, "", f"verify: {wrong}: not a file of checksums and names\n"))
        self.assertEqual(called("verify")[0], 2)

    def test_cut_programs(self) -> None:
        for end in range(0, len(self.program)):
            try:
                verifying.bare("a", self.program[:end])
            except UserError as error:
                self.assertRegex(str(error), "^a: NOT ")

    def test_where_they_differ(self) -> None:
        self.assertEqual(verifying.parted(b"abc", b"abd"), "3 bytes and 3; they differ from byte 2 on")
        self.assertEqual(verifying.parted(b"abc", b"ab"), "3 bytes and 2; they differ from byte 2 on")


class OfProducts(unittest.TestCase):
    def test_versions(self) -> None:
        self.assertEqual(products.version_of('x.version("1.20.3")'), "1.20.3")
        for text in ("", '.version("1.2")', '.version("1.2.3") .version("1.2.4")'):
            with self.assertRaises(UserError):
                products.version_of(text)

    def test_the_c_library(self) -> None:
        entries = {"bin/rvstm": File(b"GLIBC_2.4\0GLIBC_2.34\0"), "lib/librvstm.so.1": File(b"GLIBC_2.9\0"), "x": File(b"GLIBC_3.0\0")}
        self.assertEqual(parts.glibc(entries), "2.34")
        with self.assertRaises(UserError):
            parts.glibc({})

    def test_pkg_config(self) -> None:
        self.assertIn("libdir=${prefix}/lib/x\n", parts.pkg_config("/usr", "lib/x", "1.2.3"))

    def test_ways(self) -> None:
        self.assertEqual((Product.SHARED.file, Product.SHARED.crate, Product.PROGRAM.way), ("librvstm.so", "rvstm_c", "rvstm-tools example counter"))


HELP = """\
Runs the calls.

Usage: rvstm run [OPTIONS] --workers <N> <FILE>

Arguments:
  <FILE>  The block file

Options:
      --workers <N>  How many
  -h, --help         Print help
"""


class OfBills(InFolder):
    def test_crates_of_the_kit(self) -> None:
        """Two crates, of which one is a port with a notice."""
        for path, text in {
            "crates.txt": "base: port\n", "rlibs/port.rlib/format": "crate port\ndep std\n", "rlibs/std.rlib/format": "crate std\n",
            "rattle/port/README.md": "A port of the Rust crate `the-port` 1.2.3.\n", "rattle/port/LICENSE-MIT": "Permission ..\n",
        }.items():
            (self.folder / path).parent.mkdir(parents=True, exist_ok=True)
            self.write(path, text)
        crates = kit_crates.crates_below(checkouts.Checkout(self.folder), self.folder, "base")
        bill = json.loads(bills.bill_of(bills.Released("0.1.2", "c0ffee", 86400, "kit", {"rvstm": "00"}, "2.34"), crates))
        self.assertEqual(bill["metadata"]["timestamp"], "1970-01-02T00:00:00Z")
        self.assertEqual([part["name"] for part in bill["components"]], ["port", "std", "glibc"])
        port, std, _ = bill["components"]
        self.assertEqual(port["pedigree"]["ancestors"], [{"type": "library", "name": "the-port", "version": "1.2.3"}])
        self.assertEqual(port["licenses"][0]["license"]["text"]["content"], "Permission ..\n")
        self.assertEqual(std["properties"], [{"name": "rvstm:licence", "value": "the kit has no notice"}])


class OfPages(unittest.TestCase):
    def test_links_in_a_package(self) -> None:
        pages = ("README.md", "docs/formats.md", "docs/operators.md")
        rows = {
            ("README.md", "[formats](docs/formats.md#result), [more](docs/formats.md)"): "[formats](formats.md#result), [more](formats.md)",
            ("README.md", "[auditing](docs/auditing.md#the-notation)."): "auditing (docs/auditing.md).",
            ("docs/formats.md", "[here](#result), [there](operators.md), [gone](../bench/README.md#x)"): (
                "[here](#result), [there](operators.md), gone (bench/README.md)"
            ),
            ("docs/formats.md", "[site](https://example.org/a#b), ![a picture](../bench/a.svg)"): (
                "[site](https://example.org/a#b), a picture (bench/a.svg)"
            ),
            ("README.md", "a\n\n    [code](docs/auditing.md)\n"): "a\n\n    [code](docs/auditing.md)\n",
        }
        for (page, text), wanted in rows.items():
            self.assertEqual(page_links.in_package(page, text, pages), wanted)

    def test_no_link_of_a_package_leads_out_of_it(self) -> None:
        made = parts.Parts(products.Products(checkouts.Checkout(Path(__file__).resolve().parents[2])))
        for package in parts.PAGES:
            found = made.pages(package, is_packed=False)
            names = {path.rpartition("/")[2] for path in found}
            for path, file in found.items():
                assert isinstance(file, File)
                links = re.findall(r"\]\(([^()\s#]+)[^()\s]*\)", re.sub(r"(?m)^    .*$", "", file.data.decode()))
                self.assertEqual([link for link in links if link not in names and "://" not in link], [], path)


class OfManPages(InFolder):
    def test_a_help(self) -> None:
        found = helps.help_of(HELP, "rvstm run")
        self.assertEqual((found.about, found.usage), ("Runs the calls.", "rvstm run [OPTIONS] --workers <N> <FILE>"))
        self.assertEqual(found.parts["Options"], [Item("--workers <N>", "How many"), Item("-h, --help", "Print help")])
        with self.assertRaises(UserError) as caught:
            helps.help_of(f"{HELP}nonsense\n", "rvstm run")
        self.assertEqual(str(caught.exception), "the help of rvstm run has a line that was not looked for: nonsense")
        self.assertEqual((found.ending, helps.help_of(f"{HELP}\nRequests:\n  q  End\n", "rvstm run").ending), ([], ["Requests:", "  q  End"]))

    def test_roff(self) -> None:
        self.assertEqual(roff.escaped(".a-b\\"), "\\&.a\\-b\\e")
        self.assertEqual(roff.roman("--workers <N>"), r"\fB\-\-workers \fIN\fB\fR")

    @unittest.skipUnless((TOP / "crates.txt").is_file(), "this is not a checkout")
    def test_the_pages_of_the_tools_are_what_their_parsers_make(self) -> None:
        version = products.version_of((TOP / products.VERSION_FILE).read_text(encoding="utf-8"))
        self.assertEqual((TOP / parsers.PAGE).read_text(encoding="utf-8"), parsers.page_of(version), f"{parsers.MAKER} makes it again")
        self.assertEqual((TOP / parsers.COMPLETION).read_text(encoding="utf-8"), parsers.completion(), f"{parsers.MAKER} makes it again")

    def test_the_page_has_all_commands_and_options(self) -> None:
        page = parsers.page_of("1.2.3")
        for name in commandline.NAMES:
            self.assertIn(f'.SS "rvstm-tools {name}"', page)
        self.assertIn(r"\fB\-\-preview\fR", page)
        self.assertIn(r"\fBrvstm\-tools trace [OPTIONS] \-\-call \fIN\fB \fIFILE\fB\fR", page)

    @unittest.skipUnless(shutil.which("man"), "there is no man")
    def test_the_page_as_man_reads_it(self) -> None:
        path = self.write("rvstm-tools.1", parsers.page_of("1.2.3"))
        words = ["man", "--warnings", "-E", "UTF-8", "-l", "-Tutf8", path]
        done = subprocess.run(words, capture_output=True, encoding="utf-8", check=False)
        self.assertEqual((done.returncode, [line for line in done.stderr.splitlines() if "cannot" in line]), (0, []))

    @unittest.skipUnless(shutil.which("bash"), "there is no bash")
    def test_completion(self) -> None:
        path = self.write("completion.bash", parsers.completion())
        def completed(*words: str) -> list[str]:
            given = " ".join(f"'{word}'" for word in words)
            script = f"source {path}; COMP_WORDS=({given}); COMP_CWORD={len(words) - 1}; _rvstm_tools; echo ${{COMPREPLY[@]}}"
            return subprocess.run(["bash", "-c", script], capture_output=True, encoding="utf-8", check=True).stdout.split()
        self.assertEqual(completed("rvstm-tools", "tr"), ["trace"])
        self.assertEqual(completed("rvstm-tools", "re"), ["release", "result"])
        self.assertEqual(completed("rvstm-tools", "trace", "--li"), ["--list", "--lines"])

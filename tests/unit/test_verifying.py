"""What `verify` compares and says, with products and packages that are written here."""

import hashlib
import struct
import tempfile
import unittest
from pathlib import Path
from types import SimpleNamespace
from unittest import mock

from rvstm_tools.errors import UserError
from rvstm_tools.releases import archives, parts, products, verifying
from rvstm_tools.releases.archives import Link
from rvstm_tools.releases.products import Product
from rvstm_tools.releases.verifying import Comparison, ProductPart

ARCHIVE, PROGRAM, SHARED = Product.ARCHIVE, Product.PROGRAM, Product.SHARED
RIGHT = {ARCHIVE: b"ar", PROGRAM: b"PROGRAM", SHARED: b"other"}


def sha(data: bytes) -> str:
    return hashlib.sha256(data).hexdigest()


class ByBuilding(unittest.TestCase):
    def compared(self, *found: ProductPart) -> list[Comparison]:
        """Only the shared object is not built yet. In place of a program without symbols there are its capital letters."""
        built = mock.Mock(**{
            "commit_of_clean.return_value": "c0", "is_built.side_effect": lambda product: product is not SHARED,
            "built.side_effect": RIGHT.get, "proof_of.side_effect": lambda product: f"the proof of {product.file}",
        })
        self.build = mock.Mock()
        with (
            mock.patch.object(verifying, "parts_of", return_value=list(found)),
            mock.patch.object(verifying, "bare", side_effect=lambda name, data: data.upper()),
        ):
            return list(verifying.by_building("a.deb", b"", built, self.build))

    def test_each_part_and_each_proof(self) -> None:
        program, archive = ProductPart(PROGRAM, "p", b"program"), ProductPart(ARCHIVE, "a", b"ar")
        found = self.compared(archive, program, program, ProductPart(SHARED, "s", b"otheR"))
        by, bare = "by the proof of commit c0", "without symbols and build id"
        same = Comparison(f"p: SAME as {PROGRAM.file} {by}: {bare}, SHA-256 {sha(b'PROGRAM')}", True)
        self.assertEqual(found, [
            Comparison(f"a: SAME as {ARCHIVE.file} {by}: bytes as they are, SHA-256 {sha(b'ar')}", True), same, same,
            Comparison(f"s: NOT {SHARED.file} {by}: {bare}, 5 bytes and 5; they differ from byte 0 on", False),
            Comparison(f"{ARCHIVE.file}: proved is the proof of {ARCHIVE.file}", True),
            Comparison(f"{PROGRAM.file}: proved is the proof of {PROGRAM.file}", True),
        ])
        self.build.assert_called_once_with(SHARED)

    def test_an_archive_has_all_its_bytes(self) -> None:
        self.assertFalse(self.compared(ProductPart(ARCHIVE, "a", b"AR"))[0].is_same)

    def test_nothing_to_compare(self) -> None:
        with self.assertRaisesRegex(UserError, "a.deb has no program and no library: compare it with --sums"):
            self.compared()


class Packages(unittest.TestCase):
    def parts(self, **files: object) -> list[ProductPart]:
        given = {name.replace("__", "/").replace("_", "."): file for name, file in files.items()}
        with mock.patch.object(archives, "is_package", return_value=True), mock.patch.object(archives, "files_in", return_value=given):
            return verifying.parts_of("a.deb", b"")

    def test_products(self) -> None:
        found = self.parts(
            usr__bin__rvstm=SimpleNamespace(data=b"p"), usr__lib__librvstm_a=SimpleNamespace(data=b"a"),
            usr__lib__librvstm_so_0=SimpleNamespace(data=b"s"), usr__share__page=SimpleNamespace(data=b"no product"),
            usr__lib__librvstm_so=Link("librvstm.so.0"), **{"usr/bin/rvstm-tools": parts.TOOLS_LINK},
        )
        self.assertEqual([(part.product, part.data) for part in found], [(PROGRAM, b"p"), (ARCHIVE, b"a"), (SHARED, b"s")])

    def test_links_of_no_release(self) -> None:
        for name, link in (
            ("usr/lib/librvstm.so", Link("/etc/passwd")), ("usr/lib/librvstm.a", Link("librvstm.so.0")), ("usr/bin/rvstm", parts.TOOLS_LINK),
            ("usr/share/rvstm-tools", parts.TOOLS_LINK), ("usr/bin/rvstm-tools", Link("/etc/passwd")),
        ):
            with self.subTest(name), self.assertRaisesRegex(UserError, f"a.deb: it has a link, {name}, which no release has"):
                self.parts(**{name: link})

    def test_sums_are_of_the_program_and_of_whole_packages(self) -> None:
        with mock.patch.object(verifying, "parts_of", return_value=[ProductPart(SHARED, "s", b"s"), ProductPart(PROGRAM, "p", b"p")]):
            found = list(verifying.entries_of("p", b"", {"rvstm": sha(b"p")}))
        self.assertEqual([(entry.name, entry.how, entry.listed) for entry in found], [("p", "bytes as they are", "rvstm")])

    def test_lines_of_checksums(self) -> None:
        with tempfile.NamedTemporaryFile("w", encoding="ascii") as file:
            for text in (f"{'0' * 64}\n", f"{'0' * 64} a b\n", f"{'0' * 63} a\n", f"{'0' * 64} a\nb c\n"):
                Path(file.name).write_text(text, encoding="ascii")
                with self.subTest(text), self.assertRaisesRegex(UserError, "not a file of checksums and names"):
                    verifying.sums_of(file.name)


def program(**changed: int) -> bytes:
    """The head of a program of 64 bits with two entries: a segment of all 180 bytes, and a note of the last four. Some bytes change."""
    data = bytearray(180)
    data[:6] = verifying.ELF_HEAD
    struct.pack_into("<Q", data, 32, 64)
    struct.pack_into("<HH", data, 54, 56, 2)
    struct.pack_into("<IIQQQQQQ", data, 64, verifying.PT_LOAD, 0, 0, 0, 0, 180, 180, 0)
    struct.pack_into("<IIQQQQQQ", data, 120, verifying.PT_NOTE, 0, 176, 0, 0, 4, 4, 0)
    for name, value in changed.items():
        data[int(name[1:])] = value
    return bytes(data)


class WhatIsLoaded(unittest.TestCase):
    def test_sections_and_notes_may_differ(self) -> None:
        for at in (40, 47, 60, 63, 176, 179):
            self.assertTrue(verifying.is_loaded_so(program(**{f"b{at}": 1}), program()), at)
        for at in (39, 48, 59, 64, 64 + 55, 175):
            self.assertFalse(verifying.is_loaded_so(program(**{f"b{at}": 2}), program()), at)

    def test_the_last_segment_is_loaded_too(self) -> None:
        without = program(b64=2, b120=verifying.PT_LOAD)
        self.assertFalse(verifying.is_loaded_so(program(b64=2, b120=verifying.PT_LOAD, b178=1), without))
        self.assertEqual(len(list(verifying.segments_of(program(b54=1)))), 2, "two entries of one byte")

    def test_nothing_is_loaded(self) -> None:
        nothing = program(b64=2)
        self.assertTrue(verifying.is_loaded_so(b"\0" + nothing[1:], nothing))

    def test_what_is_no_such_program(self) -> None:
        with mock.patch.object(products, "stripped", return_value=program()):
            self.assertEqual(verifying.bare("p", program(b176=1)), program())
            for data, reason in ((b"\x7fELF\x01\x01" + program()[6:], "NOT a program of 64 bits"),
                                 (program(b175=1), "NOT what its sections say: other bytes are loaded")):
                with self.subTest(reason), self.assertRaisesRegex(UserError, f"p: {reason}"):
                    verifying.bare("p", data)

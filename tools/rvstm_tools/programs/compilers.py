"""What builds a contract on this machine, and Debian's packages of what is not there."""

import shutil
import subprocess
from dataclasses import dataclass
from pathlib import Path

TARGET = "riscv32im-unknown-none-elf"
OF_LIBRARIES = "rust-src and librust-compiler-builtins-dev"


@dataclass(frozen=True)
class Need:
    program: str
    package: str

    def is_there(self) -> bool:
        return shutil.which(self.program) is not None


LINKER, MAKE = Need("ld.lld", "lld"), Need("make", "make")
OF_C = (Need("clang", "clang"), LINKER, Need("llvm-addr2line", "llvm"), MAKE)
OF_RUST = (Need("cargo", "cargo"), Need("rustc", "rustc"), LINKER, Need("llvm-strip", "llvm"), MAKE)


def lack(sdk: Path, *, is_rust: bool) -> str | None:
    """What a build lacks here, and what to do about it; None if nothing is missing."""
    missing = [need for need in (OF_RUST if is_rust else OF_C) if not need.is_there()]
    if missing:
        packages = " ".join(need.package for need in missing)
        return f"{', '.join(need.program for need in missing)} not found; `apt-get install {packages}` installs it"
    if is_rust and not has_libraries():
        return (
            f"Rust has no libraries for {TARGET}; `sh {sdk}/rust/build-libraries` builds them, once and as root, of Debian's packages "
            f"{OF_LIBRARIES}; with rustup `rustup target add {TARGET}` fetches them"
        )
    return None


def has_libraries() -> bool:
    words = ["rustc", "--print", "target-libdir", "--target", TARGET]
    done = subprocess.run(words, capture_output=True, encoding="utf-8", check=False)
    return done.returncode == 0 and any(Path(done.stdout.strip()).glob("libcore*.rlib"))

//! Gives the linker the path of contract.ld, and stops a build of a contract without optimization, which is too large for rvstm.

use std::{env, path::Path, process::exit};

fn main() {
    let is_contract = env::var("CARGO_CFG_TARGET_ARCH").as_deref() == Ok("riscv32");
    if is_contract && env::var("OPT_LEVEL").as_deref() == Ok("0") {
        eprintln!("a contract needs opt-level 1, 2, 3, \"s\" or \"z\": use `cargo build --release`, or set opt-level in this profile");
        exit(1);
    }
    let here = env::var("CARGO_MANIFEST_DIR").expect("cargo sets it");
    let sdk = Path::new(&here).parent().expect("sdk/rust is in sdk");
    println!("cargo:rustc-link-search={}", sdk.display());
    for file in ["contract.ld", "start.S"] {
        println!("cargo:rerun-if-changed={}", sdk.join(file).display());
    }
}

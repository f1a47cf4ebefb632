//! Links librvstm.a of the folder that the environment variable RVSTM_LIBRARY names.

use std::path::PathBuf;
use std::{env, process};

const VARIABLE: &str = "RVSTM_LIBRARY";
const ARCHIVE: &str = "librvstm.a";

fn main() {
    println!("cargo:rerun-if-env-changed={VARIABLE}");
    let folder = match env::var_os(VARIABLE).filter(|folder| !folder.is_empty()) {
        Some(folder) => PathBuf::from(folder),
        None => refused(&format!("set {VARIABLE} to the folder that has {ARCHIVE}")),
    };
    let archive = folder.join(ARCHIVE);
    if !folder.is_absolute() || !archive.is_file() {
        refused(&format!("{VARIABLE}: {} is no file; name its folder by its whole path", archive.display()));
    }
    println!("cargo:rerun-if-changed={}", archive.display());
    println!("cargo:rustc-link-search=native={}", folder.display());
    println!("cargo:rustc-link-lib=static=rvstm");
}

fn refused(why: &str) -> ! {
    eprintln!("rvstm-sys: {why}");
    process::exit(1)
}

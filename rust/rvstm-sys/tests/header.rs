//! The declarations beside `include/rvstm.h`, as a C compiler reads it: sizes, offsets, numbers, and the types of all functions.

use std::collections::BTreeMap;
use std::fmt::Write;
use std::mem::{align_of, MaybeUninit};
use std::path::Path;
use std::process::Command;
use std::ptr::addr_of;
use std::{env, fs};

use rvstm_sys::*;

const DECLARATIONS: &str = include_str!("../src/lib.rs");
const HEADER: &str = include_str!("../../../include/rvstm.h");

/// Sizes and offsets by name: of a struct its size and alignment, of a field its offset and size.
type Layout = BTreeMap<String, (usize, usize)>;

macro_rules! layouts {
    ($($name:ident { $($field:ident),* })*) => {
        fn layouts() -> Layout {
            let mut all = Layout::new();
            $(
                all.insert(stringify!($name).into(), (std::mem::size_of::<$name>(), align_of::<$name>()));
                let place = MaybeUninit::<$name>::uninit();
                $({
                    // SAFETY: the place of a field is taken, and nothing is read.
                    let field = unsafe { addr_of!((*place.as_ptr()).$field) };
                    let offset = field as usize - place.as_ptr() as usize;
                    all.insert(concat!(stringify!($name), ".", stringify!($field)).into(), (offset, size_of_pointed(field)));
                })*
            )*
            all
        }
    };
}

layouts! {
    rvstm_settings { frame_limit, frame_gas, digest, brief }
    rvstm_refusal_parts { line, number, area, name }
    rvstm_key { bytes }
    rvstm_receipt { end, gas, pc, registers, output_length, writes }
    rvstm_write { amount, kind, length, key, value }
    rvstm_change { length, present, key, value }
    rvstm_result_entries { receipts, changes }
}

fn size_of_pointed<T>(_: *const T) -> usize {
    std::mem::size_of::<T>()
}

/// The structs of the header, each with its fields.
fn structs_of_header() -> Vec<(String, Vec<String>)> {
    let parts = HEADER.split("typedef struct {").skip(1);
    parts
        .map(|part| {
            let (body, rest) = part.split_once("} ").unwrap();
            let fields = body.lines().filter_map(|line| line.split_once(';')).map(|(field, _)| {
                let name = field.split('[').next().unwrap().rsplit([' ', '*']).next().unwrap();
                name.to_string()
            });
            (rest.split_once(';').unwrap().0.to_string(), fields.collect())
        })
        .collect()
}

/// The names of the header that are numbers.
fn numbers_of_header() -> Vec<&'static str> {
    let names = HEADER.lines().filter_map(|line| {
        let text = line.trim_start().trim_start_matches("#define ");
        let (name, value) = text.split_once(' ')?;
        (name.starts_with("RVSTM_") && !value.is_empty() && !text.starts_with("RVSTM_H")).then_some(name)
    });
    names.collect()
}

/// What a C program prints that includes the header. The compiler may say nothing.
fn printed_by_c(name: &str, body: &str) -> String {
    let place = Path::new(env!("CARGO_TARGET_TMPDIR")).join(name);
    let source = place.with_extension("c");
    fs::write(&source, format!("#include <stdio.h>\n#include \"rvstm.h\"\n{body}")).unwrap();
    let include = Path::new(env!("CARGO_MANIFEST_DIR")).join("../../include");
    let compiler = env::var("CC").unwrap_or_else(|_| "cc".into());
    let words = ["-Wall", "-Wextra", "-Werror", "-I"];
    let built = Command::new(compiler).args(words).arg(include).arg(&source).arg("-o").arg(&place).output().unwrap();
    assert!(built.status.success() && built.stderr.is_empty(), "{}", String::from_utf8_lossy(&built.stderr));
    let ran = Command::new(place).output().unwrap();
    assert!(ran.status.success());
    String::from_utf8(ran.stdout).unwrap()
}

/// Names and two numbers, as a C program prints them in lines.
fn table(text: &str) -> Layout {
    let rows = text.lines().map(|line| {
        let words: Vec<&str> = line.split(' ').collect();
        (words[0].to_string(), (words[1].parse().unwrap(), words[2].parse().unwrap()))
    });
    rows.collect()
}

#[test]
fn sizes_and_offsets_are_those_of_c() {
    let mut body =
        "#define PRINT(name, one, two) printf(\"%s %zu %zu\\n\", name, one, two)\nint main(void) {\n".to_string();
    for (name, fields) in structs_of_header() {
        writeln!(body, "PRINT(\"{name}\", sizeof({name}), _Alignof({name}));").unwrap();
        for field in fields {
            let size = format!("sizeof((({name} *)0)->{field})");
            writeln!(body, "PRINT(\"{name}.{field}\", offsetof({name}, {field}), {size});").unwrap();
        }
    }
    let mut of_c = table(&printed_by_c("layouts", &format!("{body}}}\n")));
    let handle = (std::mem::size_of::<rvstm_session>(), align_of::<rvstm_session>());
    assert_eq!((std::mem::size_of::<rvstm_image>(), align_of::<rvstm_image>()), handle);
    assert_eq!((std::mem::size_of::<rvstm_block>(), align_of::<rvstm_block>()), handle);
    for name in ["rvstm_session", "rvstm_image", "rvstm_block"] {
        assert_eq!(of_c.remove(name), Some(handle), "{name}");
        // The fields are the library's own, and not public here.
        assert_eq!(of_c.remove(&format!("{name}.at")), Some((0, std::mem::size_of::<usize>())), "{name}");
        assert_eq!(of_c.remove(&format!("{name}.full")), Some((std::mem::size_of::<usize>(), 1)), "{name}");
    }
    assert_eq!(of_c, layouts());
}

#[test]
fn numbers_are_those_of_c() {
    let mut body = "int main(void) {\n".to_string();
    for name in numbers_of_header() {
        writeln!(body, "printf(\"{name} %llu\\n\", (unsigned long long)({name}));").unwrap();
    }
    let printed = printed_by_c("numbers", &format!("{body}}}\n"));
    let of_c: BTreeMap<&str, &str> = printed.lines().filter_map(|line| line.split_once(' ')).collect();
    let greatest = u64::MAX.to_string();
    let declared = DECLARATIONS.lines().filter_map(|line| {
        let (name, rest) = line.strip_prefix("pub const ")?.split_once(": ")?;
        let value = rest.split_once(" = ")?.1.trim_end_matches(';');
        Some((name, if value == "u64::MAX" { greatest.as_str() } else { value }))
    });
    assert_eq!(of_c, declared.collect());
    assert!(of_c.len() > 30, "{of_c:?}");
}

/// A type of Rust in C.
fn in_c(text: &str) -> String {
    let (pointed, prefix) = match (text.strip_prefix("*mut "), text.strip_prefix("*const ")) {
        (Some(pointed), _) => (pointed, ""),
        (_, Some(pointed)) => (pointed, "const "),
        _ => return of_scalar(text).into(),
    };
    format!("{prefix}{} *", of_scalar(pointed))
}

fn of_scalar(text: &str) -> &str {
    match text {
        "u8" => "uint8_t",
        "u32" => "uint32_t",
        "u64" => "uint64_t",
        "usize" => "size_t",
        _ => text,
    }
}

/// C refuses a second declaration of a function with other types.
#[test]
fn functions_have_the_types_of_c() {
    let mut body = String::new();
    let mut names = Vec::new();
    for line in DECLARATIONS.lines().filter_map(|line| line.trim().strip_prefix("pub fn ")) {
        let (name, rest) = line.split_once('(').unwrap();
        let (parameters, result) = rest.split_once(") -> ").unwrap();
        let types: Vec<String> =
            parameters.split(", ").filter_map(|one| one.split_once(": ")).map(|(_, of)| in_c(of)).collect();
        let types = if types.is_empty() { "void".into() } else { types.join(", ") };
        writeln!(body, "{} {name}({types});", in_c(result.trim_end_matches(';'))).unwrap();
        names.push(name);
    }
    printed_by_c("functions", &format!("{body}int main(void) {{ return 0; }}\n"));
    let in_header = HEADER.lines().filter(|line| line.starts_with(|first: char| first.is_ascii_lowercase()));
    let of_c: Vec<&str> = in_header
        .filter_map(|line| line.split_once('(')?.0.rsplit_once(' '))
        .map(|(_, name)| name)
        .filter(|name| name.starts_with("rvstm_"))
        .collect();
    assert_eq!(of_c, names);
}

#[test]
fn the_library_has_the_version_of_the_header() {
    // SAFETY: it takes nothing.
    assert_eq!(unsafe { rvstm_version() }, RVSTM_VERSION);
}

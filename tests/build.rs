//! Finds the Rust sources and the proved libraries outside this project.

use std::path::{Path, PathBuf};
use std::{env, fs};

/// The Rust modules that are built, unchanged; they must stand at the crate's
/// root, because they name each other as `crate::NAME`.
const MODULES: [&str; 8] = [
    "errors",
    "go_duration",
    "go_print",
    "go_strconv",
    "lexer",
    "limits",
    "rfc3339",
    "token",
];

/// The lexer's tests of one byte. None of them is public there, so the build
/// copies each into a module of its own, where it is.
const CLASSES: [&str; 4] = [
    "is_digit",
    "is_ident_start",
    "is_ident_part",
    "is_duration_unit",
];

/// The features that link a static library, each named as its library is.
const LIBRARIES: [&str; 2] = ["exports", "pxf"];

fn main() {
    let project = PathBuf::from(env::var_os("CARGO_MANIFEST_DIR").unwrap());
    let root = project.parent().unwrap();

    let sources = folder("PXF_RUST_SRC", &root.join("../shared/docs/src"));
    let modules = MODULES.map(|name| module(&source(&sources, name), name));
    let classes = classes(&source(&sources, "lexer"));
    let out = PathBuf::from(env::var_os("OUT_DIR").unwrap());
    fs::write(out.join("rust.rs"), modules.concat() + &classes).unwrap();

    let libraries = folder("PXF_LIB", &root.join("target/staticlib"));
    for name in LIBRARIES {
        if env::var_os(format!("CARGO_FEATURE_{}", name.to_uppercase())).is_some() {
            let archive = libraries.join(format!("lib{name}.a"));
            println!("cargo:rerun-if-changed={}", archive.display());
            println!("cargo:rustc-link-search=native={}", libraries.display());
            println!("cargo:rustc-link-lib=static={name}");
        }
    }
}

/// The folder that an environment variable names, or else the usual one.
fn folder(variable: &str, usual: &Path) -> PathBuf {
    println!("cargo:rerun-if-env-changed={variable}");
    env::var_os(variable).map_or(usual.to_path_buf(), PathBuf::from)
}

/// The file of one Rust module. A published source has its whole path in its
/// name; a source in its own folder is `NAME.rs`.
fn source(sources: &Path, name: &str) -> PathBuf {
    let published = format!("src--crates--protowire-pxf--src--{name}.rs.txt");
    let file = [published, format!("{name}.rs")]
        .iter()
        .find_map(|file| sources.join(file).canonicalize().ok())
        .unwrap_or_else(|| {
            panic!(
                "{name}.rs is not in {}: set PXF_RUST_SRC",
                sources.display()
            )
        });
    println!("cargo:rerun-if-changed={}", file.display());
    file
}

/// The line that declares one Rust module.
fn module(file: &Path, name: &str) -> String {
    // Most of the Rust is unused here; its style is its authors' own.
    format!("#[allow(dead_code, clippy::all)]\n#[path = {file:?}]\npub mod {name};\n")
}

/// The module of the lexer's tests of one byte.
fn classes(lexer: &Path) -> String {
    let text = fs::read_to_string(lexer).unwrap();
    let functions = CLASSES.map(|name| function(&text, name)).concat();
    format!("#[allow(clippy::all)]\npub mod classes {{\n{functions}}}\n")
}

/// The text of a function that stands outside of all blocks, made public: it
/// ends with the first brace at a line's start.
fn function(text: &str, name: &str) -> String {
    let (_, after) = text
        .split_once(&format!("fn {name}("))
        .unwrap_or_else(|| panic!("lexer.rs has no function {name}"));
    let (rest, _) = after.split_once("\n}\n").expect("a function's end");
    format!("pub fn {name}({rest}\n}}\n")
}

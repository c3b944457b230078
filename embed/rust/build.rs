//! Finds `libjg.a`, which the crate is linked with: in the folder that the variable `JG_LIB` names; else in `out/` of
//! the repository, where `./jg --lib` puts it; else where `jg.pc` says, which `make install` puts beside pkg-config's
//! other files. For documents no library is needed: with the feature `docs`, and on docs.rs.

use std::env;
use std::fs;
use std::path::{Path, PathBuf};
use std::process::exit;

const LIBRARY: &str = "libjg.a";

/// Where `pkg-config` looks that is told nothing.
const USUAL: [&str; 6] = [
    "/usr/local/lib/x86_64-linux-gnu/pkgconfig",
    "/usr/local/lib/pkgconfig",
    "/usr/local/share/pkgconfig",
    "/usr/lib/x86_64-linux-gnu/pkgconfig",
    "/usr/lib/pkgconfig",
    "/usr/share/pkgconfig",
];

fn paths_in(variable: &str) -> Vec<PathBuf> {
    println!("cargo:rerun-if-env-changed={variable}");
    env::var_os(variable)
        .map(|text| env::split_paths(&text).collect())
        .unwrap_or_default()
}

/// The folders of pkg-config's files, as `pkg-config` looks through them.
fn folders() -> Vec<PathBuf> {
    let mut found = paths_in("PKG_CONFIG_PATH");
    let instead = paths_in("PKG_CONFIG_LIBDIR");
    if instead.is_empty() {
        found.extend(USUAL.iter().map(PathBuf::from));
    } else {
        found.extend(instead);
    }
    found
}

/// The value of a variable of the file, with `${name}` replaced by the value of that.
fn value_of(text: &str, name: &str) -> Option<String> {
    let line = text
        .lines()
        .find_map(|line| line.strip_prefix(name)?.trim_start().strip_prefix('='))?;
    let mut value = line.trim().to_owned();
    while let Some((before, rest)) = value.split_once("${") {
        let (inner, after) = rest.split_once('}')?;
        if inner == name {
            return None;
        }
        value = format!("{before}{}{after}", value_of(text, inner)?);
    }
    Some(value)
}

/// The folder of the library, by `jg.pc`.
fn installed() -> Option<PathBuf> {
    folders().into_iter().find_map(|folder| {
        let text = fs::read_to_string(folder.join("jg.pc")).ok()?;
        let text = format!("pcfiledir={}\n{text}", folder.display());
        value_of(&text, "libdir").map(PathBuf::from)
    })
}

/// The folder of the library, if `JG_LIB` is set, the one that it names.
fn folder() -> Option<PathBuf> {
    println!("cargo:rerun-if-env-changed=JG_LIB");
    if let Some(named) = env::var_os("JG_LIB") {
        return Some(PathBuf::from(named));
    }
    let built = Path::new(&env::var_os("CARGO_MANIFEST_DIR")?).join("../../out");
    if built.join(LIBRARY).exists() {
        return Some(built);
    }
    installed()
}

/// Whether the crate is only read, as for its documents.
fn is_for_documents() -> bool {
    println!("cargo:rerun-if-env-changed=DOCS_RS");
    env::var_os("CARGO_FEATURE_DOCS").is_some() || env::var_os("DOCS_RS").is_some()
}

fn main() {
    if is_for_documents() {
        return;
    }
    let Some(folder) = folder() else {
        eprintln!("jg: {LIBRARY} isn't found; set JG_LIB to its folder, or run ./jg --lib, or make install in embed/c");
        exit(1);
    };
    let library = folder.join(LIBRARY);
    if !library.exists() {
        eprintln!("jg: there is no {}", library.display());
        exit(1);
    }
    println!("cargo:rerun-if-changed={}", library.display());
    println!("cargo:rustc-link-search=native={}", folder.display());
    println!("cargo:rustc-link-lib=static=jg");
}

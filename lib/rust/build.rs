//! Names the library libmesosev to cargo.
//!
//! The environment variable MESOSEV_LIB_DIR names the folder of the library. If it is not set,
//! pkg-config is asked; PKG_CONFIG_PATH can name the folder of mesosev.pc for it. If MESOSEV_STATIC
//! is set, to any value, libmesosev.a is linked, else the shared library. Build scripts of
//! crates that depend on this one find the folder in DEP_MESOSEV_LIB_DIR.

use std::env;
use std::process::{exit, Command};

const VARIABLES: [&str; 6] = [
    "MESOSEV_LIB_DIR",
    "MESOSEV_STATIC",
    "PKG_CONFIG",
    "PKG_CONFIG_LIBDIR",
    "PKG_CONFIG_PATH",
    "PKG_CONFIG_SYSROOT_DIR",
];

fn main() {
    let is_static = env::var_os("MESOSEV_STATIC").is_some();
    let (kind, file) = if is_static {
        ("static", "libmesosev.a")
    } else {
        ("dylib", "libmesosev.so")
    };
    for variable in VARIABLES {
        println!("cargo:rerun-if-env-changed={variable}");
    }
    for folder in folders() {
        println!("cargo:rustc-link-search=native={folder}");
        println!("cargo:rerun-if-changed={folder}/{file}");
        println!("cargo:lib_dir={folder}");
    }
    println!("cargo:rustc-link-lib={kind}=mesosev");
    println!("cargo:rerun-if-changed=build.rs");
}

/// Returns the folders in which the linker is to look for the library.
fn folders() -> Vec<String> {
    match env::var("MESOSEV_LIB_DIR") {
        Ok(folder) if !folder.is_empty() => vec![folder],
        _ => folders_of_pkg_config().unwrap_or_else(|reason| {
            eprintln!("libmesosev was not found: {reason}");
            eprintln!("MESOSEV_LIB_DIR can name the folder of libmesosev.so and libmesosev.a");
            exit(1);
        }),
    }
}

/// Returns the folders that pkg-config prints, or the reason for which it prints none.
fn folders_of_pkg_config() -> Result<Vec<String>, String> {
    let program = env::var("PKG_CONFIG").unwrap_or_else(|_| "pkg-config".to_owned());
    let ran = Command::new(&program)
        .args(["--libs-only-L", "mesosev"])
        // rustc does not search the system's folders for an archive, so these are printed too.
        .env("PKG_CONFIG_ALLOW_SYSTEM_LIBS", "1")
        .output()
        .map_err(|error| format!("{program} cannot be run: {error}"))?;
    if !ran.status.success() {
        return Err(String::from_utf8_lossy(&ran.stderr).trim().to_owned());
    }
    let words = words_of(&String::from_utf8_lossy(&ran.stdout));
    Ok(words
        .iter()
        .filter_map(|word| word.strip_prefix("-L"))
        .map(str::to_owned)
        .collect())
}

/// Splits a text at white space. A backslash before a character makes it a part of the word.
fn words_of(text: &str) -> Vec<String> {
    let mut words = vec![String::new()];
    let mut letters = text.chars();
    while let Some(letter) = letters.next() {
        match (letter, words.last_mut()) {
            ('\\', Some(word)) => word.extend(letters.next()),
            (letter, Some(word)) if !letter.is_whitespace() => word.push(letter),
            _ => words.push(String::new()),
        }
    }
    words.retain(|word| !word.is_empty());
    words
}

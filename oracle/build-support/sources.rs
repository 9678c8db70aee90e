//! Finds the published Rust files, checks them and lists them as modules.

use crate::sha256;
use std::env;
use std::fs;
use std::path::{Path, PathBuf};
use std::process::exit;

/// One line of the list of sums.
pub struct Source {
    pub sum: String,
    pub path: String,
}

/// Checks all files on the list, then writes those of `krate` to `modules.rs`.
pub fn write_modules(krate: &str) {
    let list = PathBuf::from(variable("CARGO_MANIFEST_DIR")).join("../matchlab.sums");
    println!("cargo:rerun-if-env-changed=MATCHLAB_SRC");
    println!("cargo:rerun-if-changed=../build-support");
    println!("cargo:rerun-if-changed={}", list.display());
    let sources = parse(&read(&list));
    let folder = folder();
    for source in &sources {
        println!(
            "cargo:rerun-if-changed={}",
            folder.join(&source.path).display()
        );
        check(&folder, source);
    }
    let modules: String = sources
        .iter()
        .filter_map(|source| module(krate, &folder, source))
        .collect();
    let out = PathBuf::from(variable("OUT_DIR")).join("modules.rs");
    fs::write(&out, modules).expect("modules.rs could not be written");
}

/// The lines of a list in the format of `sha256sum`.
pub fn parse(list: &[u8]) -> Vec<Source> {
    let text = String::from_utf8_lossy(list);
    let lines = text.lines().filter(|line| !line.trim().is_empty());
    lines
        .map(|line| match line.split_once("  ") {
            Some((sum, path)) => Source {
                sum: sum.to_string(),
                path: path.to_string(),
            },
            None => fail(&format!("matchlab.sums: bad line: {line}")),
        })
        .collect()
}

/// The source folder: MATCHLAB_SRC, else the one beside the repository.
fn folder() -> PathBuf {
    let beside = PathBuf::from(variable("CARGO_MANIFEST_DIR")).join("../../../shared/docs/src");
    let folder = env::var_os("MATCHLAB_SRC").map_or(beside, PathBuf::from);
    match fs::canonicalize(&folder) {
        Ok(found) => found,
        Err(_) => fail(&format!(
            "no folder {}; set MATCHLAB_SRC to the folder that holds matchlab's crates/ at commit fe3a82e733 (a full path)",
            folder.display()
        )),
    }
}

/// A changed file would make the comparison speak of some other Rust.
fn check(folder: &Path, source: &Source) {
    let file = folder.join(&source.path);
    let sum = sha256::hex(&read(&file));
    if sum != source.sum {
        fail(&format!(
            "{} is not the published file: its SHA-256 is {sum}, not {}",
            file.display(),
            source.sum
        ));
    }
}

/// The line that compiles a file from where it stands, if it belongs to `krate`.
fn module(krate: &str, folder: &Path, source: &Source) -> Option<String> {
    let file = source.path.strip_prefix(&format!("crates/{krate}/src/"))?;
    let name = file.strip_suffix(".rs")?;
    let path = folder.join(&source.path);
    Some(format!("#[path = {path:?}]\npub mod {name};\n"))
}

fn read(file: &Path) -> Vec<u8> {
    match fs::read(file) {
        Ok(bytes) => bytes,
        Err(error) => fail(&format!("{} cannot be read: {error}", file.display())),
    }
}

fn variable(name: &str) -> String {
    env::var(name).expect("cargo sets this variable for build scripts")
}

fn fail(message: &str) -> ! {
    eprintln!("{message}");
    exit(1);
}

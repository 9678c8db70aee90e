//! Compiles the plain C that the hall's calls are timed beside.

use std::env;
use std::path::{Path, PathBuf};
use std::process::{Command, exit};

/// At -O3 as the library, and strict. -fPIC: Rust's programs may be loaded anywhere.
const FLAGS: [&str; 8] = [
    "-std=c99",
    "-O3",
    "-fPIC",
    "-Wall",
    "-Wextra",
    "-pedantic",
    "-Werror",
    "-c",
];

const SOURCES: [&str; 2] = ["plain", "dispatch"];

fn main() {
    let folder = PathBuf::from(variable("CARGO_MANIFEST_DIR"));
    let include = folder.join("../../include");
    let headers = [include.join("yilgashe.h"), folder.join("src/plain.h")];
    println!("cargo:rerun-if-env-changed=CC");
    for header in headers {
        println!("cargo:rerun-if-changed={}", header.display());
    }
    for name in SOURCES {
        let source = folder.join("src").join(format!("{name}.c"));
        let object = PathBuf::from(variable("OUT_DIR")).join(format!("{name}.o"));
        println!("cargo:rerun-if-changed={}", source.display());
        compile(&source, &include, &object);
        println!("cargo:rustc-link-arg={}", object.display());
    }
}

fn variable(name: &str) -> String {
    env::var(name).expect("set by cargo")
}

/// CC if it is set, else clang, by which the library is compiled too, else cc.
fn compilers() -> Vec<String> {
    match env::var("CC") {
        Ok(named) => vec![named],
        Err(_) => vec!["clang".into(), "cc".into()],
    }
}

/// With the first compiler that is there.
fn compile(source: &Path, include: &Path, object: &Path) {
    for compiler in compilers() {
        let mut command = Command::new(&compiler);
        command.args(FLAGS).arg("-I").arg(include);
        match command.arg(source).arg("-o").arg(object).status() {
            Ok(status) if status.success() => return,
            Ok(_) => fail(&format!("{compiler} does not compile {}", source.display())),
            Err(_) => {}
        }
    }
    fail(&format!(
        "no C compiler ({}), and the hall's calls are timed beside C; install one, or set CC to its name",
        compilers().join(", ")
    ))
}

fn fail(message: &str) -> ! {
    eprintln!("{message}");
    exit(1)
}

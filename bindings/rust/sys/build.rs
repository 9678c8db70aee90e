//! Links libcapi.a from YILGASHE_LIB, else from the project's own build folder.

use std::env;
use std::path::PathBuf;
use std::process::exit;

fn main() {
    println!("cargo:rerun-if-env-changed=YILGASHE_LIB");
    let own = PathBuf::from(env::var_os("CARGO_MANIFEST_DIR").expect("set by cargo"))
        .join("../../../target/staticlib");
    let folder = env::var_os("YILGASHE_LIB").map_or(own, PathBuf::from);
    let library = folder.join("libcapi.a");
    println!("cargo:rerun-if-changed={}", library.display());
    if !library.is_file() {
        let message = format!(
            "no {}; build it with `bindings/build`, or set YILGASHE_LIB to the folder that holds libcapi.a (a full path)",
            library.display()
        );
        eprintln!("{message}");
        exit(1);
    }
    println!("cargo:rustc-link-search=native={}", folder.display());
    println!("cargo:rustc-link-lib=static=capi");
}

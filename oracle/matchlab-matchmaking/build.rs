//! Checks the published Rust files and hands them to the compiler as they are.

#[path = "../build-support/sha256.rs"]
mod sha256;
#[path = "../build-support/sources.rs"]
mod sources;

fn main() {
    sources::write_modules("matchlab-matchmaking");
}

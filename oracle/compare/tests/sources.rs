//! The check of the published files, which the build scripts run.

#[path = "../../build-support/sha256.rs"]
mod sha256;
#[allow(dead_code)] // the tests call the reading of the list alone
#[path = "../../build-support/sources.rs"]
mod sources;

#[test]
fn sha256_known_sums() {
    assert_eq!(
        sha256::hex(b""),
        "e3b0c44298fc1c149afbf4c8996fb92427ae41e4649b934ca495991b7852b855"
    );
    assert_eq!(
        sha256::hex(b"abc"),
        "ba7816bf8f01cfea414140de5dae2223b00361a396177a9cb410ff61f20015ad"
    );
    assert_eq!(
        sha256::hex(b"abcdbcdecdefdefgefghfghighijhijkijkljklmklmnlmnomnopnopq"),
        "248d6a61d20638b8e5c026930c3e6039a33ce45964ff2167f6ecedd419db06c1"
    );
    assert_eq!(
        sha256::hex(&[b'a'; 1_000_000]),
        "cdc76e5c9914fb9281a1c7e284d73e67f1809a48a497200e046d39ccc7112cd0"
    );
}

#[test]
fn the_list_names_the_twelve_files() {
    let listed = sources::parse(include_bytes!("../../matchlab.sums"));
    let name = |krate: &str, file: &str| format!("crates/matchlab-{krate}/src/{file}.rs");
    let core = ["player", "time"].map(|file| name("core", file));
    let matchmaking = [
        "candidate",
        "constraint",
        "latency",
        "matchmaker",
        "objective",
        "party",
        "policy",
        "queue",
        "search",
        "selection",
    ]
    .map(|file| name("matchmaking", file));
    let paths: Vec<String> = listed.iter().map(|source| source.path.clone()).collect();
    assert_eq!(paths, [core.as_slice(), matchmaking.as_slice()].concat());
    assert!(listed.iter().all(|source| source.sum.len() == 64));
}

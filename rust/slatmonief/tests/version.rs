//! The crate has the version of the repository, and its licences.
use std::fs::read_to_string;

/// A file at the top of the repository.
fn top(name: &str) -> String {
    let path = format!("{}/../../{name}", env!("CARGO_MANIFEST_DIR"));
    read_to_string(&path).unwrap_or_else(|error| panic!("{name}: {error}"))
}

#[test]
fn the_version_of_the_repository() {
    assert_eq!(top("VERSION").trim_end(), env!("CARGO_PKG_VERSION"));
}

#[test]
fn the_licences_of_the_repository() {
    assert_eq!(top("LICENSE-MIT.txt"), include_str!("../LICENSE-MIT.txt"));
    assert_eq!(
        top("LICENSE-APACHE.txt"),
        include_str!("../LICENSE-APACHE.txt")
    );
    assert_eq!(env!("CARGO_PKG_LICENSE"), "MIT OR Apache-2.0");
}

//! Header, crate and change log tell one version.

use enclave::VERSION;

// A file of the repository.
fn text(name: &str) -> String {
    let path = format!("{}/../{name}", env!("CARGO_MANIFEST_DIR"));
    std::fs::read_to_string(&path).unwrap_or_else(|error| panic!("{path}: {error}"))
}

// What the header defines a name to be.
fn defined(name: &str) -> String {
    let header = text("include/enclave.h");
    let mut values = header.lines().filter_map(|line| {
        let mut words = line.split_whitespace();
        let is_it = words.next() == Some("#define") && words.next() == Some(name);
        is_it.then(|| words.collect::<Vec<_>>().join(" "))
    });
    values
        .next()
        .unwrap_or_else(|| panic!("{name} is not defined"))
}

#[test]
fn header_has_the_crates_version() {
    assert_eq!(defined("ENCLAVE_VERSION"), format!("\"{VERSION}\""));
    let parts = ["MAJOR", "MINOR", "PATCH"].map(|p| defined(&format!("ENCLAVE_VERSION_{p}")));
    assert_eq!(parts.join("."), VERSION);
}

#[test]
fn last_entry_of_the_change_log_is_of_this_version() {
    let log = text("CHANGELOG.md");
    let mut entries = log.lines().filter(|line| line.starts_with("## ["));
    let last = entries.find(|line| *line != "## [Unreleased]");
    let heading = format!("## [{VERSION}] - ");
    assert!(
        last.is_some_and(|line| line.starts_with(&heading)),
        "{last:?} is not of {VERSION}"
    );
}

//! The version, wherever a host reads it.

use menkhodur::{VERSION, lent, version};
use std::fs;

#[test]
fn package_and_archive_are_of_one_version() {
    assert_eq!((version(), lent::version()), (VERSION, VERSION));
}

#[test]
fn the_header_says_the_same() {
    let header = fs::read_to_string(concat!(env!("CARGO_MANIFEST_DIR"), "/../menkhodur.h")).unwrap();
    let said: Vec<&str> = header.lines().filter_map(|line| line.strip_prefix("#define MENKHODUR_VERSION ")).collect();
    assert_eq!(said, [VERSION.to_string()]);
}

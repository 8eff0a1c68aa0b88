//! Crate, library and header have one version.

use mbelaguy::{version, VERSION};

const HEADER: &str = include_str!("../../c/mbelaguy.h");

/// What the header defines under a name.
fn defined(name: &str) -> &'static str {
    let line = HEADER.lines().find_map(|line| line.strip_prefix(&format!("#define {name} ")));
    line.and_then(|line| line.split_whitespace().next()).expect("the header defines it")
}

#[test]
fn one_version() {
    assert_eq!(version(), VERSION);
    assert_eq!(defined("MBELAGUY_VERSION"), format!("\"{VERSION}\""));
    let numbers = VERSION.split('.').map(|number| number.parse::<u32>().expect("a number"));
    let number = numbers.fold(0, |all, number| 256 * all + number);
    assert_eq!(defined("MBELAGUY_VERSION_NUMBER"), number.to_string());
}

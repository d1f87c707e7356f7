//! One version, that of the file VERSION: the crate's, the header's, and the library's that is linked.

use kettleflock::raw;

const VERSION: &str = include_str!("../../../VERSION");
const HEADER: &str = include_str!("../../../include/kettleflock.h");

/// Major * 65536 + minor.
fn number() -> u32 {
    let mut parts = VERSION.split('.').map(|part| part.trim().parse::<u32>());
    let mut next = || parts.next().expect("three parts").expect("a number");
    let (major, minor, _) = (next(), next(), next());
    major * 65536 + minor
}

#[test]
fn the_crate() {
    assert_eq!(env!("CARGO_PKG_VERSION"), VERSION.trim_end());
    assert_eq!(raw::VERSION, number());
}

#[test]
fn the_header() {
    let defined = HEADER
        .lines()
        .find_map(|line| line.strip_prefix("#define KF_VERSION "));
    assert_eq!(defined, Some(number().to_string().as_str()));
}

#[test]
fn the_library() {
    assert_eq!(raw::version(), number());
}

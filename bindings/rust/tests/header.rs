//! The constants of the C header and of this crate are the same, and the widths of the answers.

use hornherder::{raw, Refusal};
use std::collections::HashMap;
use std::mem::{offset_of, size_of};

const HEADER: &str = include_str!("../../c/hornherder.h");

/// Each constant of the header by its name without the prefix.
fn constants() -> HashMap<&'static str, i64> {
    let defined = HEADER
        .lines()
        .filter_map(|line| line.strip_prefix("#define HORNHERDER_"));
    defined.filter_map(constant).collect()
}

/// One line of the header as name and value. The guard has no value and is none.
fn constant(line: &'static str) -> Option<(&'static str, i64)> {
    let (name, rest) = line.split_once(' ')?;
    let value = rest.split("/*").next()?;
    let digits = value
        .replace("INT64_C", "")
        .replace(['(', ')', 'u', ' '], "");
    let number = digits.parse().expect("a constant of the header");
    Some((name, number))
}

/// A name in the header's spelling: TooManyPoints is TOO_MANY_POINTS.
fn spelt(name: &str) -> String {
    let mut words = String::new();
    for letter in name.chars() {
        if letter.is_uppercase() && !words.is_empty() {
            words.push('_');
        }
        words.push(letter.to_ascii_uppercase());
    }
    words
}

/// Every constant of the header is one of this crate, with the same value.
#[test]
fn same_constants() {
    let mut header = constants();
    let limits = [
        ("VERSION", i64::from(raw::VERSION)),
        ("STACK_BYTES", raw::STACK_BYTES as i64),
        ("MIN_DIMENSION", 1),
        ("MAX_DIMENSION", hornherder::MAX_DIMENSION as i64),
        ("MAX_POINTS", hornherder::MAX_POINTS as i64),
        ("MIN_COORDINATE", i64::from(hornherder::MIN_COORDINATE)),
        ("MAX_COORDINATE", i64::from(hornherder::MAX_COORDINATE)),
        ("MAX_FACES", hornherder::MAX_FACES as i64),
        ("MIN_REGIONS", 1),
        ("MAX_REGIONS", hornherder::MAX_REGIONS as i64),
        ("MIN_COMPONENT", -i64::from(hornherder::MAX_COMPONENT)),
        ("MAX_COMPONENT", i64::from(hornherder::MAX_COMPONENT)),
        ("MIN_OFFSET", -hornherder::MAX_OFFSET),
        ("MAX_OFFSET", hornherder::MAX_OFFSET),
        ("MIN_MARGIN", -hornherder::MAX_MARGIN),
        ("MAX_MARGIN", hornherder::MAX_MARGIN),
        ("DEAD", i64::from(raw::DEAD)),
        ("LIVE", i64::from(raw::LIVE)),
        ("CLOSED_FACE", i64::from(raw::CLOSED_FACE)),
        ("OPEN_FACE", i64::from(raw::OPEN_FACE)),
        ("INSIDE_WITH_BRANCH", i64::from(raw::INSIDE_WITH_BRANCH)),
        ("INSIDE_BY_ITSELF", i64::from(raw::INSIDE_BY_ITSELF)),
        ("OUTSIDE_WITH_BRANCH", i64::from(raw::OUTSIDE_WITH_BRANCH)),
        ("OUTSIDE_BY_ITSELF", i64::from(raw::OUTSIDE_BY_ITSELF)),
        ("DONE", 0),
    ];
    for (name, value) in limits {
        assert_eq!(header.remove(name), Some(value), "{name}");
    }
    for refusal in Refusal::ALL {
        let name = spelt(&format!("{refusal:?}"));
        let number = i64::from(refusal.number());
        assert_eq!(header.remove(&name[..]), Some(number), "{name}");
    }
    assert!(header.is_empty(), "only in the header: {header:?}");
}

/// Every answer has 16 bytes, or 8 where points are arranged and where one is made or taken, and its numbers where the C tests of reasons,
/// margins, readings, arranging and live bytes ask for them.
#[test]
fn same_layout() {
    assert_eq!(size_of::<raw::Listing>(), 16);
    assert_eq!(size_of::<raw::Screening>(), 16);
    assert_eq!(size_of::<raw::Explaining>(), 16);
    assert_eq!(offset_of!(raw::Explaining, reason), 4);
    assert_eq!(offset_of!(raw::Explaining, face), 5);
    assert_eq!(offset_of!(raw::Explaining, slot), 6);
    assert_eq!(offset_of!(raw::Explaining, margin), 8);
    assert_eq!(size_of::<raw::Placing>(), 16);
    assert_eq!(offset_of!(raw::Placing, inside), 4);
    assert_eq!(offset_of!(raw::Placing, measured), 5);
    assert_eq!(offset_of!(raw::Placing, face), 6);
    assert_eq!(offset_of!(raw::Placing, margin), 8);
    assert_eq!(size_of::<raw::Making>(), 8);
    assert_eq!(offset_of!(raw::Making, made), 4);
    assert_eq!(size_of::<raw::Arranging>(), 8);
    assert_eq!(offset_of!(raw::Arranging, already), 4);
    assert_eq!(size_of::<raw::Taking>(), 8);
    assert_eq!(offset_of!(raw::Taking, number), 4);
}

/// The crate's version starts with the header's, which is the library's.
#[test]
fn same_version() {
    let major = env!("CARGO_PKG_VERSION_MAJOR");
    assert_eq!(major.parse(), Ok(raw::VERSION));
    assert_eq!(raw::version(), raw::VERSION);
}

//! A step's note, as the record has it, read back from the original's words.

use crate::emulate::Val;
use crate::stops::hexadecimal;

/// A note with names not yet numbered.
#[derive(Debug, Clone, PartialEq, Eq)]
pub enum Note {
    /// 1: so many fields written from the address on.
    Fields { count: u32, address: u64 },
    /// 2: a value written at the address. The words do not tell its type.
    Value { number: u64, address: u64 },
    /// 3: the result is unknown.
    Unknown,
    /// 4: a call was not followed.
    NotFollowed,
    /// 5: a call was not followed, and took these names.
    Taken(Vec<String>),
}

/// The notes' names, by number; 0 is none.
pub const NAMES: [&str; 6] = [
    "none",
    "fields written",
    "value written",
    "result unknown",
    "not followed",
    "not followed, taken names",
];

const NOT_FOLLOWED: &str =
    "not followed; its result is unknown, and what it wrote to memory is not known";

impl Note {
    pub fn new(text: &str) -> Self {
        if let Some(wrote) = text.strip_prefix("wrote ") {
            return wrote_note(wrote);
        }
        let taken = text
            .strip_prefix("not followed; its result is unknown, as are ")
            .and_then(|rest| rest.strip_suffix(" after it"));
        match (text, taken) {
            ("its result is unknown", _) => Note::Unknown,
            (NOT_FOLLOWED, _) => Note::NotFollowed,
            // Names have no blanks, so the separator is in none of them.
            (_, Some(names)) => Note::Taken(names.split(", ").map(str::to_string).collect()),
            _ => panic!("a note that the original does not write: {text}"),
        }
    }

    pub fn kind(&self) -> u8 {
        match self {
            Note::Fields { .. } => 1,
            Note::Value { .. } => 2,
            Note::Unknown => 3,
            Note::NotFollowed => 4,
            Note::Taken(_) => 5,
        }
    }
}

/// `N fields at ADDRESS`, or `VALUE at ADDRESS`.
fn wrote_note(text: &str) -> Note {
    let (what, address) = text.split_once(" at ").expect("an address is told");
    let address = hexadecimal(address);
    match what.strip_suffix(" fields") {
        Some(count) => Note::Fields {
            count: count.parse().expect("a count"),
            address,
        },
        None => Note::Value {
            number: shown(what),
            address,
        },
    }
}

/// The bits of a known value that the original shows: `7`, or `-6 (0xfa)`.
fn shown(text: &str) -> u64 {
    match text.split_once(" (") {
        Some((_, rest)) => hexadecimal(rest.strip_suffix(')').expect("a closing bracket")),
        None => text.parse().expect("a number up to 9"),
    }
}

/// The value that a note of kind 2 tells, whose type is the pointer's.
pub fn written(number: u64, (bits, signed): (u32, bool)) -> Val {
    let value = Val::known(number, bits, signed);
    assert_eq!(value.value, Some(number), "the value fits its type");
    value
}

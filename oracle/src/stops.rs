//! A run's stop, as the record's Stop has it.
//!
//! The original says why a run stopped in words; here they are read back.

use crate::emulate::{Stop, Val};

/// The record's Stop with names not yet numbered.
#[derive(Debug, Clone, Default, PartialEq, Eq)]
pub struct Stopped {
    pub kind: u8,
    pub reason: u8,
    pub address: Option<u64>,
    pub number: u64,
    pub node: u32,
    pub name: Option<String>,
    pub value: Option<Val>,
}

pub const KINDS: [&str; 8] = [
    "Returned with a value",
    "Returned",
    "Steps",
    "Unknown",
    "NoBlock",
    "NoBlocks",
    "NoReturn",
    "Halted",
];

/// The reasons' names, by number; there is no reason 0.
pub const REASONS: [&str; 10] = [
    "",
    "branch unknown",
    "switch unknown",
    "no case",
    "struct stored to a node",
    "store to an unknown address",
    "unknown value stored",
    "symbol without width",
    "store to a node",
    "division by zero",
];

impl Stopped {
    pub fn new(stop: &Stop) -> Self {
        let of = |kind: u8| Self {
            kind,
            ..Self::default()
        };
        match stop {
            Stop::Returned(Some(value)) => Self {
                value: Some(*value),
                ..of(0)
            },
            Stop::Returned(None) => of(1),
            Stop::Steps(limit) => Self {
                number: *limit as u64,
                ..of(2)
            },
            Stop::Unknown { at, what } => Self {
                address: *at,
                ..unknown(what)
            },
            Stop::NoBlock(block) => Self {
                number: *block as u64,
                ..of(4)
            },
            Stop::NoBlocks => of(5),
            Stop::NoReturn { at } => Self {
                address: *at,
                ..of(6)
            },
            Stop::Halted { at, target } => Self {
                address: *at,
                number: *target,
                ..of(7)
            },
        }
    }
}

/// What stands before and after the one thing that the original's words tell,
/// by reason. The words of 7 begin like those of 8, so 7 is looked for first.
const WORDS: [(u8, &str, &str); 9] = [
    (1, "the branch on ", " depends on an unknown value"),
    (2, "the switch on ", " depends on an unknown value"),
    (3, "no case of the switch takes ", ""),
    (4, "a struct stored to ", ""),
    (5, "the store through ", " goes to an unknown address"),
    (6, "an unknown value stored at ", ""),
    (7, "a store to ", ", whose width the image does not say"),
    (8, "a store to ", ""),
    (9, "a division by zero", ""),
];

/// What the original's words say.
fn unknown(what: &str) -> Stopped {
    let told = |(reason, before, after): &(u8, &str, &'static str)| {
        between(what, before, after).map(|text| (*reason, text))
    };
    let Some((reason, text)) = WORDS.iter().find_map(told) else {
        panic!("a reason that the original does not give: {what}");
    };
    let stopped = Stopped {
        kind: 3,
        reason,
        ..Stopped::default()
    };
    match reason {
        1 | 2 | 4 | 5 | 8 => Stopped {
            node: node(text),
            ..stopped
        },
        3 => Stopped {
            number: text.parse::<i64>().expect("a number") as u64,
            ..stopped
        },
        6 => Stopped {
            number: hexadecimal(text),
            ..stopped
        },
        7 => Stopped {
            name: Some(text.to_string()),
            ..stopped
        },
        _ => stopped,
    }
}

fn between<'a>(text: &'a str, before: &str, after: &str) -> Option<&'a str> {
    text.strip_prefix(before)?.strip_suffix(after)
}

/// The number in `node N`.
fn node(text: &str) -> u32 {
    let number = text.strip_prefix("node ").expect("a node is printed");
    number.parse().expect("a node has a number")
}

/// A number as the original prints addresses.
pub fn hexadecimal(text: &str) -> u64 {
    let digits = text.strip_prefix("0x").expect("0x stands before it");
    u64::from_str_radix(digits, 16).expect("hexadecimal digits")
}

//! Every field of the three files of `every`, with numbers on either side of
//! the limits that document 01 sets somewhere.

use crate::damage::places::{fields, number, put, Place};
use crate::every;
use crate::judge::Files;
use crate::source::file;

/// The case with one field changed, for each field and each number.
pub fn sweep() -> Vec<Files> {
    let case = every::sources();
    let whole = case.files();
    let bodies = [
        case.routine.bodies(),
        case.world.bodies(),
        case.call.bodies(),
    ];
    let mut found = Vec::new();
    for (which, parts) in bodies.iter().enumerate() {
        let mut changed = in_table(parts);
        for body in 0..parts.len() {
            changed.extend(in_body(which, parts, body));
        }
        found.extend(changed.into_iter().map(|bytes| with(&whole, which, bytes)));
    }
    found
}

/// The file with a field of one body changed.
fn in_body(which: usize, parts: &[Vec<u8>], body: usize) -> Vec<Vec<u8>> {
    let counts = counts(parts);
    let mut found = Vec::new();
    for place in fields(which, body, &parts[body]) {
        for new in numbers(&parts[body], place, &counts) {
            let mut parts = parts.to_vec();
            put(&mut parts[body], place, new);
            found.push(file(&parts));
        }
    }
    found
}

/// The file with a word of its table changed.
fn in_table(parts: &[Vec<u8>]) -> Vec<Vec<u8>> {
    let whole = file(parts);
    let mut found = Vec::new();
    for word in 0..1 + 2 * parts.len() {
        let place = (2 * word, 2);
        for new in numbers(&whole, place, &[]) {
            let mut bytes = whole.clone();
            put(&mut bytes, place, new);
            found.push(bytes);
        }
    }
    found
}

fn with(whole: &Files, which: usize, bytes: Vec<u8>) -> Files {
    let mut files = whole.clone();
    match which {
        0 => files.routine = bytes,
        1 => files.world = bytes,
        _ => files.call = bytes,
    }
    files
}

/// How many names, types and nodes there are: what references are held to.
fn counts(parts: &[Vec<u8>]) -> Vec<u64> {
    match parts {
        [names, types, _, nodes, ..] => {
            vec![words(names), words(types), nodes.len() as u64 / 20]
        }
        [names, _, _] => vec![words(names)],
        _ => Vec::new(),
    }
}

/// The count of a body's names or types.
pub fn words(body: &[u8]) -> u64 {
    let mut left = body;
    let mut count = 0;
    while let [length, rest @ ..] = left {
        left = &rest[usize::from(*length)..];
        count += 1;
    }
    count
}

/// Other numbers for a field, each once.
fn numbers(bytes: &[u8], place: Place, counts: &[u64]) -> Vec<u64> {
    let old = number(bytes, place);
    let top = u64::MAX >> (64 - 8 * place.1);
    let limits: &[u64] = match place.1 {
        1 => &[2, 8, 9, 16, 17, 18, 19, 20, 0x1f, 0x20, 0x21, 0x7e, 0x7f],
        4 => &[8, 9, 255, 256, 1_000_000, 1_000_001],
        _ => &[],
    };
    let mut found = vec![0, 1, top, old.wrapping_add(1), old.wrapping_sub(1)];
    found.extend(limits);
    if place.1 == 2 || place.1 == 4 {
        found.extend(counts.iter().flat_map(|count| [count - 1, *count]));
    }
    found.retain(|new| *new != old && *new <= top);
    found.sort_unstable();
    found.dedup();
    found
}

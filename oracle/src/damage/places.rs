//! The fields of a body, and other numbers to put there.

use crate::kinds::END_SWITCH;
use crate::random::Random;

/// An offset in a body and a width in bytes.
pub type Place = (usize, usize);

/// The fields of body `body` of the routine (0), the world (1) or the call.
pub fn fields(file: usize, body: usize, bytes: &[u8]) -> Vec<Place> {
    match (file, body) {
        (0, 0 | 1) | (1, 0) => strings(bytes),
        (0, 2) => head(bytes),
        (0, 3) => rows(bytes, &[1, 1, 2, 4, 4, 8]),
        (0, 4) => rows(bytes, &[1, 8, 4]),
        (0, 5) => blocks(bytes),
        (1, 1) => rows(bytes, &[2, 1, 8]),
        (1, 2) => regions(bytes),
        _ => head_and_rows(bytes, &[4, 4], &[8]),
    }
}

/// Rows of these fields to the body's end.
fn rows(bytes: &[u8], widths: &[usize]) -> Vec<Place> {
    head_and_rows(bytes, &[], widths)
}

fn head(bytes: &[u8]) -> Vec<Place> {
    head_and_rows(bytes, &[2, 8, 2, 1], &[2, 2])
}

fn head_and_rows(bytes: &[u8], head: &[usize], row: &[usize]) -> Vec<Place> {
    let mut places = Vec::new();
    let mut at = 0;
    for &width in head.iter().chain(row.iter().cycle()) {
        if at + width > bytes.len() {
            break;
        }
        places.push((at, width));
        at += width;
    }
    places
}

fn strings(bytes: &[u8]) -> Vec<Place> {
    let mut places = Vec::new();
    let mut at = 0;
    while at < bytes.len() {
        let end = (at + 1 + usize::from(bytes[at])).min(bytes.len());
        places.extend((at..end).map(|byte| (byte, 1)));
        at = end;
    }
    places
}

fn blocks(bytes: &[u8]) -> Vec<Place> {
    let mut places = Vec::new();
    let mut at = 0;
    while at + 24 <= bytes.len() {
        let mut row = vec![2, 1, 1, 8, 4, 4, 4];
        if bytes[at + 2] == END_SWITCH {
            let cases = number(bytes, (at + 16, 4)) as usize;
            row.extend([8, 4].repeat(cases.min(bytes.len())));
        }
        for width in row {
            places.push((at, width));
            at += width;
        }
    }
    places.retain(|(at, width)| at + width <= bytes.len());
    places
}

fn regions(bytes: &[u8]) -> Vec<Place> {
    let mut places = Vec::new();
    let mut at = 0;
    while at + 12 <= bytes.len() {
        places.extend([(at, 8), (at + 8, 4)]);
        at += 12 + number(bytes, (at + 8, 4)) as usize;
    }
    places
}

/// The number that a field holds.
pub fn number(bytes: &[u8], (at, width): Place) -> u64 {
    let mut word = [0; 8];
    word[..width].copy_from_slice(&bytes[at..at + width]);
    u64::from_le_bytes(word)
}

/// Put a number into a field, as far as it fits.
pub fn put(bytes: &mut [u8], (at, width): Place, new: u64) {
    bytes[at..at + width].copy_from_slice(&new.to_le_bytes()[..width]);
}

/// Numbers at the edges of what document 01 allows somewhere.
const EDGES: [u64; 24] = [
    0, 1, 2, 3, 4, 8, 9, 16, 17, 18, 19, 20, 0x1f, 0x20, 0x21, 0x7e, 0x7f, 64, 65, 255, 256, 512,
    1_000_000, 1_000_001,
];

/// Put another number into a field.
pub fn change(random: &mut Random, bytes: &mut [u8], place: Place) {
    let old = number(bytes, place);
    let new = match random.below(8) {
        0 => old.wrapping_add(1),
        1 => old.wrapping_sub(1),
        2 => u64::MAX,
        3 => old ^ (1 << random.below(8 * place.1)),
        4 => random.bits(),
        _ => *random.pick(&EDGES),
    };
    put(bytes, place, new);
}

//! Routines, worlds and calls in words, and the files they become.
//!
//! Names and types get their numbers here. Nothing is checked: the damager
//! writes wrong files with the same means.

mod call;
mod routine;
mod world;

use std::collections::HashMap;

pub use call::Call;
pub use routine::{Block, End, Routine};
pub use world::{Symbol, World};

/// A file of these bodies. Offsets that pass 16 bits are cut, so that a file
/// which is too long can be made.
pub fn file(bodies: &[Vec<u8>]) -> Vec<u8> {
    let mut out = (bodies.len() as u16).to_le_bytes().to_vec();
    let mut offset = 2 + 4 * bodies.len();
    for body in bodies {
        out.extend((offset as u16).to_le_bytes());
        out.extend((body.len() as u16).to_le_bytes());
        offset += body.len();
    }
    out.extend(bodies.concat());
    out
}

/// Words, each after its length.
fn strings(words: &[String]) -> Vec<u8> {
    let mut out = Vec::new();
    for word in words {
        out.push(word.len() as u8);
        out.extend(word.bytes());
    }
    out
}

fn put_address(out: &mut Vec<u8>, address: Option<u64>) {
    out.push(u8::from(address.is_some()));
    out.extend(address.unwrap_or(0).to_le_bytes());
}

/// Each word's number; the last place of a word that is there twice.
fn numbered(words: &[String]) -> HashMap<String, u16> {
    words.iter().cloned().zip(0..).collect()
}

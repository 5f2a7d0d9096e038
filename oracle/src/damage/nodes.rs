//! Faulty nodes: by a kind that is unknown, by a field that their kind bars,
//! or by one that their kind does not use.

use super::places::{put, Place};
use crate::files::NODE_BYTES;
use crate::kinds::*;
use crate::random::Random;
use crate::sweep::words;

const FLAG: Place = (1, 1);
const REFERENCE: Place = (2, 2);
const WIDTH: Place = (4, 4);
const VALUE: Place = (12, 8);

/// Make one to four of a routine's nodes faulty, now and then with a part of
/// a node behind the last.
pub fn faulty(random: &mut Random, bodies: &mut [Vec<u8>]) {
    let words = [words(&bodies[0]), words(&bodies[1])];
    let mut node = 0;
    for _ in 0..random.between(1, 4) {
        let mut nodes = bodies[3].chunks_exact_mut(NODE_BYTES);
        node = chosen(random, node, nodes.len());
        if let Some(fields) = nodes.nth(node) {
            spoil(random, fields, words);
        }
    }
    if random.chance(1, 4) {
        let part = random.between(1, NODE_BYTES - 1);
        bodies[3].extend((0..part).map(|_| random.bits() as u8));
    }
}

/// The first node, the last, any, or the last one chosen.
fn chosen(random: &mut Random, last: usize, count: usize) -> usize {
    let any = random.below(count.max(1));
    *random.pick(&[0, count.saturating_sub(1), any, any, last])
}

fn spoil(random: &mut Random, node: &mut [u8], words: [u64; 2]) {
    match random.below(3) {
        0 => node[0] = random.between(20, 255) as u8,
        1 => put_barred(random, node, words),
        _ => put_unused(random, node),
    }
}

/// Give a field a number that the kind bars; a node whose kind bars none
/// becomes a Constant.
fn put_barred(random: &mut Random, node: &mut [u8], [names, types]: [u64; 2]) {
    let (place, barred) = match node[0] {
        CONSTANT_CONDITION => (FLAG, 2),
        BINARY => (FLAG, 18),
        VAR | FUNCTION_NAME | INTRINSIC => (REFERENCE, names),
        CAST | FIELD => (REFERENCE, types),
        _ => (WIDTH, *random.pick(&[0, 9])),
    };
    if place == WIDTH {
        node[0] = CONSTANT;
    }
    put(node, place, *random.pick(&[barred, u64::MAX]));
}

/// Set a bit of a field that the kind does not use, where there is one.
fn put_unused(random: &mut Random, node: &mut [u8]) {
    let unused: &[Place] = match node[0] {
        REGISTER => return,
        CONSTANT => &[FLAG, REFERENCE],
        VAR | CAST | INTRINSIC => &[FLAG, WIDTH, VALUE],
        FUNCTION_NAME | FIELD => &[FLAG, WIDTH],
        CONSTANT_CONDITION | BINARY => &[REFERENCE, WIDTH, VALUE],
        _ => &[FLAG, REFERENCE, WIDTH, VALUE],
    };
    let place = *random.pick(unused);
    put(node, place, 1 << random.below(8 * place.1));
}

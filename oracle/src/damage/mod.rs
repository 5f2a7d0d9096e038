//! Damaged cases: what a seed makes of a well one.
//!
//! Some damages leave a case that is still accepted; the refusal checker says
//! which refusal, if any, the result meets.

mod nodes;
pub mod places;
mod trees;

use crate::generate::Sources;
use crate::judge::Files;
use crate::random::Random;
use crate::source::file;

/// A damaged case and the kind of its damage.
#[derive(Debug, Clone)]
pub struct Damaged {
    pub files: Files,
    pub how: &'static str,
}

/// The kinds of damage.
pub const KINDS: [&str; 8] = [
    "one field",
    "several fields",
    "table field",
    "body length",
    "tree shape",
    "nodes",
    "random bytes",
    "strange file",
];

/// The damage of a seed.
pub fn damaged(seed: u64, sources: Sources) -> Damaged {
    let mut random = Random::new(seed);
    let kind = *random.pick(&[0, 0, 0, 0, 0, 0, 1, 1, 2, 3, 3, 4, 4, 5, 5, 5, 6, 7]);
    let files = match kind {
        0 => fields(&mut random, &sources, 1),
        1 => {
            let count = random.between(2, 4);
            fields(&mut random, &sources, count)
        }
        2 => table_field(&mut random, &sources),
        3 => body_length(&mut random, &sources),
        4 => trees::misshapen(&mut random, sources).files(),
        5 => faulty_nodes(&mut random, &sources),
        6 => random_bytes(&mut random, &sources),
        _ => strange_file(&mut random, &sources),
    };
    Damaged {
        files,
        how: KINDS[kind],
    }
}

/// The three files as bodies.
type Bodies = [Vec<Vec<u8>>; 3];

fn bodies(sources: &Sources) -> Bodies {
    [
        sources.routine.bodies(),
        sources.world.bodies(),
        sources.call.bodies(),
    ]
}

fn files(bodies: &Bodies) -> Files {
    Files {
        routine: file(&bodies[0]),
        world: file(&bodies[1]),
        call: file(&bodies[2]),
    }
}

/// The file to damage: mostly the routine, which has most to check.
fn which(random: &mut Random) -> usize {
    *random.pick(&[0, 0, 0, 0, 1, 1, 2])
}

fn one_of(files: &mut Files, which: usize) -> &mut Vec<u8> {
    match which {
        0 => &mut files.routine,
        1 => &mut files.world,
        _ => &mut files.call,
    }
}

/// Give so many fields of the bodies other numbers.
fn fields(random: &mut Random, sources: &Sources, count: usize) -> Files {
    let mut bodies = bodies(sources);
    for _ in 0..count {
        let file = which(random);
        let body = random.below(bodies[file].len());
        let places = places::fields(file, body, &bodies[file][body]);
        if !places.is_empty() {
            let place = *random.pick(&places);
            places::change(random, &mut bodies[file][body], place);
        }
    }
    files(&bodies)
}

fn table_field(random: &mut Random, sources: &Sources) -> Files {
    let mut files = sources.files();
    let which = which(random);
    let count = bodies(sources)[which].len();
    let place = 2 * random.below(1 + 2 * count);
    places::change(random, one_of(&mut files, which), (place, 2));
    files
}

/// Make a body longer or shorter, the table agreeing.
fn body_length(random: &mut Random, sources: &Sources) -> Files {
    let mut bodies = bodies(sources);
    let file = which(random);
    let index = random.below(bodies[file].len());
    let body = &mut bodies[file][index];
    let count = random.between(1, 25);
    match random.below(4) {
        0 => body.truncate(body.len().saturating_sub(count)),
        1 => body.extend(vec![0; count]),
        2 => {
            let from = body.len().saturating_sub(count);
            body.extend_from_within(from..);
        }
        _ => body.extend((0..count).map(|_| random.bits() as u8)),
    }
    files(&bodies)
}

fn faulty_nodes(random: &mut Random, sources: &Sources) -> Files {
    let mut bodies = bodies(sources);
    nodes::faulty(random, &mut bodies[0]);
    files(&bodies)
}

/// Change, insert, take out or cut off bytes anywhere.
fn random_bytes(random: &mut Random, sources: &Sources) -> Files {
    let mut files = sources.files();
    let which = which(random);
    let bytes = one_of(&mut files, which);
    for _ in 0..random.between(1, 4) {
        let at = random.below(bytes.len().max(1));
        match random.below(6) {
            0 => bytes.truncate(at),
            1 => bytes.insert(at.min(bytes.len()), random.bits() as u8),
            2 if at < bytes.len() => {
                bytes.remove(at);
            }
            _ if at < bytes.len() => bytes[at] = random.bits() as u8,
            _ => bytes.push(random.bits() as u8),
        }
    }
    files
}

/// Put something else in a file's place.
fn strange_file(random: &mut Random, sources: &Sources) -> Files {
    let mut files = sources.files();
    let (which, other) = (which(random), random.below(3));
    let strange = match random.below(6) {
        0 => Vec::new(),
        1 => one_of(&mut files, other).clone(),
        2 => (0..random.below(80)).map(|_| random.bits() as u8).collect(),
        3 => (0..random.below(80))
            .map(|_| random.below(3) as u8)
            .collect(),
        4 => vec![0; random.between(65_530, 65_540)],
        _ => {
            let mut longer = one_of(&mut files, which).clone();
            longer.resize(random.between(65_530, 65_540), 0);
            longer
        }
    };
    *one_of(&mut files, which) = strange;
    files
}

//! A second world for a run: demand 3 is a claim on two of them.
//!
//! "What a world gives to a question follows from its file alone." Two runs
//! of one routine with equal calls have equal records exactly if the second
//! world gives to every question of the first run the answer written there.

use std::collections::HashSet;

use crate::files::World;
use crate::random::Random;
use crate::source;
use crate::world::Question;

/// What is changed in the second world.
#[derive(Debug, Clone, Copy, PartialEq, Eq)]
pub enum Change {
    /// Every byte and symbol that no question touched: equal records.
    Untouched,
    /// A byte that was answered: different records.
    Answered,
    /// Anything: equal records exactly if the answers agree.
    Any,
}

/// The second world's file, if there is something to change.
pub fn second_world(
    random: &mut Random,
    world: &World,
    questions: &[Question],
    change: Change,
) -> Option<Vec<u8>> {
    let mut second = world.clone();
    let touched = Touched::by(questions);
    let changed = match change {
        Change::Untouched => change_untouched(&mut second, &touched),
        Change::Answered => change_answered(random, &mut second, &touched),
        Change::Any => change_any(random, &mut second),
    };
    changed.then(|| words(&second).file())
}

/// Whether the world gives these answers to these questions.
pub fn agrees(world: &World, questions: &[Question]) -> bool {
    questions.iter().all(|question| match question {
        Question::AddressOf { name, answer } => world.address_of(name) == *answer,
        Question::SizeOf { name, answer } => world.size_of(name) == *answer,
        Question::Read {
            address,
            length,
            answer,
        } => world.read_bytes(*address, *length) == *answer,
        Question::Call { .. } => true,
    })
}

/// The addresses whose bytes were answered, and the names asked by.
struct Touched {
    addresses: HashSet<u64>,
    names: HashSet<String>,
}

impl Touched {
    fn by(questions: &[Question]) -> Self {
        let mut touched = Self {
            addresses: HashSet::new(),
            names: HashSet::new(),
        };
        for question in questions {
            match question {
                Question::AddressOf { name, .. } | Question::SizeOf { name, .. } => {
                    touched.names.insert(name.clone());
                }
                Question::Read {
                    address, answer, ..
                } => {
                    let count = answer.as_ref().map_or(0, Vec::len) as u64;
                    let addresses = (0..count).map(|n| address.wrapping_add(n));
                    touched.addresses.extend(addresses);
                }
                Question::Call { .. } => {}
            }
        }
        touched
    }
}

/// Change all that was not touched; whether there was such a thing.
fn change_untouched(world: &mut World, touched: &Touched) -> bool {
    let mut changed = false;
    for region in &mut world.regions {
        for (byte, n) in region.bytes.iter_mut().zip(0..) {
            if !touched.addresses.contains(&region.address.wrapping_add(n)) {
                *byte = !*byte;
                changed = true;
            }
        }
    }
    for symbol in &mut world.symbols {
        if !touched.names.contains(&symbol.name) {
            symbol.address = !symbol.address;
            symbol.size = !symbol.size;
            changed = true;
        }
    }
    changed
}

/// Change one answered byte, if there is one.
fn change_answered(random: &mut Random, world: &mut World, touched: &Touched) -> bool {
    let mut addresses: Vec<u64> = touched.addresses.iter().copied().collect();
    addresses.sort_unstable();
    if addresses.is_empty() {
        return false;
    }
    let address = *random.pick(&addresses);
    for region in &mut world.regions {
        let offset = address.wrapping_sub(region.address);
        if let Some(byte) = region.bytes.get_mut(offset as usize) {
            *byte ^= 1 << random.below(8);
        }
    }
    true
}

/// Change a byte, a symbol, or what is there at all.
fn change_any(random: &mut Random, world: &mut World) -> bool {
    let (symbols, regions) = (world.symbols.len(), world.regions.len());
    match random.below(6) {
        0 if symbols > 0 => {
            world.symbols.remove(random.below(symbols));
        }
        1 if symbols > 0 => {
            let symbol = &mut world.symbols[random.below(symbols)];
            symbol.size = *random.pick(&[0, 1, 2, 3, 4, 8]);
        }
        2 if symbols > 0 => {
            let symbol = &mut world.symbols[random.below(symbols)];
            symbol.address = symbol.address.wrapping_add(1);
        }
        3 if regions > 0 => {
            world.regions.remove(random.below(regions));
        }
        4 if regions > 0 => {
            let region = &mut world.regions[random.below(regions)];
            let length = random.between(1, region.bytes.len());
            region.bytes.truncate(length);
        }
        _ if regions > 0 => {
            let region = &mut world.regions[random.below(regions)];
            let at = random.below(region.bytes.len());
            region.bytes[at] ^= 1 << random.below(8);
        }
        _ => return false,
    }
    true
}

/// The world in words, without the names that no symbol has.
fn words(world: &World) -> source::World {
    let regions = world.regions.iter();
    let mut words = source::World {
        regions: regions.map(|r| (r.address, r.bytes.clone())).collect(),
        ..source::World::default()
    };
    for symbol in &world.symbols {
        words = words.symbol(&symbol.name, symbol.size, symbol.address);
    }
    words
}

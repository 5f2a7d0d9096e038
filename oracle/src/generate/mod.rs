//! Routines, worlds and calls that a seed decides, all of them accepted.

mod expressions;
mod scene;
mod shapes;
mod statements;

use crate::files;
use crate::judge::Files;
use crate::original;
use crate::random::Random;
use crate::refusal::check;
use crate::source::{Call, Routine, World};

/// A case in words, which the damager can still change.
#[derive(Debug, Clone)]
pub struct Sources {
    pub routine: Routine,
    pub world: World,
    pub call: Call,
}

impl Sources {
    pub fn files(&self) -> Files {
        Files {
            routine: self.routine.file(),
            world: self.world.file(),
            call: self.call.file(),
        }
    }
}

/// How large a case may be.
#[derive(Debug, Clone, Copy, PartialEq, Eq)]
pub enum Size {
    /// Small enough to keep thousands of them in one file.
    Small,
    Any,
}

/// The case of a seed.
pub fn sources(seed: u64, size: Size) -> Sources {
    let mut choice = Random::new(seed);
    let mut sources = accepted(&mut choice, size);
    if choice.chance(1, 4) {
        tighten(&mut choice, &mut sources);
    }
    sources
}

/// The first draft that passes none of the files' limits; hardly one does.
fn accepted(choice: &mut Random, size: Size) -> Sources {
    loop {
        let draft = draft(choice, size);
        let files = draft.files();
        if check(&files.routine, &files.world, &files.call).is_ok() {
            return draft;
        }
    }
}

fn draft(choice: &mut Random, size: Size) -> Sources {
    let shape = match size {
        Size::Small => 100,
        Size::Any => choice.below(100),
    };
    let random = Random::new(choice.bits());
    match shape {
        0..=2 => shapes::around_the_limit(random),
        3..=4 => shapes::one_expression_around_the_limit(random),
        5..=6 => shapes::wide(random),
        7..=8 => shapes::deep(random),
        9..=11 => shapes::long(random),
        _ => shapes::walk(random),
    }
}

/// Set the budget to about what the run spends.
fn tighten(random: &mut Random, sources: &mut Sources) {
    let files = sources.files();
    let ran = original::run(
        &files::Routine::read(&files.routine),
        &files::World::read(&files.world),
        &files::Call::read(&files.call),
    );
    let spent = ran.spent as u32;
    sources.call.steps = match random.below(4) {
        0 => spent,
        1 => spent.saturating_sub(1),
        2 => spent + 1,
        _ => random.below(ran.spent + 1) as u32,
    };
}

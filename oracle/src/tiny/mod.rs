//! Tiny routines, each for one thing that a run does.

mod bools;
mod calls;
mod ends;
mod evaluation;
mod memory;
mod unknowns;
mod variables;

use crate::judge::Files;
use crate::source::{Call, Routine, World};
use crate::tree::{cast, constant, deref, Tree};

pub use ends::{trim, TRIM_LISTING};

/// A tiny case.
#[derive(Debug, Clone)]
pub struct Tiny {
    pub name: &'static str,
    pub files: Files,
}

/// All of them; no two have one name.
pub fn cases() -> Vec<Tiny> {
    [
        ends::cases(),
        ends::budgets(),
        unknowns::cases(),
        variables::cases(),
        memory::cases(),
        evaluation::cases(),
        calls::cases(),
        bools::cases(),
    ]
    .concat()
}

fn tiny(name: &'static str, routine: Routine, world: World, call: Call) -> Tiny {
    Tiny {
        name,
        files: Files {
            routine: routine.file(),
            world: world.file(),
            call: call.file(),
        },
    }
}

/// A case that needs no world and no arguments.
fn alone(name: &'static str, routine: Routine) -> Tiny {
    given(name, routine, &[])
}

/// A case that needs no world.
fn given(name: &'static str, routine: Routine, arguments: &[u64]) -> Tiny {
    tiny(name, routine, World::default(), Call::new(20, arguments))
}

/// A case in a world.
fn within(name: &'static str, routine: Routine, world: World) -> Tiny {
    tiny(name, routine, world, Call::new(20, &[]))
}

/// A routine of return type int.
fn routine() -> Routine {
    Routine::new("f", 0x1000, "int")
}

/// A constant of four bytes.
fn int(value: u64) -> Tree {
    constant(value, 4)
}

/// A constant address.
fn place(address: u64) -> Tree {
    constant(address, 8)
}

/// `*(ty)target`
fn through(ty: &str, target: Tree) -> Tree {
    deref(cast(ty, target))
}

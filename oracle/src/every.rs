//! A small routine with a node of every kind and a terminator of each sort,
//! with its world and call: what `edges` and `sweep` start from.

use crate::ast::BinaryOp::*;
use crate::generate::Sources;
use crate::source::{Call, Routine, World};
use crate::tree::*;

pub fn sources() -> Sources {
    Sources {
        routine: routine(),
        world: World::default()
            .symbol("a", 2, 0x2004)
            .symbol("g", 4, 0x2000)
            .symbol("~", 1, 0x2009)
            .region(0x2000, &[1, 2, 3, 4, 5, 6])
            .region(0x2008, &[7, 8]),
        call: Call::new(30, &[100, 7]),
    }
}

/// The blocks are walked in order, one after the other.
fn routine() -> Routine {
    Routine::new("f", 0x1000, "int")
        .param("n", "uint8_t")
        .param("o", "short")
        .local("m", "int")
        .at(4, assign(var("m"), binary(var("n"), Add, int(200))))
        .then(assign(deref(cast("char *", place(0x2002))), var("o")))
        .goto(1)
        .at(8, assign(deref(place(0x2008)), structure()))
        .then(call(function_name("h", 0x5000), vec![address_of(var("m"))]))
        .then(leaves())
        .branch(Some(12), constant_condition(true), 2, 0)
        .then(assign(var("m"), chosen()))
        .then(plain())
        .switch(None, binary(var("m"), And, int(3)), &[(3, 0), (1, 3)])
        .at(16, give(cast("unsigned", var("m"))))
        .returns()
}

fn int(value: u64) -> Tree {
    constant(value, 4)
}

fn place(address: u64) -> Tree {
    constant(address, 8)
}

fn structure() -> Tree {
    let inner = assign(var("b"), var("g"));
    struct_init(vec![
        field("short", 0, int(5)),
        field("long", 2, binary(inner, Shl, int(1))),
    ])
}

/// What has no value, in an intrinsic.
fn leaves() -> Tree {
    intrinsic(
        "~",
        vec![
            register(32, 1, 2, 3),
            string_literal(),
            condition_false(),
            give_nothing(),
        ],
    )
}

fn chosen() -> Tree {
    ternary(condition_true(), deref(place(0x2008)), var("a"))
}

//! The reasons why a run stops at an unknown.

use super::{alone, int, place, routine, through, within, Tiny};
use crate::ast::BinaryOp::*;
use crate::source::{Routine, World};
use crate::tree::*;

pub fn cases() -> Vec<Tiny> {
    [terminators(), stores(), structs(), symbols(), nested()].concat()
}

/// A routine of one statement, whose local `u` nothing sets.
fn one(tree: Tree) -> Routine {
    routine().local("u", "int").at(4, tree).returns()
}

fn terminators() -> Vec<Tiny> {
    let branch = routine()
        .local("u", "char")
        .at(0x1004, plain())
        .branch(None, var("u"), 0, 0);
    let masked_zero = binary(int(1), Div, int(256 << 32));
    vec![
        alone("branch-unknown", branch),
        alone(
            "switch-unknown",
            routine().switch(Some(0x1008), string_literal(), &[]),
        ),
        alone("division-by-zero", one(give(binary(int(1), Mod, int(0))))),
        alone(
            "division-by-zero-in-a-branch",
            routine().branch(Some(12), masked_zero, 0, 0),
        ),
    ]
}

fn stores() -> Vec<Tiny> {
    let store = |target, value| one(assign(target, value));
    vec![
        alone("store-to-node", store(int(1), int(2))),
        alone(
            "store-unknown-address",
            store(through("short *", var("u")), int(2)),
        ),
        alone(
            "unknown-value-stored",
            store(through("short *", place(0x2000)), var("u")),
        ),
    ]
}

fn structs() -> Vec<Tiny> {
    let store = |target, fields| one(assign(target, struct_init(fields)));
    let seven = || vec![field("int", 4, int(7))];
    let half = vec![
        field("short", 0, int(0x11223344)),
        field("char", 2, var("u")),
    ];
    vec![
        alone("struct-to-node", store(var("u"), seven())),
        alone(
            "struct-unknown-address",
            store(through("struct s *", var("u")), seven()),
        ),
        alone(
            "struct-unknown-field",
            store(through("struct s *", place(0x2000)), half),
        ),
    ]
}

fn symbols() -> Vec<Tiny> {
    let world = |size| World::default().symbol("flags", size, 0x4000);
    vec![
        within(
            "symbol-without-width",
            one(assign(var("flags"), int(1))),
            world(0),
        ),
        within(
            "symbol-of-width-3",
            one(assign(var("flags"), var("flags"))),
            world(3),
        ),
    ]
}

/// Stops in an Assign inside an expression: the second of two alike.
fn nested() -> Vec<Tiny> {
    let store = |target| assign(through("char *", target), int(5));
    let second = binary(store(place(0x2000)), Add, store(var("u")));
    let alike = || assign(through("char *", var("v")), int(5));
    let set = |value| assign(var("v"), value);
    let after = ternary(alike(), set(var("u")), alike());
    let node = |value| assign(condition_true(), int(value));
    vec![
        alone(
            "nested-store-unknown-address",
            one(assign(var("a"), second)),
        ),
        alone(
            "nested-stores-alike",
            routine()
                .local("u", "int")
                .then(set(place(0x2000)))
                .then(give(after))
                .returns(),
        ),
        alone(
            "nested-store-to-node",
            one(give(ternary(condition_false(), node(5), node(6)))),
        ),
    ]
}

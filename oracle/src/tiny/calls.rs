//! Calls, which are not followed.

use super::{alone, int, place, routine, through, tiny, Tiny};
use crate::ast::BinaryOp::LogicalOr;
use crate::source::{Call, Routine, World};
use crate::tree::*;

pub fn cases() -> Vec<Tiny> {
    let world = || World::default().symbol("free", 2, 0x4000);
    let usual = Call::new(20, &[77]);
    let shallow = Call {
        depth: 0,
        ..usual.clone()
    };
    vec![
        tiny("taken-locals", taking(), world(), usual),
        tiny("taken-locals-depth-0", taking(), world(), shallow),
        own_note_first(),
        not_followed(),
    ]
}

fn g(arguments: Vec<Tree>) -> Tree {
    call(function_name("g", 0x5000), arguments)
}

/// A call that takes a parameter twice, a local, and a name that is none.
fn taking() -> Routine {
    let mut arguments: Vec<Tree> = ["b", "a", "free", "a"]
        .into_iter()
        .map(|name| address_of(var(name)))
        .collect();
    arguments.push(constant(200, 1));
    routine()
        .param("a", "uint8_t")
        .local("b", "short")
        .at(0x1000, g(arguments))
        .then(give(var("a")))
        .returns()
}

/// A store's own note stands before that of the call in it.
fn own_note_first() -> Tiny {
    let seven = ternary(condition_true(), int(7), g(vec![]));
    let nine = ternary(condition_false(), g(vec![]), int(9));
    let fields = vec![field("char", 0, nine)];
    let routine = routine()
        .then(assign(through("char *", place(16)), seven))
        .then(assign(deref(place(32)), struct_init(fields)))
        .returns();
    alone("own-note-first", routine)
}

fn not_followed() -> Tiny {
    let either = binary(g(vec![]), LogicalOr, int(1));
    let routine = routine()
        .then(assign(var("x"), g(vec![])))
        .then(call(var("x"), vec![assign(var("y"), int(1))]))
        .then(assign(through("char *", place(16)), either))
        .returns();
    alone("call-not-followed", routine)
}

//! Orders, effects and kinds of evaluation.

use super::{alone, given, int, routine, Tiny};
use crate::ast::BinaryOp::*;
use crate::source::{End, Routine};
use crate::tree::*;

pub fn cases() -> Vec<Tiny> {
    vec![
        nested_assign(),
        both_arms(),
        intrinsic_unknown(),
        alone("unknown-widths", unknown_widths()),
        given("shared-roots", shared_roots(), &[7]),
        odd_leaves(),
    ]
}

fn set(name: &str, value: Tree) -> Tree {
    assign(var(name), value)
}

/// The left operand is evaluated first, and each Assign casts.
fn nested_assign() -> Tiny {
    let less = set("b", binary(var("b"), Sub, int(1)));
    let routine = routine()
        .local("b", "char")
        .then(set("a", binary(set("b", int(0x1ff)), Mul, less)))
        .then(give(var("a")))
        .returns();
    alone("nested-assign", routine)
}

/// Both arms of a Ternary and both sides of a logical operator.
fn both_arms() -> Tiny {
    let arms = ternary(condition_true(), set("a", int(1)), set("b", int(2)));
    let sides = binary(int(0), LogicalAnd, set("e", int(2)));
    let routine = routine()
        .then(set("c", arms))
        .then(set("d", sides))
        .then(give(ternary(var("u"), constant(1, 2), int(2))))
        .returns();
    alone("both-arms", routine)
}

fn intrinsic_unknown() -> Tiny {
    let routine = routine()
        .then(intrinsic("wait", vec![set("a", int(1))]))
        .then(set("b", intrinsic("wait", vec![])))
        .returns();
    alone("intrinsic-unknown", routine)
}

/// What operators make of an unknown operand, kept in names without a type.
fn unknown_widths() -> Routine {
    let unknown = |bits| register(bits, 0, 0, 0);
    let operators = [Add, Div, Shl, Shr, Less, LogicalAnd];
    let mut routine = routine();
    for (op, name) in operators.into_iter().zip(["a", "b", "c", "d", "e", "g"]) {
        let narrow = binary(unknown(16), op, cast("unsigned", int(1)));
        let wide = binary(cast("uint8_t", int(3)), op, unknown(33));
        routine = routine
            .then(set(name, narrow))
            .then(set(&format!("{name}{name}"), wide));
    }
    routine.returns()
}

/// Two statements with one root, one with a root inside another's, and a
/// branch on the same node.
fn shared_roots() -> Routine {
    let mut routine = routine().param("n", "uint8_t");
    let step = set("n", binary(var("n"), Add, int(100)));
    let first = routine.plant(set("m", step));
    let inner = first + 2;
    for root in [first, first, inner] {
        routine.state(None, root);
    }
    routine.close(End::Branch {
        at: None,
        root: inner,
        taken: 1,
        next: 0,
    });
    routine.then(plain()).returns()
}

/// Nodes that have no value, or seldom stand in an expression.
fn odd_leaves() -> Tiny {
    let routine = routine()
        .then(set("a", register(5, 9, 9, 9)))
        .then(set("b", string_literal()))
        .then(set("c", function_name("g", 7)))
        .then(set("d", constant_condition(true)))
        .then(set("e", plain()))
        .then(set("g", give(int(9))))
        .then(set("h", give_nothing()))
        .then(set("i", address_of(int(1))))
        .then(struct_init(vec![]))
        .returns();
    alone("odd-leaves", routine)
}

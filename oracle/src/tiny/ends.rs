//! How runs end.

use super::{alone, int, routine, tiny, Tiny};
use crate::ast::BinaryOp::*;
use crate::source::{Call, Routine, World};
use crate::tree::*;

pub fn cases() -> Vec<Tiny> {
    let mut cases = vec![
        trim(),
        alone("empty", routine()),
        alone("bare-return", routine().then(give_nothing()).returns()),
        alone("block-return", routine().then(plain()).returns()),
        alone("void-return", returning("void", constant(0xff, 1))),
        alone("void-with-a-blank", returning("void ", constant(0xff, 1))),
        alone("returns-unknown", returning("short", register(7, 1, 2, 3))),
        alone("goto-missing", routine().then(plain()).goto(7)),
    ];
    cases.extend(markers());
    cases.extend(switches());
    cases
}

/// Document 01's own routine.
pub fn trim() -> Tiny {
    let sum = binary(var("dwell"), Add, constant(200, 1));
    let routine = Routine::new("trim", 0x1000, "int32_t")
        .param("dwell", "uint8_t")
        .local("sum", "int8_t")
        .at(0x1000, assign(var("sum"), sum))
        .then(give(binary(var("sum"), Sub, constant(50, 1))))
        .returns();
    tiny("trim", routine, World::default(), Call::new(10, &[100]))
}

/// What document 01 prints for it.
pub const TRIM_LISTING: &str = "\
; trim at 0x1000: emulated
  00001000  0  ; sum = 44 (0x2c)
            1
; returned -6 (0xfffffffa)
;   dwell = 100 (0x64)
;   sum = 44 (0x2c)
";

fn returning(ty: &str, value: Tree) -> Routine {
    Routine::new("f", 0, ty).at(8, give(value)).returns()
}

/// The intrinsics that end a run as statements, and only so.
fn markers() -> Vec<Tiny> {
    let unreachable = intrinsic("__builtin_unreachable", vec![assign(var("x"), int(1))]);
    let halted = |arguments| intrinsic("__analysis_halted", arguments);
    let not_so = routine()
        .then(halted(vec![int(1), int(2)]))
        .then(give(halted(vec![int(1)])));
    let target = constant(0x12345678, 1);
    vec![
        alone("unreachable", routine().at(0x1004, unreachable).returns()),
        alone("halted", routine().at(8, halted(vec![target])).returns()),
        alone("halted-not-so", not_so.returns()),
    ]
}

fn switches() -> Vec<Tiny> {
    let unsigned_cases = [(254, 1), (2, 1), (-1, 1)];
    let missing = routine()
        .at(0x1010, plain())
        .switch(None, constant(0xfe, 1), &unsigned_cases);
    let repeated = routine()
        .switch(Some(4), constant(0xff, 1), &[(-1, 2), (-1, 1), (0, 1)])
        .then(give(int(1)))
        .returns()
        .then(give(int(2)))
        .returns();
    vec![
        alone("switch-no-case", missing),
        alone("switch-repeated-case", repeated),
    ]
}

/// Budgets; exactly enough for `spin` is 5.
pub fn budgets() -> Vec<Tiny> {
    let with = |name, routine, steps| tiny(name, routine, World::default(), Call::new(steps, &[]));
    vec![
        with("budget-0", spin(), 0),
        with("budget-1", spin(), 1),
        with("budget-2", spin(), 2),
        with("budget-one-too-few", spin(), 4),
        with("budget-exact", spin(), 5),
        with("empty-budget-0", routine(), 0),
        with("goto-missing-budget-1", routine().goto(3), 1),
        with("jumps-only", routine().goto(1).goto(0), 6),
    ]
}

/// Two blocks and three statements.
fn spin() -> Routine {
    routine()
        .local("n", "int")
        .at(4, assign(var("n"), int(3)))
        .at(8, assign(var("m"), binary(var("n"), Add, int(1))))
        .branch(None, binary(var("m"), Equal, int(4)), 1, 0)
        .then(give(var("m")))
        .returns()
}

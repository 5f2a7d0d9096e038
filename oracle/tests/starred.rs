//! Document 01's starred cases, asked of the original.

use oracle::ast::BinaryOp::{self, *};
use oracle::emulate::{type_of, Val};
use oracle::values::binary;

/// Left, operator, right, result; a number, a width and whether it is signed.
type Case = (
    (u64, u32, bool),
    BinaryOp,
    (u64, u32, bool),
    (u64, u32, bool),
);

const U: bool = false;
const S: bool = true;

const CASES: [Case; 9] = [
    ((100, 8, U), Add, (200, 8, S), (44, 8, U)),
    ((255, 8, S), Add, (1, 32, U), (0, 32, U)),
    ((255, 8, U), Add, (1, 32, S), (256, 32, S)),
    ((1, 24, U), Shl, (8, 8, U), (1, 24, U)),
    ((1, 32, U), Shl, (33, 8, U), (2, 32, U)),
    ((128, 8, S), Shr, (1, 8, U), (192, 8, S)),
    ((128, 8, S), Div, (255, 8, S), (128, 8, S)),
    ((249, 8, S), Mod, (2, 8, S), (255, 8, S)),
    ((255, 8, S), Less, (1, 8, U), (0, 8, U)),
];

#[test]
fn operators() {
    for (left, op, right, expected) in CASES {
        let known = |(number, bits, signed)| Val::known(number, bits, signed);
        let found = binary(op, known(left), known(right));
        assert_eq!(found, Some(known(expected)), "{left:?} {op:?} {right:?}");
    }
}

#[test]
fn unknown_operand_keeps_the_sign() {
    let found = binary(LogicalAnd, Val::unknown(32, S), Val::known(0, 8, U));
    assert_eq!(found, Some(Val::unknown(8, S)));
}

#[test]
fn types() {
    assert_eq!(type_of("unsigned"), (32, U));
    assert_eq!(type_of("char *const"), (64, S));
    assert_eq!(type_of("int short"), (64, S));
}

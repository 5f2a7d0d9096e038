//! Conversions to bool, read from document 02's A4 and ISO C 6.3.1.2 alone:
//! "the result is 0 if the value compares equal to 0; otherwise, the result is
//! 1".
//!
//! To the original a bool is 8 bits unsigned and nothing more. So `trees` gives
//! it `X != 0` wherever X is converted to bool, which is 6.3.1.2 said in C, and
//! all that it then makes of the routine is the second reading. The comparison
//! costs no unit and asks nothing, and of an unknown X it is unknown.

use std::fmt::Debug;

use crate::ast::{AstNode, BinaryOp};
use crate::files;

/// Where something is converted to a type.
#[derive(Debug, Clone, Copy, PartialEq, Eq)]
pub enum Place {
    Cast,
    Parameter,
    /// An assignment to a declared name.
    Name,
    /// A store through a pointer that is a Cast.
    Pointer,
    Field,
    Return,
}

pub const PLACES: [Place; 6] = [
    Place::Cast,
    Place::Parameter,
    Place::Name,
    Place::Pointer,
    Place::Field,
    Place::Return,
];

/// Whether a spelling names bool: one such word, any number of `const` and
/// `volatile`, and no other word.
pub fn is_bool(ty: &str) -> bool {
    let words = ty.split(' ').filter(|word| !word.is_empty());
    let words: Vec<&str> = words
        .filter(|word| !matches!(*word, "const" | "volatile"))
        .collect();
    matches!(words[..], [word] if names_bool(word))
}

fn names_bool(word: &str) -> bool {
    matches!(word, "_Bool" | "bool")
}

/// Whether a spelling has one of the two words anywhere in it.
pub fn has_bool(ty: &str) -> bool {
    let in_no_word = |c: char| !c.is_ascii_alphanumeric() && c != '_';
    ty.split(in_no_word).any(names_bool)
}

/// Whether one of a routine file's types has one of the two words: of such a
/// routine the original alone is no judge.
pub fn speaks_of_bool(routine: &[u8]) -> bool {
    files::types(routine).iter().any(|ty| has_bool(ty))
}

/// What a pointer's spelling points at.
pub fn pointee(ty: &str) -> Option<&str> {
    ty.trim_end_matches(' ').strip_suffix('*')
}

/// `X != 0`, with a zero that no file has: its width is over a file's eight
/// bytes, so that what was inserted can be told from what was there.
pub fn converted(tree: AstNode) -> AstNode {
    AstNode::binary(tree, BinaryOp::NotEqual, zero())
}

/// The X of a comparison that was inserted.
pub fn operand(tree: &AstNode) -> Option<&AstNode> {
    match tree {
        AstNode::Binary { lhs, rhs, .. } if **rhs == zero() => Some(lhs),
        _ => None,
    }
}

/// How many comparisons were inserted into what is grown.
pub fn inserted(grown: &impl Debug) -> usize {
    let zero = format!("{:?}", zero());
    format!("{grown:?}").matches(&zero).count()
}

fn zero() -> AstNode {
    AstNode::constant(0, 9)
}

//! Marks that tell a node's number and change nothing that a run does.
//!
//! The original copies the two sides of an Assign that stands inside an
//! expression, and a stop in there prints a part of the copy. Three parts can
//! be printed: a left side that is no Var and no Deref, which is never
//! evaluated; the target of a Deref on the left; and the target of a Cast there.
//! So the harness runs such a routine once more, on trees where each of these
//! parts bears its number:
//!
//! - `X` becomes `true ? X : N`, which evaluates X and nothing else;
//! - a Cast that the original must see as a Cast keeps its place, and its
//!   spelling gets a tail of blanks that spell N. The original trims blanks,
//!   and these two (tab and line end) are in no file.
//!
//! `original` checks that both runs are equal in all but that print.

use crate::ast::AstNode;

const ZERO: char = '\t';
const ONE: char = '\n';

/// The expression, marked.
pub fn around(tree: AstNode, number: usize) -> AstNode {
    AstNode::Ternary {
        cond: Box::new(AstNode::ConditionTrue),
        then: Box::new(tree),
        otherwise: Box::new(AstNode::constant(number as u64, 8)),
    }
}

/// The spelling, marked.
pub fn spelling(ty: &str, number: usize) -> String {
    let digits = format!("{number:b}");
    let blanks = digits
        .chars()
        .map(|digit| if digit == '1' { ONE } else { ZERO });
    ty.chars().chain(blanks).collect()
}

/// The number that a marked node bears.
pub fn read(node: &AstNode) -> Option<usize> {
    match node {
        AstNode::Cast { ty, .. } => read_spelling(ty),
        AstNode::Ternary { otherwise, .. } => match otherwise.as_ref() {
            AstNode::Constant { value, .. } => usize::try_from(*value).ok(),
            _ => None,
        },
        _ => None,
    }
}

fn read_spelling(ty: &str) -> Option<usize> {
    let blank = |c: char| c == ZERO || c == ONE;
    let digits: String = ty[ty.trim_end_matches(blank).len()..]
        .chars()
        .map(|c| if c == ONE { '1' } else { '0' })
        .collect();
    usize::from_str_radix(&digits, 2).ok()
}

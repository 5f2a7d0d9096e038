//! What the original takes from its lifter: a function with its block graph,
//! and the two marker intrinsics.

use crate::ast::AstNode;
use crate::structure::Node;

/// The marker after a call that never returns.
pub const UNREACHABLE: &str = "__builtin_unreachable";

/// The marker where the analysis stopped; its one argument is the target.
pub const HALTED: &str = "__analysis_halted";

/// A lifted function: its head and its blocks.
#[derive(Debug, Clone, PartialEq)]
pub struct Stages {
    pub function: Function,
    pub medium: Vec<Node>,
}

/// A function's head.
#[derive(Debug, Clone, PartialEq)]
pub struct Function {
    pub name: String,
    pub address: u64,
    pub return_type: String,
    pub params: Vec<Variable>,
    pub locals: Vec<Variable>,
}

/// A declared parameter or local.
#[derive(Debug, Clone, PartialEq)]
pub struct Variable {
    pub name: String,
    pub ty: String,
}

/// The target that a halted marker names: the value, unmasked, of its one
/// Constant argument.
pub fn halted_target(node: &AstNode) -> Option<u64> {
    match node {
        AstNode::Intrinsic { name, args } if name == HALTED => match args.as_slice() {
            [AstNode::Constant { value, .. }] => Some(*value),
            _ => None,
        },
        _ => None,
    }
}

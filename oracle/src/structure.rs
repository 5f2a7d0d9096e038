//! What the original takes from its structurer: blocks of statements.

use crate::ast::AstNode;

/// A block: its statements and how it ends.
#[derive(Debug, Clone, PartialEq)]
pub struct Node {
    pub statements: Vec<Statement>,
    pub terminator: Terminator,
}

/// A statement and the addresses it came from.
#[derive(Debug, Clone, PartialEq)]
pub struct Statement {
    pub node: AstNode,
    pub addresses: Vec<u64>,
}

/// How a block ends.
#[derive(Debug, Clone, PartialEq)]
pub enum Terminator {
    Return,
    Goto {
        target: usize,
    },
    Branch {
        cond: AstNode,
        taken: usize,
        next: usize,
        addresses: Vec<u64>,
    },
    Switch {
        index: AstNode,
        cases: Vec<(Vec<i64>, usize)>,
        addresses: Vec<u64>,
    },
}

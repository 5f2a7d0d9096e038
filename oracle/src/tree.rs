//! Trees to write into a routine file, one function per kind of node.

use crate::ast::BinaryOp;
use crate::kinds::*;

/// A node with all under it; names and types are still words.
#[derive(Debug, Clone, PartialEq, Eq)]
pub struct Tree {
    pub kind: u8,
    pub flag: u8,
    pub reference: Reference,
    pub width: u32,
    pub value: u64,
    pub children: Vec<Tree>,
}

/// What a node's `ref` says.
#[derive(Debug, Clone, PartialEq, Eq)]
pub enum Reference {
    Number(u16),
    Name(String),
    Type(String),
}

impl Tree {
    /// The count of its nodes.
    pub fn span(&self) -> u32 {
        1 + self.children.iter().map(Tree::span).sum::<u32>()
    }

    /// The nodes of its longest chain from parent to child.
    pub fn depth(&self) -> usize {
        1 + self.children.iter().map(Tree::depth).max().unwrap_or(0)
    }
}

fn tree(kind: u8, children: Vec<Tree>) -> Tree {
    Tree {
        kind,
        flag: 0,
        reference: Reference::Number(0),
        width: 0,
        value: 0,
        children,
    }
}

/// A constant of `width` bytes.
pub fn constant(value: u64, width: u32) -> Tree {
    Tree {
        value,
        width,
        ..tree(CONSTANT, vec![])
    }
}

pub fn var(name: &str) -> Tree {
    named(name, tree(VAR, vec![]))
}

/// A register of `bits`; what else says which register it is.
pub fn register(bits: u32, class: u8, index: u16, position: u64) -> Tree {
    Tree {
        flag: class,
        reference: Reference::Number(index),
        width: bits,
        value: position,
        ..tree(REGISTER, vec![])
    }
}

pub fn string_literal() -> Tree {
    tree(STRING_LITERAL, vec![])
}

pub fn function_name(name: &str, address: u64) -> Tree {
    Tree {
        value: address,
        ..named(name, tree(FUNCTION_NAME, vec![]))
    }
}

pub fn condition_true() -> Tree {
    tree(CONDITION_TRUE, vec![])
}

pub fn condition_false() -> Tree {
    tree(CONDITION_FALSE, vec![])
}

pub fn constant_condition(holds: bool) -> Tree {
    Tree {
        flag: u8::from(holds),
        ..tree(CONSTANT_CONDITION, vec![])
    }
}

pub fn cast(ty: &str, target: Tree) -> Tree {
    typed(ty, tree(CAST, vec![target]))
}

pub fn deref(target: Tree) -> Tree {
    tree(DEREF, vec![target])
}

pub fn address_of(target: Tree) -> Tree {
    tree(ADDRESS_OF, vec![target])
}

pub fn ternary(cond: Tree, then: Tree, otherwise: Tree) -> Tree {
    tree(TERNARY, vec![cond, then, otherwise])
}

pub fn binary(left: Tree, op: BinaryOp, right: Tree) -> Tree {
    Tree {
        flag: op as u8,
        ..tree(BINARY, vec![left, right])
    }
}

pub fn assign(left: Tree, right: Tree) -> Tree {
    tree(ASSIGN, vec![left, right])
}

pub fn call(callee: Tree, arguments: Vec<Tree>) -> Tree {
    let mut children = vec![callee];
    children.extend(arguments);
    tree(CALL, children)
}

pub fn intrinsic(name: &str, arguments: Vec<Tree>) -> Tree {
    named(name, tree(INTRINSIC, arguments))
}

pub fn give(value: Tree) -> Tree {
    tree(RETURN, vec![value])
}

pub fn give_nothing() -> Tree {
    tree(RETURN, vec![])
}

pub fn struct_init(fields: Vec<Tree>) -> Tree {
    tree(STRUCT_INIT, fields)
}

pub fn field(ty: &str, offset: u64, value: Tree) -> Tree {
    Tree {
        value: offset,
        ..typed(ty, tree(FIELD, vec![value]))
    }
}

pub fn plain() -> Tree {
    tree(PLAIN, vec![])
}

fn named(name: &str, tree: Tree) -> Tree {
    Tree {
        reference: Reference::Name(name.to_string()),
        ..tree
    }
}

fn typed(ty: &str, tree: Tree) -> Tree {
    Tree {
        reference: Reference::Type(ty.to_string()),
        ..tree
    }
}

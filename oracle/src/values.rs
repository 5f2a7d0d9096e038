//! The original's value layer, seen through its public interface alone.
//!
//! `binary` and `cast` are private to the original. A routine without a
//! declared type of return that says `return f() OP g();`, in a world whose
//! calls answer with prepared values, returns exactly `binary(OP, f, g)`, and
//! `return (TYPE)f();` exactly the cast. `*(TYPE)ADDRESS` shows what the
//! original takes a pointer type to point at.

use std::cell::{Cell, RefCell};

use crate::ast::{AstNode, BinaryOp};
use crate::emulate::{run, Limits, Memory, Run, Stop, Val, World};
use crate::lift::{Function, Stages};
use crate::structure::{Node, Statement, Terminator};

/// The operators in the order of `BinaryOp`, which is their order in a file.
pub const OPERATORS: [BinaryOp; 18] = [
    BinaryOp::Add,
    BinaryOp::Sub,
    BinaryOp::Mul,
    BinaryOp::Div,
    BinaryOp::Mod,
    BinaryOp::And,
    BinaryOp::Or,
    BinaryOp::Xor,
    BinaryOp::Shl,
    BinaryOp::Shr,
    BinaryOp::Equal,
    BinaryOp::NotEqual,
    BinaryOp::Less,
    BinaryOp::LessEqual,
    BinaryOp::Greater,
    BinaryOp::GreaterEqual,
    BinaryOp::LogicalAnd,
    BinaryOp::LogicalOr,
];

/// Whether the operator's known result is a byte that is 1 or 0.
pub fn gives_truth(op: BinaryOp) -> bool {
    op as usize >= BinaryOp::Equal as usize
}

/// What an operator gives: a value, or nothing for a division by zero.
pub fn binary(op: BinaryOp, left: Val, right: Val) -> Option<Val> {
    let tree = AstNode::binary(prepared(0), op, prepared(1));
    match returned(tree, &Answers::new(&[left, right])).stop {
        Stop::Returned(value) => value,
        Stop::Unknown { what, .. } if what == "a division by zero" => None,
        other => panic!("an operator ended in {other:?}"),
    }
}

/// A value converted to the type that `ty` spells.
pub fn cast(ty: &str, operand: Val) -> Val {
    let tree = AstNode::Cast {
        ty: ty.to_string(),
        target: Box::new(prepared(0)),
    };
    result(tree, &Answers::new(&[operand]))
}

/// The width in bits and the sign of what the original reads through a
/// pointer expression that is a cast to `ty`, or through a bare number.
pub fn pointee(ty: Option<&str>) -> (u32, bool) {
    let address = AstNode::constant(0x1000, 8);
    let target = match ty {
        Some(ty) => AstNode::Cast {
            ty: ty.to_string(),
            target: Box::new(address),
        },
        None => address,
    };
    let answers = Answers::new(&[]);
    let read = result(
        AstNode::Deref {
            target: Box::new(target),
        },
        &answers,
    );
    let asked = answers.asked.borrow();
    assert_eq!(*asked, [(read.bits / 8) as usize], "one read of that width");
    (read.bits, read.signed)
}

/// A world that knows no memory and answers call number `n` with value `n`.
struct Answers<'a> {
    values: &'a [Val],
    /// The lengths of the reads that were asked.
    asked: RefCell<Vec<usize>>,
}

impl<'a> Answers<'a> {
    fn new(values: &'a [Val]) -> Self {
        Self {
            values,
            asked: RefCell::new(Vec::new()),
        }
    }
}

impl World for Answers<'_> {
    fn read(&self, _address: u64, len: usize) -> Option<Vec<u8>> {
        self.asked.borrow_mut().push(len);
        None
    }

    fn address_of(&self, _name: &str) -> Option<u64> {
        None
    }

    fn call(
        &self,
        _name: &str,
        address: u64,
        _args: &[Val],
        _depth: usize,
        _memory: &mut Memory,
        _budget: &Cell<usize>,
    ) -> Option<Val> {
        Some(self.values[address as usize])
    }
}

/// The call that prepared value `number` answers.
fn prepared(number: u64) -> AstNode {
    AstNode::Call {
        callee: Box::new(AstNode::FunctionName {
            name: "f".to_string(),
            address: number,
        }),
        args: Vec::new(),
    }
}

/// The value of an expression that must have one.
fn result(tree: AstNode, world: &Answers) -> Val {
    match returned(tree, world).stop {
        Stop::Returned(Some(value)) => value,
        other => panic!("an expression ended in {other:?}"),
    }
}

/// The run of `return tree;` in a function of type `void`, whose return casts
/// nothing.
fn returned(tree: AstNode, world: &Answers) -> Run {
    let root = AstNode::Return {
        value: Some(Box::new(tree)),
    };
    let statement = Statement {
        node: root,
        addresses: Vec::new(),
    };
    let stages = Stages {
        function: Function {
            name: "f".to_string(),
            address: 0,
            return_type: "void".to_string(),
            params: Vec::new(),
            locals: Vec::new(),
        },
        medium: vec![Node {
            statements: vec![statement],
            terminator: Terminator::Return,
        }],
    };
    run(&stages, &[], world, &Limits::default())
}

//! The original's structures, grown from a routine file.

use std::collections::HashMap;

use crate::ast::{AstNode, RegisterRef, StructField};
use crate::boolean::{self, Place};
use crate::emit::{Label, Labels};
use crate::emulate::Val;
use crate::files::{Block, Call, Routine};
use crate::kinds::*;
use crate::lift::{Function, Stages, Variable};
use crate::marks;
use crate::structure::{Node, Statement, Terminator};
use crate::values::OPERATORS;

/// How trees are grown: as the file has them, or with `marks`.
#[derive(Debug, Clone, Copy, PartialEq, Eq)]
pub enum Growth {
    Plain,
    Marked,
    /// Plain, but at this place nothing becomes a bool: what such a conversion
    /// changes can so be seen.
    Without(Place),
}

impl Growth {
    /// Whether what is converted to this type becomes a bool.
    fn makes_bool(self, place: Place, ty: &str) -> bool {
        boolean::is_bool(ty) && self != Growth::Without(place)
    }
}

/// The routine as the original takes it. Each statement and each terminator
/// has a tree of its own, also where roots are shared.
pub fn stages(routine: &Routine, growth: Growth) -> Stages {
    let head = &routine.head;
    let grower = Grower {
        routine,
        growth,
        declared: head.params.iter().chain(&head.locals).copied().collect(),
    };
    let mut dealt = 0;
    let mut medium = Vec::new();
    for block in &routine.blocks {
        let end = dealt + usize::from(block.statements);
        medium.push(grower.block(block, dealt..end));
        dealt = end;
    }
    Stages {
        function: function(routine),
        medium,
    }
}

/// The labels of all nodes in plain trees; of marked trees, whose inner nodes
/// bear their numbers, those of the roots.
pub fn labels(routine: &Routine, stages: &Stages, growth: Growth) -> Labels {
    let mut labels = Labels::new(growth == Growth::Marked);
    let mut statement = 0;
    for (node, block) in stages.medium.iter().zip(&routine.blocks) {
        for grown in &node.statements {
            let root = routine.statements[statement].root as usize;
            if growth != Growth::Marked {
                label(&mut labels, &grown.node, root);
            }
            labels.put(&grown.node, Label::Statement(statement));
            statement += 1;
        }
        if let Terminator::Branch { cond: root, .. } | Terminator::Switch { index: root, .. } =
            &node.terminator
        {
            if growth != Growth::Marked {
                label(&mut labels, root, block.root as usize);
            }
            labels.put(root, Label::Node(block.root as usize));
        }
    }
    labels
}

/// The expression at a node, as `constant_value` takes it: with nothing
/// declared.
pub fn expression(routine: &Routine, node: usize) -> AstNode {
    let grower = Grower {
        routine,
        growth: Growth::Plain,
        declared: HashMap::new(),
    };
    grower.tree(node)
}

/// The call's arguments, "of 64 bits signed as `run` makes them".
pub fn arguments(routine: &Routine, call: &Call, growth: Growth) -> Vec<Val> {
    let params = &routine.head.params;
    let makes_bool = |index: usize| {
        params.get(index).is_some_and(|&(_, ty)| {
            growth.makes_bool(Place::Parameter, &routine.types[usize::from(ty)])
        })
    };
    let argument = |(index, &number): (usize, &u64)| {
        let number = if makes_bool(index) {
            u64::from(number != 0)
        } else {
            number
        };
        Val::known(number, 64, true)
    };
    call.arguments.iter().enumerate().map(argument).collect()
}

fn function(routine: &Routine) -> Function {
    let name = |number: u16| routine.names[usize::from(number)].clone();
    let ty = |number: u16| routine.types[usize::from(number)].clone();
    let variables = |list: &[(u16, u16)]| {
        list.iter()
            .map(|&(n, t)| Variable {
                name: name(n),
                ty: ty(t),
            })
            .collect()
    };
    Function {
        name: name(routine.head.name),
        address: routine.head.address,
        return_type: ty(routine.head.return_type),
        params: variables(&routine.head.params),
        locals: variables(&routine.head.locals),
    }
}

/// Label a plain tree's nodes, which are numbered in the order of their
/// places; gives the number after the tree's last. What was inserted has none.
fn label(labels: &mut Labels, tree: &AstNode, number: usize) -> usize {
    if let Some(operand) = boolean::operand(tree) {
        return label(labels, operand, number);
    }
    labels.put(tree, Label::Node(number));
    let next = number + 1;
    match tree {
        AstNode::StructInit { fields } => fields.iter().fold(next, |next, field| {
            // The field itself has a number, but is no expression.
            label(labels, &field.value, next + 1)
        }),
        _ => children(tree)
            .into_iter()
            .fold(next, |next, child| label(labels, child, next)),
    }
}

/// A node's children that a file has, in the original's field order.
fn children(tree: &AstNode) -> Vec<&AstNode> {
    match tree {
        AstNode::Cast { target, .. }
        | AstNode::Deref { target }
        | AstNode::AddressOf { target } => vec![target],
        AstNode::Ternary {
            cond,
            then,
            otherwise,
        } => vec![cond, then, otherwise],
        AstNode::Binary { lhs, rhs, .. } | AstNode::Assign { lhs, rhs } => vec![lhs, rhs],
        AstNode::Call { callee, args } => std::iter::once(callee.as_ref()).chain(args).collect(),
        AstNode::Intrinsic { args, .. } => args.iter().collect(),
        AstNode::Return { value } => value.iter().map(|value| value.as_ref()).collect(),
        _ => Vec::new(),
    }
}

struct Grower<'a> {
    routine: &'a Routine,
    growth: Growth,
    /// The declared names' types; of a name declared twice, the last one.
    declared: HashMap<u16, u16>,
}

impl Grower<'_> {
    fn block(&self, block: &Block, statements: std::ops::Range<usize>) -> Node {
        Node {
            statements: statements.map(|number| self.statement(number)).collect(),
            terminator: self.terminator(block),
        }
    }

    fn statement(&self, number: usize) -> Statement {
        let statement = &self.routine.statements[number];
        Statement {
            node: self.root(statement.root as usize),
            addresses: statement.address.into_iter().collect(),
        }
    }

    fn terminator(&self, block: &Block) -> Terminator {
        let addresses = block.address.into_iter().collect();
        match block.terminator {
            END_RETURN => Terminator::Return,
            END_GOTO => Terminator::Goto {
                target: block.taken as usize,
            },
            END_BRANCH => Terminator::Branch {
                cond: self.tree(block.root as usize),
                taken: block.taken as usize,
                next: block.next as usize,
                addresses,
            },
            _ => Terminator::Switch {
                index: self.tree(block.root as usize),
                cases: block
                    .cases
                    .iter()
                    .map(|&(value, target)| (vec![value], target as usize))
                    .collect(),
                addresses,
            },
        }
    }

    /// A statement's tree: a Return there is the routine's.
    fn root(&self, at: usize) -> AstNode {
        let below = self.routine.children(at);
        match (self.routine.nodes[at].kind, &below[..]) {
            (RETURN, &[value]) => {
                let ty = self.spelling(self.routine.head.return_type);
                AstNode::Return {
                    value: Some(Box::new(self.converted(Place::Return, ty, value))),
                }
            }
            _ => self.tree(at),
        }
    }

    fn tree(&self, at: usize) -> AstNode {
        let below = self.routine.children(at);
        match self.routine.nodes[at].kind {
            ASSIGN => AstNode::Assign {
                lhs: Box::new(self.left_side(below[0], below[1])),
                rhs: Box::new(self.right_side(below[0], below[1])),
            },
            CALL => AstNode::Call {
                callee: Box::new(self.tree(below[0])),
                args: self.trees(&below[1..]),
            },
            INTRINSIC => AstNode::Intrinsic {
                name: self.name(at),
                args: self.trees(&below),
            },
            RETURN => AstNode::Return {
                value: below.first().map(|&value| Box::new(self.tree(value))),
            },
            STRUCT_INIT => AstNode::StructInit {
                fields: below.iter().map(|&field| self.field(field)).collect(),
            },
            CAST | DEREF | ADDRESS_OF | TERNARY | BINARY => self.operator(at, &below),
            _ => self.leaf(at),
        }
    }

    /// A node with a fixed count of operands.
    fn operator(&self, at: usize, below: &[usize]) -> AstNode {
        let node = &self.routine.nodes[at];
        let child = |index: usize| Box::new(self.tree(below[index]));
        match node.kind {
            CAST => self.cast(at, self.ty(at).to_string()),
            DEREF => AstNode::Deref { target: child(0) },
            ADDRESS_OF => AstNode::AddressOf { target: child(0) },
            TERNARY => AstNode::Ternary {
                cond: child(0),
                then: child(1),
                otherwise: child(2),
            },
            _ => AstNode::Binary {
                lhs: child(0),
                op: OPERATORS[usize::from(node.flag)],
                rhs: child(1),
            },
        }
    }

    fn leaf(&self, at: usize) -> AstNode {
        let node = &self.routine.nodes[at];
        match node.kind {
            CONSTANT => AstNode::constant(node.value, node.width),
            VAR => AstNode::var(self.name(at)),
            REGISTER => AstNode::Register {
                reg: self.register(at),
            },
            STRING_LITERAL => AstNode::StringLiteral {
                text: String::new(),
            },
            FUNCTION_NAME => AstNode::FunctionName {
                name: self.name(at),
                address: node.value,
            },
            CONDITION_TRUE => AstNode::ConditionTrue,
            CONDITION_FALSE => AstNode::ConditionFalse,
            CONSTANT_CONDITION => AstNode::ConstantCondition {
                holds: node.flag == 1,
                compared: Box::new(AstNode::ConditionTrue),
            },
            // A plain statement does nothing and is unknown, like all of
            // Label, Goto, If, IfGoto, Loop, Break and Continue.
            _ => AstNode::Break,
        }
    }

    fn trees(&self, nodes: &[usize]) -> Vec<AstNode> {
        nodes.iter().map(|&node| self.tree(node)).collect()
    }

    fn field(&self, at: usize) -> StructField {
        StructField {
            ty: self.ty(at).to_string(),
            offset: self.routine.nodes[at].value,
            value: self.converted(Place::Field, self.ty(at), at + 1),
        }
    }

    fn register(&self, at: usize) -> RegisterRef {
        let node = &self.routine.nodes[at];
        RegisterRef {
            class: u32::from(node.flag),
            index: u32::from(node.reference),
            bit_size: node.width,
            // The original has 32 bits for it, and never looks at it.
            position: node.value as u32,
        }
    }

    /// A Cast whose type is spelt so.
    fn cast(&self, at: usize, ty: String) -> AstNode {
        let target = self.converted(Place::Cast, self.ty(at), at + 1);
        AstNode::Cast {
            ty,
            target: Box::new(target),
        }
    }

    /// The tree at a node that is converted to a type at this place.
    fn converted(&self, place: Place, ty: &str, node: usize) -> AstNode {
        let tree = self.tree(node);
        if self.growth.makes_bool(place, ty) {
            boolean::converted(tree)
        } else {
            tree
        }
    }

    /// An Assign's left side, its printable part marked in marked trees.
    fn left_side(&self, left: usize, right: usize) -> AstNode {
        let kind = |node: usize| self.routine.nodes[node].kind;
        let deref = |target: AstNode| AstNode::Deref {
            target: Box::new(target),
        };
        let target = left + 1;
        match (kind(left), kind(right) == STRUCT_INIT) {
            (VAR, false) => self.tree(left),
            (DEREF, _) if kind(target) != CAST => deref(self.marked(target)),
            // The original takes this Cast off, and so it converts nothing.
            (DEREF, true) => deref(AstNode::Cast {
                ty: self.ty(target).to_string(),
                target: Box::new(self.marked(target + 1)),
            }),
            (DEREF, false) => deref(self.cast(target, self.marked_spelling(target))),
            _ => self.marked(left),
        }
    }

    fn marked(&self, node: usize) -> AstNode {
        let tree = self.tree(node);
        match self.growth {
            Growth::Marked => marks::around(tree, node),
            _ => tree,
        }
    }

    fn marked_spelling(&self, node: usize) -> String {
        let ty = self.ty(node);
        match self.growth {
            Growth::Marked => marks::spelling(ty, node),
            _ => ty.to_string(),
        }
    }

    /// An Assign's right side, converted to the type that it is stored by. A
    /// structure is stored by its fields' types.
    fn right_side(&self, left: usize, right: usize) -> AstNode {
        match self.stored_by(left) {
            Some((place, ty)) if self.routine.nodes[right].kind != STRUCT_INIT => {
                self.converted(place, ty, right)
            }
            _ => self.tree(right),
        }
    }

    /// The type that a left side stores by: a declared name's, or what a Cast
    /// points at. A symbol has none.
    fn stored_by(&self, left: usize) -> Option<(Place, &str)> {
        let (node, target) = (&self.routine.nodes[left], left + 1);
        match node.kind {
            VAR => {
                let ty = self.declared.get(&node.reference)?;
                Some((Place::Name, self.spelling(*ty)))
            }
            DEREF if self.routine.nodes[target].kind == CAST => {
                let ty = boolean::pointee(self.ty(target))?;
                Some((Place::Pointer, ty))
            }
            _ => None,
        }
    }

    fn name(&self, at: usize) -> String {
        let reference = self.routine.nodes[at].reference;
        self.routine.names[usize::from(reference)].clone()
    }

    fn ty(&self, at: usize) -> &str {
        self.spelling(self.routine.nodes[at].reference)
    }

    fn spelling(&self, ty: u16) -> &str {
        &self.routine.types[usize::from(ty)]
    }
}

//! The emitter's place: it prints a statement as its number and an expression
//! as `node N`.
//!
//! The original's trees carry no numbers, so the number of a node is found by
//! where it lies in storage: before a run the harness writes down every node of
//! its trees with its label. Only a copy is not found there, namely a part of
//! an Assign inside an expression, which the original copies to execute it. It
//! is printed as [`COPY`]; `marks` says how its number is found all the same.

use std::cell::RefCell;
use std::collections::HashMap;

use crate::ast::AstNode;
use crate::marks;

/// What is printed for an expression that is in no table.
pub const COPY: &str = "node ?";

/// What a node is printed as.
#[derive(Debug, Clone, Copy)]
pub enum Label {
    Statement(usize),
    Node(usize),
}

/// The labels of one run's trees.
#[derive(Debug, Default)]
pub struct Labels {
    places: HashMap<usize, Label>,
    /// Whether the trees bear marks.
    marked: bool,
}

impl Labels {
    pub fn new(marked: bool) -> Self {
        Self {
            places: HashMap::new(),
            marked,
        }
    }

    pub fn put(&mut self, node: &AstNode, label: Label) {
        self.places.insert(place(node), label);
    }

    fn print(&self, node: &AstNode) -> String {
        match self.places.get(&place(node)) {
            Some(Label::Statement(number)) => number.to_string(),
            Some(Label::Node(number)) => format!("node {number}"),
            None if self.marked => match marks::read(node) {
                Some(number) => format!("node {number}"),
                None => COPY.to_string(),
            },
            None => COPY.to_string(),
        }
    }
}

fn place(node: &AstNode) -> usize {
    std::ptr::from_ref(node) as usize
}

thread_local! {
    static LABELS: RefCell<Labels> = RefCell::default();
}

/// Do `work` with these labels in force.
pub fn with_labels<T>(labels: Labels, work: impl FnOnce() -> T) -> T {
    let before = LABELS.replace(labels);
    let result = work();
    LABELS.replace(before);
    result
}

/// The original's emitter, which it prints statements and expressions with.
pub fn emit_node(node: &AstNode) -> String {
    LABELS.with_borrow(|labels| labels.print(node))
}

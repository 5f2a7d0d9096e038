//! Trees of a wrong shape, whose spans agree with what is there.

use crate::generate::Sources;
use crate::kinds::{FIELD, STRUCT_INIT};
use crate::random::Random;
use crate::tree::*;

/// Misshape one node of the routine's trees.
pub fn misshapen(random: &mut Random, mut sources: Sources) -> Sources {
    let trees = &mut sources.routine.trees;
    if trees.is_empty() {
        trees.push(field("int", 0, constant(0, 1)));
        return sources;
    }
    let index = random.below(trees.len());
    let top = &mut trees[index];
    let number = random.below(top.span() as usize) as u32;
    let node = find(top, number);
    match random.below(7) {
        0 => {
            node.children.pop();
        }
        1 => node.children.push(constant(1, 1)),
        2 => {
            let child = node.children.first().cloned();
            node.children.extend(child);
        }
        3 => *node = field("int", 0, node.clone()),
        4 => node.children.insert(0, field("int", 0, constant(1, 1))),
        5 => unfielded(node),
        _ => {
            let arguments = random.between(15, 18);
            *node = call(var("f"), vec![node.clone(); arguments]);
        }
    }
    sources
}

/// Take a field out of its StructInit, or make a StructInit without one.
fn unfielded(node: &mut Tree) {
    if node.kind == STRUCT_INIT || node.kind == FIELD {
        let child = node.children.first().cloned();
        *node = child.unwrap_or_else(|| struct_init(vec![plain()]));
    } else {
        *node = struct_init(vec![node.clone()]);
    }
}

/// The node of that number, counted from the tree's top.
fn find(tree: &mut Tree, number: u32) -> &mut Tree {
    if number == 0 {
        return tree;
    }
    let mut left = number - 1;
    for child in &mut tree.children {
        let span = child.span();
        if left < span {
            return find(child, left);
        }
        left -= span;
    }
    panic!("the tree has no such node")
}

//! Generated statements and terminators.

use crate::ast::BinaryOp::*;
use crate::generate::scene::Scene;
use crate::kinds::FIELD;
use crate::lift::{HALTED, UNREACHABLE};
use crate::source::{End, Routine};
use crate::tree::*;

impl Scene {
    /// Set most names, so that the run does not stop at the first of them.
    pub fn add_prologue(&mut self, routine: &mut Routine) {
        let locals = routine.locals.iter().map(|(name, _)| name);
        let mut names: Vec<String> = locals.chain(&self.free).cloned().collect();
        names.dedup();
        for name in names {
            if self.calm() || !self.random.chance(1, 6) {
                let number = self.number();
                let root = routine.plant(assign(var(&name), constant(number, 4)));
                routine.state(None, root);
            }
        }
    }

    /// Add a statement, mostly with a tree of its own.
    pub fn add_statement(&mut self, routine: &mut Routine) {
        let address = self.place();
        let root = if routine.planted() > 0 && self.random.chance(1, 12) {
            self.planted_root(routine)
        } else {
            let tree = self.statement();
            routine.plant(tree)
        };
        routine.state(address, root);
    }

    /// Add `return` with a value.
    pub fn add_return(&mut self, routine: &mut Routine) {
        let (address, tree) = (self.place(), give(self.expression(4)));
        let root = routine.plant(tree);
        routine.state(address, root);
    }

    /// A node that is there already and can be a root, inner ones included.
    pub fn planted_root(&mut self, routine: &Routine) -> u32 {
        loop {
            let number = self.random.below(routine.planted() as usize) as u32;
            if kind_at(routine, number) != FIELD {
                return number;
            }
        }
    }

    fn statement(&mut self) -> Tree {
        match self.random.below(100) {
            0..=44 => assign(var(&self.name()), self.expression(4)),
            45..=67 => assign(deref(self.pointer(2)), self.expression(3)),
            68..=77 => self.struct_store(),
            78..=84 => self.a_call(3),
            85..=88 => intrinsic(&self.word(), vec![self.expression(2)]),
            89..=91 => plain(),
            92..=95 => self.expression(3),
            96..=98 => self.leaving(),
            _ => assign(self.left_side(2), self.expression(2)),
        }
    }

    /// A statement that ends the run.
    fn leaving(&mut self) -> Tree {
        match self.random.below(6) {
            0 => give_nothing(),
            1 => intrinsic(UNREACHABLE, vec![self.expression(2)]),
            2 => intrinsic(UNREACHABLE, vec![]),
            3 => intrinsic(HALTED, vec![self.expression(1)]),
            4 => intrinsic(HALTED, vec![constant(self.number(), 1)]),
            _ => intrinsic(HALTED, vec![constant(1, 1), constant(2, 1)]),
        }
    }

    fn struct_store(&mut self) -> Tree {
        let count = *self.random.pick(&[0, 1, 2, 2, 3, 3, 5]);
        let mut offset = 0u64;
        let mut fields = Vec::new();
        for _ in 0..count {
            fields.push(field(self.ty(), offset, self.expression(2)));
            offset = offset.wrapping_add(*self.random.pick(&[1, 2, 4, 4, 8, 8, u64::MAX]));
        }
        let left = if self.risky() {
            self.left_side(2)
        } else {
            deref(self.struct_pointer())
        };
        assign(left, struct_init(fields))
    }

    fn struct_pointer(&mut self) -> Tree {
        let address = self.address_expression(2);
        match self.random.below(5) {
            0 => address,
            // Only one Cast is taken off.
            1 => cast("struct s *", cast("char", address)),
            _ => cast("struct s *", address),
        }
    }

    /// Make a block of the open statements. Most targets are blocks.
    pub fn close_block(&mut self, routine: &mut Routine, blocks: usize) {
        let end = match self.random.below(10) {
            0..=1 => End::Return,
            2..=3 => End::Goto(self.target(blocks)),
            4..=7 => {
                let cond = self.condition();
                End::Branch {
                    at: self.place(),
                    root: self.root(routine, cond),
                    taken: self.target(blocks),
                    next: self.target(blocks),
                }
            }
            _ => self.switch(routine, blocks),
        };
        routine.close(end);
    }

    fn root(&mut self, routine: &mut Routine, tree: Tree) -> u32 {
        if routine.planted() > 0 && self.random.chance(1, 16) {
            self.planted_root(routine)
        } else {
            routine.plant(tree)
        }
    }

    fn condition(&mut self) -> Tree {
        let relations = [Equal, NotEqual, Less, LessEqual, Greater, GreaterEqual];
        if self.random.chance(1, 3) {
            return self.expression(3);
        }
        let op = *self.random.pick(&relations);
        binary(self.expression(2), op, self.expression(2))
    }

    fn switch(&mut self, routine: &mut Routine, blocks: usize) -> End {
        let index = if self.random.chance(3, 4) {
            binary(self.expression(2), And, constant(3, 1))
        } else {
            self.expression(3)
        };
        let mut cases = Vec::new();
        for _ in 0..*self.random.pick(&[0, 2, 4, 6, 8]) {
            let value = self.random.below(4) as i64;
            cases.push((
                value - i64::from(self.random.chance(1, 8)),
                self.target(blocks),
            ));
        }
        // Most often all four cases are there, after others.
        if self.random.chance(3, 4) {
            for value in 0..4 {
                cases.push((value, self.target(blocks)));
            }
        }
        End::Switch {
            at: self.place(),
            root: self.root(routine, index),
            cases,
        }
    }

    fn target(&mut self, blocks: usize) -> u32 {
        if self.random.chance(1, 60) {
            return (blocks + self.random.below(3)) as u32;
        }
        self.random.below(blocks) as u32
    }
}

/// The kind of a planted node.
fn kind_at(routine: &Routine, number: u32) -> u8 {
    let mut left = number;
    for tree in &routine.trees {
        if left < tree.span() {
            return kind_in(tree, left);
        }
        left -= tree.span();
    }
    panic!("node {number} is not planted")
}

fn kind_in(tree: &Tree, number: u32) -> u8 {
    if number == 0 {
        return tree.kind;
    }
    let mut left = number - 1;
    for child in &tree.children {
        if left < child.span() {
            return kind_in(child, left);
        }
        left -= child.span();
    }
    panic!("the tree has no such node")
}

//! Generated expressions.

use crate::ast::BinaryOp::{self, *};
use crate::generate::scene::Scene;
use crate::tree::*;
use crate::values::OPERATORS;

impl Scene {
    /// An expression of at most so many levels.
    pub fn expression(&mut self, levels: usize) -> Tree {
        if self.risky() {
            return self.unknown();
        }
        if levels <= 1 {
            return self.leaf();
        }
        let below = levels - 1;
        match self.random.below(100) {
            0..=19 => self.leaf(),
            20..=55 => self.operation(below),
            56..=65 => cast(self.ty(), self.expression(below)),
            66..=85 => deref(self.pointer(below)),
            86..=89 => ternary(
                self.expression(below),
                self.expression(below),
                self.expression(below),
            ),
            90..=95 => self.assignment(below),
            96..=97 => give(self.expression(below)),
            _ if self.calm() => self.leaf(),
            98 => self.effects(below),
            _ => self.a_call(below),
        }
    }

    pub fn leaf(&mut self) -> Tree {
        match self.random.below(20) {
            0..=8 => self.number_leaf(),
            9..=16 => var(&self.name()),
            17 => address_of(var(&self.placed_name())),
            18 => constant_condition(self.random.chance(1, 2)),
            _ if self.random.chance(1, 2) => condition_true(),
            _ => condition_false(),
        }
    }

    fn number_leaf(&mut self) -> Tree {
        let width = *self.random.pick(&[1, 1, 2, 4, 4, 4, 8, 8, 3, 5, 6, 7]);
        constant(self.number(), width)
    }

    /// An expression whose value is unknown wherever it stands.
    fn unknown(&mut self) -> Tree {
        match self.random.below(9) {
            0 => {
                let bits = *self.random.pick(&[1, 8, 16, 32, 64, 0, 7, 65, u32::MAX]);
                let index = self.random.bits();
                register(bits, index as u8, index as u16, index)
            }
            1 => string_literal(),
            2 => function_name(&self.word(), self.number()),
            3 => plain(),
            4 => give_nothing(),
            5 => address_of(self.leaf()),
            6 => struct_init(vec![field(self.ty(), 0, self.leaf())]),
            7 => intrinsic(&self.word(), vec![]),
            _ => var(&self.word()),
        }
    }

    fn operation(&mut self, levels: usize) -> Tree {
        let op = *self.random.pick(&OPERATORS);
        let left = self.expression(levels);
        let right = self.expression(levels);
        binary(left, op, self.divisor(op, right))
    }

    /// The right side; a divisor is mostly made odd, so that runs go on.
    fn divisor(&mut self, op: BinaryOp, right: Tree) -> Tree {
        if !matches!(op, Div | Mod) {
            return right;
        }
        match self.random.below(12) {
            0 => constant(0x100, 1),
            1 => right,
            _ => binary(right, Or, constant(1, 1)),
        }
    }

    /// An Assign inside an expression.
    fn assignment(&mut self, levels: usize) -> Tree {
        let right = self.expression(levels);
        let left = self.left_side(levels);
        assign(left, right)
    }

    /// A Var, a Deref, or rarely something that cannot be stored to.
    pub fn left_side(&mut self, levels: usize) -> Tree {
        if self.risky() {
            return self.expression(levels.min(2));
        }
        if self.random.chance(2, 3) {
            var(&self.name())
        } else {
            deref(self.pointer(levels.saturating_sub(1)))
        }
    }

    /// The target of a Deref.
    pub fn pointer(&mut self, levels: usize) -> Tree {
        let address = self.address_expression(levels);
        if self.random.chance(1, 6) {
            return address;
        }
        cast(&self.pointer_type(), address)
    }

    pub fn address_expression(&mut self, levels: usize) -> Tree {
        if self.risky() {
            return self.unknown();
        }
        match self.random.below(10) {
            0..=4 => constant(self.address(), 8),
            5 => constant(self.address(), *self.random.pick(&[1, 2, 4])),
            6 => address_of(var(&self.placed_name())),
            7 if levels > 0 => self.expression(levels.min(3)),
            _ => binary(
                constant(self.address(), 8),
                *self.random.pick(&[Add, Sub]),
                constant(self.random.below(8) as u64, 1),
            ),
        }
    }

    /// An intrinsic that evaluates its arguments.
    fn effects(&mut self, levels: usize) -> Tree {
        let count = self.random.below(4);
        let arguments = (0..count).map(|_| self.expression(levels)).collect();
        intrinsic(&self.word(), arguments)
    }

    /// A call, most arguments of which are addresses of names.
    pub fn a_call(&mut self, levels: usize) -> Tree {
        let callee = match self.random.below(5) {
            0 => self.expression(levels.min(2)),
            _ => function_name(&self.word(), self.number()),
        };
        let count = *self.random.pick(&[0, 1, 2, 2, 3, 4, 16]);
        let arguments = (0..count).map(|_| self.argument(levels)).collect();
        call(callee, arguments)
    }

    fn argument(&mut self, levels: usize) -> Tree {
        if self.random.chance(1, 2) {
            address_of(var(&self.name()))
        } else {
            self.expression(levels.min(2))
        }
    }
}

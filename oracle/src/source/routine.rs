//! A routine in words.

use std::collections::{BTreeSet, HashMap};

use super::{file, numbered, put_address, strings};
use crate::kinds::*;
use crate::tree::{Reference, Tree};

/// A routine in words.
#[derive(Debug, Clone, Default)]
pub struct Routine {
    pub name: String,
    pub address: u64,
    pub return_type: String,
    /// Name and type.
    pub params: Vec<(String, String)>,
    pub locals: Vec<(String, String)>,
    pub trees: Vec<Tree>,
    /// Address and root.
    pub statements: Vec<(Option<u64>, u32)>,
    pub blocks: Vec<Block>,
    /// Names and types that the file has beside those it uses.
    pub spare_names: Vec<String>,
    pub spare_types: Vec<String>,
    /// The nodes planted so far, and the statements not yet in a block.
    planted: u32,
    open: u16,
}

#[derive(Debug, Clone)]
pub struct Block {
    pub statements: u16,
    pub end: End,
}

/// A terminator.
#[derive(Debug, Clone)]
pub enum End {
    Return,
    Goto(u32),
    Branch {
        at: Option<u64>,
        root: u32,
        taken: u32,
        next: u32,
    },
    Switch {
        at: Option<u64>,
        root: u32,
        cases: Vec<(i64, u32)>,
    },
}

impl Routine {
    pub fn new(name: &str, address: u64, return_type: &str) -> Self {
        Self {
            name: name.to_string(),
            address,
            return_type: return_type.to_string(),
            ..Self::default()
        }
    }

    pub fn param(mut self, name: &str, ty: &str) -> Self {
        self.params.push((name.to_string(), ty.to_string()));
        self
    }

    pub fn local(mut self, name: &str, ty: &str) -> Self {
        self.locals.push((name.to_string(), ty.to_string()));
        self
    }

    /// Put a tree into the node body; gives its top's number.
    pub fn plant(&mut self, tree: Tree) -> u32 {
        let number = self.planted;
        self.planted += tree.span();
        self.trees.push(tree);
        number
    }

    /// The count of planted nodes.
    pub fn planted(&self) -> u32 {
        self.planted
    }

    /// A statement of the next block with a tree of its own.
    pub fn at(mut self, address: u64, tree: Tree) -> Self {
        let root = self.plant(tree);
        self.state(Some(address), root);
        self
    }

    /// The same without an address.
    pub fn then(mut self, tree: Tree) -> Self {
        let root = self.plant(tree);
        self.state(None, root);
        self
    }

    /// A statement of the next block with a root that is planted already.
    pub fn state(&mut self, address: Option<u64>, root: u32) {
        self.statements.push((address, root));
        self.open += 1;
    }

    /// Make a block of the statements since the last one.
    pub fn close(&mut self, end: End) {
        let statements = std::mem::take(&mut self.open);
        self.blocks.push(Block { statements, end });
    }

    pub fn returns(mut self) -> Self {
        self.close(End::Return);
        self
    }

    pub fn goto(mut self, target: u32) -> Self {
        self.close(End::Goto(target));
        self
    }

    pub fn branch(mut self, at: Option<u64>, cond: Tree, taken: u32, next: u32) -> Self {
        let root = self.plant(cond);
        self.close(End::Branch {
            at,
            root,
            taken,
            next,
        });
        self
    }

    pub fn switch(mut self, at: Option<u64>, index: Tree, cases: &[(i64, u32)]) -> Self {
        let root = self.plant(index);
        let cases = cases.to_vec();
        self.close(End::Switch { at, root, cases });
        self
    }

    /// The routine file.
    pub fn file(&self) -> Vec<u8> {
        file(&self.bodies())
    }

    pub fn bodies(&self) -> Vec<Vec<u8>> {
        let numbers = Numbers::new(self);
        let mut nodes = Vec::new();
        for tree in &self.trees {
            numbers.node(&mut nodes, tree);
        }
        vec![
            strings(&numbers.names_in_order),
            strings(&numbers.types_in_order),
            numbers.head(self),
            nodes,
            self.statement_body(),
            self.block_body(),
        ]
    }

    fn statement_body(&self) -> Vec<u8> {
        let mut out = Vec::new();
        for (address, root) in &self.statements {
            put_address(&mut out, *address);
            out.extend(root.to_le_bytes());
        }
        out
    }

    fn block_body(&self) -> Vec<u8> {
        let mut out = Vec::new();
        for block in &self.blocks {
            out.extend(block.statements.to_le_bytes());
            end(&mut out, &block.end);
        }
        out
    }
}

fn end(out: &mut Vec<u8>, end: &End) {
    let (kind, at, numbers) = match end {
        End::Return => (END_RETURN, None, [0, 0, 0]),
        End::Goto(target) => (END_GOTO, None, [0, *target, 0]),
        End::Branch {
            at,
            root,
            taken,
            next,
        } => (END_BRANCH, *at, [*root, *taken, *next]),
        End::Switch { at, root, cases } => (END_SWITCH, *at, [*root, cases.len() as u32, 0]),
    };
    out.push(kind);
    put_address(out, at);
    for number in numbers {
        out.extend(number.to_le_bytes());
    }
    if let End::Switch { cases, .. } = end {
        for (value, target) in cases {
            out.extend(value.to_le_bytes());
            out.extend(target.to_le_bytes());
        }
    }
}

/// The numbers of a routine's names and types.
struct Numbers {
    names: HashMap<String, u16>,
    types: HashMap<String, u16>,
    names_in_order: Vec<String>,
    types_in_order: Vec<String>,
}

impl Numbers {
    fn new(routine: &Routine) -> Self {
        let mut words = Words::default();
        words.name(&routine.name);
        words.ty(&routine.return_type);
        for (name, ty) in routine.params.iter().chain(&routine.locals) {
            words.name(name);
            words.ty(ty);
        }
        for tree in &routine.trees {
            words.tree(tree);
        }
        for name in &routine.spare_names {
            words.name(name);
        }
        // A type may be in the table twice, so a spare one is always added.
        let mut types_in_order = words.types;
        types_in_order.extend(routine.spare_types.iter().cloned());
        let names_in_order: Vec<String> = words.names.into_iter().collect();
        Self {
            names: numbered(&names_in_order),
            types: numbered(&types_in_order),
            names_in_order,
            types_in_order,
        }
    }

    fn head(&self, routine: &Routine) -> Vec<u8> {
        let mut out = Vec::new();
        out.extend(self.names[&routine.name].to_le_bytes());
        out.extend(routine.address.to_le_bytes());
        out.extend(self.types[&routine.return_type].to_le_bytes());
        out.push(routine.params.len() as u8);
        for (name, ty) in routine.params.iter().chain(&routine.locals) {
            out.extend(self.names[name].to_le_bytes());
            out.extend(self.types[ty].to_le_bytes());
        }
        out
    }

    fn node(&self, out: &mut Vec<u8>, tree: &Tree) {
        let reference = match &tree.reference {
            Reference::Number(number) => *number,
            Reference::Name(name) => self.names[name],
            Reference::Type(ty) => self.types[ty],
        };
        out.extend([tree.kind, tree.flag]);
        out.extend(reference.to_le_bytes());
        out.extend(tree.width.to_le_bytes());
        out.extend(tree.span().to_le_bytes());
        out.extend(tree.value.to_le_bytes());
        for child in &tree.children {
            self.node(out, child);
        }
    }
}

/// The words that a routine uses: names ascending, types as they come.
#[derive(Default)]
struct Words {
    names: BTreeSet<String>,
    types: Vec<String>,
}

impl Words {
    fn name(&mut self, name: &str) {
        self.names.insert(name.to_string());
    }

    fn ty(&mut self, ty: &str) {
        if !self.types.iter().any(|known| known == ty) {
            self.types.push(ty.to_string());
        }
    }

    fn tree(&mut self, tree: &Tree) {
        match &tree.reference {
            Reference::Number(_) => {}
            Reference::Name(name) => self.name(name),
            Reference::Type(ty) => self.ty(ty),
        }
        for child in &tree.children {
            self.tree(child);
        }
    }
}

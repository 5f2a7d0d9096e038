//! Document 01's three files, read into plain data.
//!
//! The readers presume a file that `refusal` accepts.

use crate::fields::Fields;

/// The most bytes that a file may have.
pub const LONGEST_FILE: usize = 65_535;

/// The bytes of a node.
pub const NODE_BYTES: usize = 20;

/// The bytes of a statement.
pub const STATEMENT_BYTES: usize = 13;

/// A routine file.
#[derive(Debug, Clone)]
pub struct Routine {
    pub names: Vec<String>,
    pub types: Vec<String>,
    pub head: Head,
    pub nodes: Vec<Node>,
    pub statements: Vec<Statement>,
    pub blocks: Vec<Block>,
}

#[derive(Debug, Clone)]
pub struct Head {
    pub name: u16,
    pub address: u64,
    pub return_type: u16,
    /// Name and type of each parameter, then of each local.
    pub params: Vec<(u16, u16)>,
    pub locals: Vec<(u16, u16)>,
}

#[derive(Debug, Clone, Copy)]
pub struct Node {
    pub kind: u8,
    pub flag: u8,
    pub reference: u16,
    pub width: u32,
    pub span: u32,
    pub value: u64,
}

#[derive(Debug, Clone, Copy)]
pub struct Statement {
    pub address: Option<u64>,
    pub root: u32,
}

#[derive(Debug, Clone)]
pub struct Block {
    pub statements: u16,
    pub terminator: u8,
    pub address: Option<u64>,
    pub root: u32,
    pub taken: u32,
    pub next: u32,
    pub cases: Vec<(i64, u32)>,
}

/// A world file.
#[derive(Debug, Clone)]
pub struct World {
    pub symbols: Vec<Symbol>,
    pub regions: Vec<Region>,
}

#[derive(Debug, Clone)]
pub struct Symbol {
    pub name: String,
    /// 0 where the size is untold.
    pub size: u8,
    pub address: u64,
}

#[derive(Debug, Clone)]
pub struct Region {
    pub address: u64,
    pub bytes: Vec<u8>,
}

/// A call file.
#[derive(Debug, Clone)]
pub struct Call {
    pub steps: u32,
    pub depth: u32,
    pub arguments: Vec<u64>,
}

/// The bodies of a file, if its table is as document 01 says: this count of
/// bodies, in order, without gaps, to the file's end.
pub fn bodies(file: &[u8], count: u16) -> Option<Vec<&[u8]>> {
    if file.len() > LONGEST_FILE {
        return None;
    }
    let mut table = Fields::new(file);
    if table.u16()? != count {
        return None;
    }
    let mut end = 2 + 4 * usize::from(count);
    let mut found = Vec::new();
    for _ in 0..count {
        let (offset, length) = (usize::from(table.u16()?), usize::from(table.u16()?));
        if offset != end {
            return None;
        }
        end = offset + length;
        found.push(file.get(offset..end)?);
    }
    (end == file.len()).then_some(found)
}

impl Routine {
    pub fn read(file: &[u8]) -> Self {
        let bodies = bodies(file, 6).expect(ACCEPTED);
        Self {
            names: strings(bodies[0]),
            types: strings(bodies[1]),
            head: head(bodies[2]).expect(ACCEPTED),
            nodes: nodes(bodies[3]),
            statements: each(bodies[4], statement),
            blocks: each(bodies[5], block),
        }
    }

    /// The numbers of a node's children.
    pub fn children(&self, node: usize) -> Vec<usize> {
        let end = node + self.nodes[node].span as usize;
        let mut at = node + 1;
        let mut found = Vec::new();
        while at < end {
            found.push(at);
            at += self.nodes[at].span as usize;
        }
        found
    }
}

impl World {
    pub fn read(file: &[u8]) -> Self {
        let bodies = bodies(file, 3).expect(ACCEPTED);
        let names = strings(bodies[0]);
        Self {
            symbols: each(bodies[1], |fields| symbol(fields, &names)),
            regions: each(bodies[2], region),
        }
    }
}

impl Call {
    pub fn read(file: &[u8]) -> Self {
        let mut fields = Fields::new(bodies(file, 1).expect(ACCEPTED)[0]);
        Self {
            steps: fields.u32().expect(ACCEPTED),
            depth: fields.u32().expect(ACCEPTED),
            arguments: std::iter::from_fn(|| fields.u64()).collect(),
        }
    }
}

const ACCEPTED: &str = "the file was accepted";

/// The whole nodes of a body; bytes that make no whole node are left out.
pub fn nodes(body: &[u8]) -> Vec<Node> {
    let mut fields = Fields::new(body);
    std::iter::from_fn(|| node(&mut fields)).collect()
}

/// Items to the body's end.
fn each<'a, T>(body: &'a [u8], item: impl Fn(&mut Fields<'a>) -> Option<T>) -> Vec<T> {
    let mut fields = Fields::new(body);
    let mut found = Vec::new();
    while !fields.is_empty() {
        found.push(item(&mut fields).expect(ACCEPTED));
    }
    found
}

fn strings(body: &[u8]) -> Vec<String> {
    each(body, string)
}

fn string(fields: &mut Fields) -> Option<String> {
    let length = usize::from(fields.u8()?);
    String::from_utf8(fields.bytes(length)?.to_vec()).ok()
}

/// The types of any routine file, as far as they can be read.
pub fn types(file: &[u8]) -> Vec<String> {
    let body = bodies(file, 6).map_or(&[][..], |bodies| bodies[1]);
    let mut fields = Fields::new(body);
    std::iter::from_fn(|| string(&mut fields)).collect()
}

fn head(body: &[u8]) -> Option<Head> {
    let mut fields = Fields::new(body);
    let (name, address, return_type) = (fields.u16()?, fields.u64()?, fields.u16()?);
    let count = usize::from(fields.u8()?);
    let mut params = Vec::new();
    while !fields.is_empty() {
        params.push((fields.u16()?, fields.u16()?));
    }
    let locals = params.split_off(count);
    Some(Head {
        name,
        address,
        return_type,
        params,
        locals,
    })
}

fn node(fields: &mut Fields) -> Option<Node> {
    Some(Node {
        kind: fields.u8()?,
        flag: fields.u8()?,
        reference: fields.u16()?,
        width: fields.u32()?,
        span: fields.u32()?,
        value: fields.u64()?,
    })
}

/// A flag and an address.
fn address(fields: &mut Fields) -> Option<Option<u64>> {
    let flag = fields.u8()?;
    let address = fields.u64()?;
    Some((flag == 1).then_some(address))
}

fn statement(fields: &mut Fields) -> Option<Statement> {
    Some(Statement {
        address: address(fields)?,
        root: fields.u32()?,
    })
}

fn block(fields: &mut Fields) -> Option<Block> {
    let mut block = Block {
        statements: fields.u16()?,
        terminator: fields.u8()?,
        address: address(fields)?,
        root: fields.u32()?,
        taken: fields.u32()?,
        next: fields.u32()?,
        cases: Vec::new(),
    };
    if block.terminator == crate::kinds::END_SWITCH {
        for _ in 0..block.taken {
            block.cases.push((fields.u64()? as i64, fields.u32()?));
        }
    }
    Some(block)
}

fn symbol(fields: &mut Fields, names: &[String]) -> Option<Symbol> {
    Some(Symbol {
        name: names[usize::from(fields.u16()?)].clone(),
        size: fields.u8()?,
        address: fields.u64()?,
    })
}

fn region(fields: &mut Fields) -> Option<Region> {
    let address = fields.u64()?;
    let length = fields.u32()? as usize;
    Some(Region {
        address,
        bytes: fields.bytes(length)?.to_vec(),
    })
}

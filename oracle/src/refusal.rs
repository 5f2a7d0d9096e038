//! The refusals that follow from the input: 1 to 9, 30 and 31.
//!
//! Written from the papers alone: document 01, "The files" and "From the
//! input", and document 02, A1, each check beside the sentence it stands for.

use crate::fields::Fields;
use crate::files::{bodies, nodes, Node, NODE_BYTES};
use crate::kinds::*;

/// What refuses an input or a state.
#[derive(Debug, Clone, Copy, PartialEq, Eq)]
pub struct Refusal {
    pub number: u32,
    /// "All three carry the lowest faulty node's number in place of the 0": of
    /// 5, 30 and 31; 0 for every other.
    pub node: u32,
}

/// What passes, or what refuses it.
pub type Checked<T = ()> = Result<T, Refusal>;

impl Refusal {
    /// A refusal that names no node.
    pub fn by(number: u32) -> Self {
        Self { number, node: 0 }
    }
}

fn ensure(well: bool, number: u32) -> Checked {
    well.then_some(()).ok_or(Refusal::by(number))
}

/// A run's files.
pub fn check(routine: &[u8], world: &[u8], call: &[u8]) -> Checked {
    check_routine(routine)?;
    ensure(world_is_well(world), 8)?;
    ensure(call_is_well(call), 9)
}

/// The routine and the node of a `constant_value`.
pub fn check_constant(routine: &[u8], node: u32) -> Checked {
    check_routine(routine)?;
    let body = bodies(routine, 6).expect("the table was accepted")[3];
    ensure(is_root(&nodes(body), node), 9)
}

/// A routine file: 1, 2, 3, 4, then 5, 30 and 31 by node, then 6 and 7.
pub fn check_routine(file: &[u8]) -> Checked {
    let bodies = bodies(file, 6).ok_or(Refusal::by(1))?;
    let names = names(bodies[0]).ok_or(Refusal::by(2))?;
    let types = types(bodies[1]).ok_or(Refusal::by(3))?;
    let tables = Tables { names, types };
    ensure(head_is_well(bodies[2], &tables), 4)?;
    let nodes = nodes(bodies[3]);
    if let Some(lowest) = faulty(&nodes, &tables).next() {
        return Err(lowest);
    }
    let whole = bodies[3].len().is_multiple_of(NODE_BYTES);
    ensure(whole && forest_is_well(&nodes), 6)?;
    let statements = statements(bodies[4], &nodes).ok_or(Refusal::by(7))?;
    ensure(blocks(bodies[5], &nodes) == Some(statements), 7)
}

/// What each faulty node of a routine would be refused by, in file order.
pub fn faulty_nodes(file: &[u8]) -> Vec<Refusal> {
    let found = || {
        let bodies = bodies(file, 6)?;
        let (names, types) = (names(bodies[0])?, types(bodies[1])?);
        Some(faulty(&nodes(bodies[3]), &Tables { names, types }).collect())
    };
    found().unwrap_or_default()
}

/// "the lowest node comes first": the nodes that fail a check, in file order.
fn faulty<'a>(nodes: &'a [Node], tables: &'a Tables) -> impl Iterator<Item = Refusal> + 'a {
    let numbered = (0..).zip(nodes);
    numbered.filter_map(|(node, fields)| {
        let number = fault(fields, tables)?;
        Some(Refusal { number, node })
    })
}

/// "30 and 31 are tested after 5 on the same node": the first of a node's
/// checks that fails.
fn fault(node: &Node, tables: &Tables) -> Option<u32> {
    if !kind_is_known(node) {
        Some(5)
    } else if !kind_allows_fields(node, tables) {
        Some(30)
    } else if !unused_fields_are_zero(node) {
        Some(31)
    } else {
        None
    }
}

/// How many names and types a routine has.
struct Tables {
    names: usize,
    types: usize,
}

impl Tables {
    fn has_name(&self, reference: u16) -> bool {
        usize::from(reference) < self.names
    }

    fn has_type(&self, reference: u16) -> bool {
        usize::from(reference) < self.types
    }
}

/// "Names, at most 512: length u8 (1 to 64), bytes 0x21 to 0x7e, strictly
/// ascending as bytes, a name before any longer one that it begins." Their
/// count, if they are well.
fn names(body: &[u8]) -> Option<usize> {
    let names = strings(body, 0x21..=0x7e)?;
    let ascend = names.windows(2).all(|pair| pair[0] < pair[1]);
    (ascend && names.iter().all(|name| !name.is_empty())).then_some(names.len())
}

/// "Types, at most 512: length u8 (0 to 64), bytes 0x20 to 0x7e."
fn types(body: &[u8]) -> Option<usize> {
    Some(strings(body, 0x20..=0x7e)?.len())
}

fn strings(body: &[u8], allowed: std::ops::RangeInclusive<u8>) -> Option<Vec<&[u8]>> {
    let mut fields = Fields::new(body);
    let mut found = Vec::new();
    while !fields.is_empty() {
        let length = usize::from(fields.u8()?);
        let text = fields.bytes(length)?;
        if length > 64 || !text.iter().all(|byte| allowed.contains(byte)) {
            return None;
        }
        found.push(text);
    }
    (found.len() <= 512).then_some(found)
}

/// "Head: name u16, address u64, return type u16, parameters u8 (at most 16),
/// then (name u16, type u16) for parameters and then locals."
fn head_is_well(body: &[u8], tables: &Tables) -> bool {
    head(body, tables).is_some()
}

fn head(body: &[u8], tables: &Tables) -> Option<()> {
    let mut fields = Fields::new(body);
    let name = fields.u16()?;
    let _address = fields.u64()?;
    let return_type = fields.u16()?;
    let parameters = fields.u8()?;
    let mut declared = 0;
    let mut well = tables.has_name(name) && tables.has_type(return_type) && parameters <= 16;
    while !fields.is_empty() {
        well &= tables.has_name(fields.u16()?) & tables.has_type(fields.u16()?);
        declared += 1;
    }
    (well && declared >= usize::from(parameters)).then_some(())
}

/// "Let 5 mean an unknown kind": document 01 has kinds 0 to 19.
fn kind_is_known(node: &Node) -> bool {
    node.kind <= PLAIN
}

/// "A constant width, flag or reference that the kind bars becomes 30":
/// "0 Constant (width 1 to 8 bytes, value)", "7 ConstantCondition (flag 0 or
/// 1", "12 Binary (flag 0 to 17", "a ref to a name or type is below its table's
/// count".
fn kind_allows_fields(node: &Node, tables: &Tables) -> bool {
    match node.kind {
        CONSTANT => (1..=8).contains(&node.width),
        CONSTANT_CONDITION => node.flag <= 1,
        BINARY => node.flag <= 17,
        VAR | FUNCTION_NAME | INTRINSIC => tables.has_name(node.reference),
        CAST | FIELD => tables.has_type(node.reference),
        _ => true,
    }
}

/// "an unused field that isn't 0 becomes 31", and of document 01's kinds
/// "Fields not named here are 0".
pub fn unused_fields_are_zero(node: &Node) -> bool {
    let uses_flag = matches!(node.kind, REGISTER | CONSTANT_CONDITION | BINARY);
    let uses_reference = matches!(
        node.kind,
        VAR | REGISTER | FUNCTION_NAME | CAST | INTRINSIC | FIELD
    );
    let uses_width = matches!(node.kind, CONSTANT | REGISTER);
    let uses_value = matches!(node.kind, CONSTANT | REGISTER | FUNCTION_NAME | FIELD);
    (uses_flag || node.flag == 0)
        && (uses_reference || node.reference == 0)
        && (uses_width || node.width == 0)
        && (uses_value || node.value == 0)
}

/// "none for 0 to 7 and 19, one for 8 to 10 and 18, three for 11, two for 12
/// and 13, none or one for 16, any number for 15 and 17", and for a Call its
/// callee and "up to 16 arguments".
fn count_is_well(kind: u8, children: usize) -> bool {
    match kind {
        CAST | DEREF | ADDRESS_OF | FIELD => children == 1,
        TERNARY => children == 3,
        BINARY | ASSIGN => children == 2,
        CALL => (1..=17).contains(&children),
        RETURN => children <= 1,
        INTRINSIC | STRUCT_INIT => true,
        _ => children == 0,
    }
}

/// "span counts the node and all under it, children follow their parent" and
/// "A chain from parent to child has at most 64 nodes."
fn forest_is_well(nodes: &[Node]) -> bool {
    trees(nodes, 0, nodes.len(), 1, false).is_some()
}

/// The count of the trees that fill the nodes from `at` to `end`, whose tops
/// are the `depth`th of their chains.
fn trees(nodes: &[Node], mut at: usize, end: usize, depth: usize, fields: bool) -> Option<usize> {
    let mut count = 0;
    while at < end {
        let node = &nodes[at];
        let after = at + node.span as usize;
        if node.span == 0 || after > end || depth > 64 || (node.kind == FIELD) != fields {
            return None;
        }
        let below = trees(nodes, at + 1, after, depth + 1, node.kind == STRUCT_INIT)?;
        if !count_is_well(node.kind, below) {
            return None;
        }
        at = after;
        count += 1;
    }
    Some(count)
}

/// Whether the number is a node's and the node no field.
fn is_root(nodes: &[Node], number: u32) -> bool {
    nodes
        .get(number as usize)
        .is_some_and(|node| node.kind != FIELD)
}

/// "An address flag is 0 or 1, and an address without its flag is 0."
fn address_is_well(flag: u8, address: u64) -> bool {
    flag == 1 || (flag == 0 && address == 0)
}

/// "Statements: address flag u8, address u64, root u32." Their count, if they
/// are well.
fn statements(body: &[u8], nodes: &[Node]) -> Option<usize> {
    let mut fields = Fields::new(body);
    let mut count = 0;
    while !fields.is_empty() {
        let address = address_is_well(fields.u8()?, fields.u64()?);
        let root = is_root(nodes, fields.u32()?);
        if !(address && root) {
            return None;
        }
        count += 1;
    }
    Some(count)
}

/// "Blocks: ..." The sum of their statement counts, if they are well.
fn blocks(body: &[u8], nodes: &[Node]) -> Option<usize> {
    let mut fields = Fields::new(body);
    let mut dealt = 0;
    while !fields.is_empty() {
        dealt += block(&mut fields, nodes)?;
    }
    Some(dealt)
}

/// "statement count u16, terminator u8 (0 Return, 1 Goto, 2 Branch, 3 Switch),
/// address flag u8, address u64, root u32, taken u32 (for Goto its target),
/// next u32, then for Switch `taken` cases of i64 and target u32; unused fields
/// are 0 (Return and Goto have no address)."
fn block(fields: &mut Fields, nodes: &[Node]) -> Option<usize> {
    let statements = usize::from(fields.u16()?);
    let terminator = fields.u8()?;
    let (flag, address) = (fields.u8()?, fields.u64()?);
    let address_well = address_is_well(flag, address);
    let address_zero = flag == 0 && address == 0;
    let (root, taken, next) = (fields.u32()?, fields.u32()?, fields.u32()?);
    let well = match terminator {
        END_RETURN => address_zero && root == 0 && taken == 0 && next == 0,
        END_GOTO => address_zero && root == 0 && next == 0,
        END_BRANCH => address_well && is_root(nodes, root),
        END_SWITCH => {
            fields.bytes(12 * taken as usize)?;
            address_well && is_root(nodes, root) && next == 0
        }
        _ => false,
    };
    well.then_some(statements)
}

/// "World, 3 bodies: names as in a routine; symbols strictly ascending by name
/// (name u16, size u8 with 0 for untold, address u64); regions ascending and
/// disjoint (address u64, length u32 from 1, bytes), ending by 2^64."
fn world_is_well(file: &[u8]) -> bool {
    let Some(bodies) = bodies(file, 3) else {
        return false;
    };
    let Some(names) = names(bodies[0]) else {
        return false;
    };
    symbols_are_well(bodies[1], names) == Some(true) && regions_are_well(bodies[2]) == Some(true)
}

fn symbols_are_well(body: &[u8], names: usize) -> Option<bool> {
    let mut fields = Fields::new(body);
    let mut least = 0;
    let mut well = true;
    while !fields.is_empty() {
        let name = usize::from(fields.u16()?);
        let _size = fields.u8()?;
        let _address = fields.u64()?;
        well &= least <= name && name < names;
        least = name + 1;
    }
    Some(well)
}

fn regions_are_well(body: &[u8]) -> Option<bool> {
    let mut fields = Fields::new(body);
    let mut least = 0;
    let mut well = true;
    while !fields.is_empty() {
        let address = u128::from(fields.u64()?);
        let length = fields.u32()?;
        fields.bytes(length as usize)?;
        let end = address + u128::from(length);
        well &= length >= 1 && least <= address && end <= 1 << 64;
        least = end;
    }
    Some(well)
}

/// "Call, 1 body: steps u32 (to 1,000,000), depth u32 (to 255), up to 16
/// arguments u64."
fn call_is_well(file: &[u8]) -> bool {
    bodies(file, 1).is_some_and(|bodies| call(bodies[0]) == Some(true))
}

fn call(body: &[u8]) -> Option<bool> {
    let mut fields = Fields::new(body);
    let (steps, depth) = (fields.u32()?, fields.u32()?);
    let mut arguments = 0;
    while !fields.is_empty() {
        fields.u64()?;
        arguments += 1;
    }
    Some(steps <= 1_000_000 && depth <= 255 && arguments <= 16)
}

//! The rows of the table: routines that strain one thing each.

use oracle::ast::BinaryOp::{self, Add, And, Less, Mod, Mul, Shr, Sub, Xor};
use oracle::judge::{Files, LEAST_WORKSPACE};
use oracle::random::Random;
use oracle::source::{Call, Routine, World};
use oracle::tree::*;

/// What is run, and what its time is divided by.
pub struct Row {
    pub name: String,
    pub files: Files,
    /// How much of the thing that the row strains one run does, and its name.
    pub work: (u64, &'static str),
    /// The lengths of what is lent to our library.
    pub buffer: usize,
    pub workspace: usize,
    /// The number that our library must give.
    pub number: u32,
}

/// A record buffer that holds the record of every row.
pub const BUFFER: usize = 1 << 26;

impl Row {
    pub fn new(
        name: &str,
        work: (u64, &'static str),
        routine: &Routine,
        world: &World,
        call: Call,
    ) -> Self {
        Self {
            name: name.to_string(),
            files: Files {
                routine: routine.file(),
                world: world.file(),
                call: call.file(),
            },
            work,
            buffer: BUFFER,
            workspace: LEAST_WORKSPACE,
            number: 0,
        }
    }
}

/// All rows that run.
pub fn rows() -> Vec<Row> {
    let mut rows: Vec<Row> = [1_000, 10_000, 100_000, 1_000_000]
        .into_iter()
        .map(counting)
        .collect();
    rows.extend(bytes());
    rows.extend(expressions());
    rows.push(nested_assigns());
    rows.push(jumps(2_000, 100_000));
    rows.extend(symbols());
    rows.push(regions());
    rows.extend(questions());
    rows
}

fn set(name: &str, value: Tree) -> Tree {
    assign(var(name), value)
}

fn int(value: u64) -> Tree {
    constant(value, 4)
}

fn wide(value: u64) -> Tree {
    constant(value, 8)
}

fn stepped(name: &str) -> Tree {
    set(name, binary(var(name), Add, constant(1, 1)))
}

/// What is read or written at an address.
fn at(ty: &str, address: Tree) -> Tree {
    deref(cast(ty, address))
}

/// A loop of so many units, with all that stands around it.
pub fn counting(units: u64) -> Row {
    let rounds = (units - 4) / 2;
    let routine = Routine::new("count", 0x1000, "int")
        .local("i", "int")
        .at(0x1000, set("i", int(0)))
        .goto(1)
        .at(0x1004, stepped("i"))
        .branch(Some(0x1008), binary(var("i"), Less, int(rounds)), 1, 2)
        .at(0x100c, give(var("i")))
        .returns();
    let name = format!("counting loop, {units} units");
    let call = Call::new(units as u32, &[]);
    Row::new(&name, (units, "unit"), &routine, &World::default(), call)
}

fn bytes() -> [Row; 3] {
    [
        stores("ascending", binary(var("i"), Add, wide(0x1_0000))),
        stores("descending", binary(wide(0x2_0000), Sub, var("i"))),
        stores("scattered", binary(var("i"), Mul, wide(SCATTER))),
    ]
}

/// An odd number whose multiples lie all over memory.
const SCATTER: u64 = 0x9e37_79b9_7f4a_7c15;

/// 4,096 bytes stored one by one at an address that follows from `i`.
fn stores(order: &str, address: Tree) -> Row {
    let routine = Routine::new("store", 0x1000, "int")
        .local("i", "long")
        .at(0x1000, set("i", int(0)))
        .goto(1)
        .at(0x1004, assign(at("char *", address), var("i")))
        .at(0x1008, stepped("i"))
        .branch(Some(0x100c), binary(var("i"), Less, int(4_096)), 1, 2)
        .returns();
    let name = format!("4,096 bytes written, {order}");
    let call = Call::new(100_000, &[]);
    Row::new(&name, (4_096, "byte"), &routine, &World::default(), call)
}

/// The operators of the large expressions.
const OPERATORS: [BinaryOp; 4] = [Add, Xor, Sub, Mul];

/// A balanced tree of so many nodes, an odd number.
fn balanced(nodes: usize, random: &mut Random) -> Tree {
    if nodes == 1 {
        return match random.below(2) {
            0 => var("a"),
            _ => int(random.bits() & 0xffff),
        };
    }
    let left = (nodes - 1) / 2;
    let left = left - (1 - left % 2);
    let op = *random.pick(&OPERATORS);
    let first = balanced(left, random);
    binary(first, op, balanced(nodes - 1 - left, random))
}

/// A tree of so many nodes, an odd number, whose longest chain has so many
/// levels: what hangs beside the chain is balanced.
fn deep(nodes: usize, levels: usize, random: &mut Random) -> Tree {
    if levels == 1 || nodes == 1 {
        return balanced(nodes, random);
    }
    // The rest of the chain needs two nodes a level.
    let least = 2 * (levels - 1) - 1;
    let room = (1 << (levels - 1).min(20)) - 1;
    let share = (nodes - 1 - least) / (levels - 1) * 2 + 1;
    let beside = share.min(room).min(nodes - 1 - least);
    let op = *random.pick(&OPERATORS);
    let first = balanced(beside, random);
    binary(first, op, deep(nodes - 1 - beside, levels - 1, random))
}

/// Expressions of 3,000 nodes: 2,999 under a Cast.
fn expressions() -> Vec<Row> {
    let mut random = Random::new(1);
    let low = cast("int", balanced(2_999, &mut random));
    let high = cast("int", deep(2_999, 62, &mut random));
    let leaves = (0..2_999).map(int).collect();
    let chain = format!("3,000-node expression, chains of {}", 1 + low.depth());
    let longest = format!("3,000-node expression, chains of {}", 1 + high.depth());
    vec![
        expression(&chain, set("a", low.clone())),
        expression(&longest, set("a", high)),
        expression(
            "3,000-node expression, an Intrinsic",
            intrinsic("f", leaves),
        ),
        repeated("3,000-node expression, 100 times", set("a", low)),
    ]
}

fn expression(name: &str, tree: Tree) -> Row {
    let routine = Routine::new("express", 0x1000, "int")
        .param("a", "int")
        .at(0x1000, tree)
        .returns();
    let call = Call::new(100, &[5]);
    Row::new(name, (3_000, "node"), &routine, &World::default(), call)
}

fn repeated(name: &str, tree: Tree) -> Row {
    let routine = Routine::new("express", 0x1000, "int")
        .param("a", "int")
        .at(0x1000, tree)
        .goto(0);
    let call = Call::new(200, &[5]);
    Row::new(name, (300_000, "node"), &routine, &World::default(), call)
}

/// 60 Assigns one in the other, and in the last one 1,000 loads. A chain may
/// have 64 nodes, so the loads stand side by side under an Intrinsic.
fn nested_assigns() -> Row {
    let load = |n: u64| deref(wide(0x1000 + 8 * n));
    let mut tree = intrinsic("f", (0..1_000).map(load).collect());
    let mut routine = Routine::new("nest", 0x1000, "int");
    for n in 0..60 {
        let name = format!("v{n:02}");
        routine = routine.local(&name, "long");
        tree = set(&name, tree);
    }
    let routine = routine.at(0x1000, tree).returns();
    let world = World::default().region(0x1000, &[7; 8_000]);
    let name = "60 nested Assigns over 1,000 loads";
    Row::new(name, (1_000, "load"), &routine, &world, Call::new(100, &[]))
}

/// So many blocks in a ring whose order a fixed seed decides, and so many
/// units of jumps.
pub fn jumps(blocks: u64, units: u32) -> Row {
    let mut random = Random::new(2);
    let mut order: Vec<u32> = (1..blocks as u32).collect();
    for last in (1..order.len()).rev() {
        order.swap(last, random.below(last + 1));
    }
    let mut targets = vec![0; blocks as usize];
    let mut from = 0;
    for &to in &order {
        targets[from as usize] = to;
        from = to;
    }
    let routine = targets
        .into_iter()
        .fold(Routine::new("jump", 0x1000, "int"), Routine::goto);
    let name = format!("{units} jumps among {blocks} blocks");
    let call = Call::new(units, &[]);
    let work = (u64::from(units), "jump");
    Row::new(&name, work, &routine, &World::default(), call)
}

fn symbol(number: usize) -> String {
    format!("s{number:03}")
}

/// A world of so many symbols of 4 bytes.
fn known(symbols: usize) -> World {
    let base = 0x4000_u64;
    let world = (0..symbols).fold(World::default(), |world, number| {
        world.symbol(&symbol(number), 4, base + 4 * number as u64)
    });
    world.region(base, &vec![3; 4 * symbols])
}

fn symbols() -> [Row; 2] {
    let read = |number: usize| set("x", var(&symbol(number)));
    let head = Routine::new("read", 0x1000, "int").local("x", "int");
    let body = (0..500).fold(head, |routine, n| {
        // Odd, so that the order is not that of the names.
        routine.then(read(n * 211 % 512 * 500 / 512))
    });
    let (once, often) = (body.clone().returns(), body.goto(0));
    let row = |name: &str, reads: u64, routine: &Routine, units: u32| {
        let call = Call::new(units, &[]);
        Row::new(name, (reads, "read"), routine, &known(512), call)
    };
    [
        row("500 reads of symbols among 512", 500, &once, 1_000),
        row("the same, 20 times", 10_000, &often, 20 * 501),
    ]
}

/// So many regions of 8 bytes with gaps between them.
fn apart(regions: u64) -> World {
    (0..regions).fold(World::default(), |world, n| {
        world.region(0x1_0000 + 16 * n, &[9; 8])
    })
}

fn regions() -> Row {
    let place = binary(binary(var("i"), Mul, int(617)), Mod, int(1_000));
    let address = binary(binary(place, Mul, int(16)), Add, wide(0x1_0000));
    let routine = Routine::new("load", 0x1000, "int")
        .local("i", "int")
        .local("x", "int")
        .at(0x1000, set("i", int(0)))
        .goto(1)
        .at(0x1004, set("x", at("int *", address)))
        .at(0x1008, stepped("i"))
        .branch(Some(0x100c), binary(var("i"), Less, int(1_000)), 1, 2)
        .returns();
    let call = Call::new(10_000, &[]);
    let name = "1,000 loads from 1,000 regions";
    Row::new(name, (1_000, "load"), &routine, &apart(1_000), call)
}

/// A loop that does a little of everything, without a question and with one
/// in each round: with questions the walk is done twice.
fn questions() -> [Row; 2] {
    let row = |name: &str, first: Tree| {
        let slot = || {
            let index = binary(var("i"), And, int(63));
            binary(binary(index, Mul, int(4)), Add, wide(0x8000))
        };
        let less = binary(var("b"), Less, int(100));
        let other = binary(var("b"), Xor, int(85));
        let routine = Routine::new("mix", 0x1000, "int")
            .param("a", "int")
            .local("b", "uint8_t")
            .local("c", "int")
            .local("i", "int")
            .then(set("i", int(0)))
            .goto(1)
            .at(0x1004, set("a", binary(first, Add, var("i"))))
            .at(
                0x1008,
                set("b", cast("uint8_t", binary(var("a"), Shr, int(3)))),
            )
            .at(0x100c, set("c", ternary(less, var("a"), other)))
            .at(0x1010, assign(at("int *", slot()), var("c")))
            .at(0x1014, stepped("i"))
            .goto(1);
        let world = World::default().region(0x8000, &[5; 256]);
        let call = Call::new(10_000, &[77]);
        Row::new(name, (10_000, "unit"), &routine, &world, call)
    };
    [
        row("a loop without questions", binary(var("a"), Mul, int(3))),
        row("the same, a load in each round", at("int *", wide(0x8000))),
    ]
}

/// How often a statement is repeated where the cost of one thing is told.
const STATEMENTS: usize = 64;

/// Variables of so many names, set first and then copied from one to another.
pub fn copies(names: u64, units: u32) -> Row {
    let name = |number: usize| format!("v{number:03}");
    let mut random = Random::new(3);
    let mut routine = Routine::new(&name(0), 0x1000, "int");
    let names = names as usize;
    for number in 0..names {
        routine = routine.local(&name(number), "int");
    }
    for number in 0..names {
        routine = routine.then(set(&name(number), int(number as u64)));
    }
    routine = routine.goto(1);
    for _ in 0..STATEMENTS {
        let (to, from) = (random.below(names), random.below(names));
        routine = routine.then(set(&name(to), var(&name(from))));
    }
    let call = Call::new(units, &[]);
    let work = (u64::from(units), "unit");
    Row::new("variables", work, &routine.goto(1), &World::default(), call)
}

/// Reads of symbols among so many.
pub fn reads(symbols: u64, units: u32) -> Row {
    let symbols = symbols as usize;
    let mut random = Random::new(4);
    let head = Routine::new("read", 0x1000, "int").local("x", "int");
    let routine = (0..STATEMENTS).fold(head, |routine, _| {
        routine.then(set("x", var(&symbol(random.below(symbols)))))
    });
    let call = Call::new(units, &[]);
    let work = (u64::from(units), "unit");
    Row::new("symbols", work, &routine.goto(0), &known(symbols), call)
}

/// Loads from so many regions.
pub fn loads(regions: u64, units: u32) -> Row {
    let mut random = Random::new(5);
    let head = Routine::new("load", 0x1000, "int").local("x", "int");
    let routine = (0..STATEMENTS).fold(head, |routine, _| {
        let address = 0x1_0000 + 16 * random.below(regions as usize) as u64;
        routine.then(set("x", at("int *", wide(address))))
    });
    let call = Call::new(units, &[]);
    let work = (u64::from(units), "unit");
    Row::new("regions", work, &routine.goto(0), &apart(regions), call)
}

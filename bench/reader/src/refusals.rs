//! A refusal of each number, on files of 65,535 bytes that are well formed up
//! to their last entries.

use oracle::ast::BinaryOp::{Add, Less};
use oracle::files::LONGEST_FILE;
use oracle::judge::LEAST_WORKSPACE;
use oracle::source::{file, Call, Routine, World};
use oracle::tree::*;

use crate::rows::Row;

/// The rows, in the order of the tests.
pub fn refusals() -> Vec<Row> {
    let numbers = [1, 2, 3, 4, 5, 30, 31, 6, 7, 8, 9];
    let mut rows: Vec<Row> = numbers.map(of_input).into();
    rows.extend([short_workspace(), many_addresses(), long_record()]);
    rows
}

/// Statements until the file is nearly full, then names up to its last byte.
fn filled(mut routine: Routine) -> Routine {
    while LONGEST_FILE - routine.file().len() > 10_000 {
        for _ in 0..40 {
            routine = routine.then(assign(var("x"), constant(1, 4)));
        }
        routine.close(oracle::source::End::Return);
    }
    for number in 0.. {
        let left = LONGEST_FILE - routine.file().len();
        match left {
            0 => break,
            // A name takes 5 bytes here at least, with its length.
            left if left <= 60 => routine.spare_names.push(padded(number, left - 1)),
            left => routine
                .spare_names
                .push(padded(number, (left - 5).min(40) - 1)),
        }
    }
    routine
}

fn padded(number: usize, length: usize) -> String {
    format!("z{number:03}{}", "_".repeat(length - 4))
}

/// A routine that returns at once.
fn short() -> Routine {
    Routine::new("f", 0x1000, "int")
        .local("x", "int")
        .then(give(constant(1, 4)))
        .returns()
}

/// A world of 65,535 bytes.
fn filled_world() -> World {
    let count = 2_000;
    let world = (0..count).fold(World::default(), |world, n| {
        world.region(0x1000 + 64 * n, &[1; 16])
    });
    let left = LONGEST_FILE - world.file().len() - 12;
    world.region(0x1000 + 64 * count, &vec![1; left])
}

/// Where a routine's body ends in its file.
fn end_of(bodies: &[Vec<u8>], which: usize) -> usize {
    26 + bodies[..=which].iter().map(Vec::len).sum::<usize>()
}

/// The last entry of what the number looks at is made wrong.
fn of_input(number: u32) -> Row {
    let (routine, world) = (filled(short()), filled_world());
    let bodies = routine.bodies();
    let mut row = Row::new("", (1, "run"), &routine, &world, Call::new(100, &[]));
    let bytes = &mut row.files.routine;
    match number {
        1 => bytes[24] ^= 1,
        2 => bytes[end_of(&bodies, 0) - 1] = b' ',
        3 => bytes[end_of(&bodies, 1) - 1] = 0x7f,
        4 => bytes[end_of(&bodies, 2) - 1] = 0xff,
        // The last node is a Constant of 4 bytes.
        5 => bytes[end_of(&bodies, 3) - 20] = 20,
        30 => bytes[end_of(&bodies, 3) - 16] = 9,
        31 => bytes[end_of(&bodies, 3) - 19] = 1,
        6 => bytes[end_of(&bodies, 3) - 12] = 2,
        7 => bytes[end_of(&bodies, 5) - 1] = 1,
        8 => {
            let left = world.regions.last().map_or(0, |(_, bytes)| bytes.len());
            row.files.world[LONGEST_FILE - left - 4] ^= 1;
        }
        _ => row.files.call = file(&[vec![0; LONGEST_FILE - 6]]),
    }
    row.name = format!("refusal {number}");
    row.number = number;
    row
}

fn short_workspace() -> Row {
    let call = Call::new(100, &[]);
    Row {
        workspace: LEAST_WORKSPACE - 1,
        number: 20,
        ..Row::new(
            "refusal 20",
            (1, "run"),
            &filled(short()),
            &filled_world(),
            call,
        )
    }
}

/// A loop of stores that goes on past 4,096 addresses.
fn many_addresses() -> Row {
    let next = binary(var("x"), Add, constant(8, 4));
    let routine = Routine::new("f", 0x1000, "int")
        .param("x", "long")
        .then(assign(deref(var("x")), constant(1, 8)))
        .then(assign(var("x"), next))
        .goto(0);
    let call = Call::new(10_000, &[0x1000]);
    // All of the buffer is cleared, so it is a usual one.
    Row {
        buffer: 65_536,
        number: 21,
        ..Row::new(
            "refusal 21",
            (1, "run"),
            &filled(routine),
            &filled_world(),
            call,
        )
    }
}

/// A loop of 10,000 units, and one byte too little for its record.
fn long_record() -> Row {
    let routine = Routine::new("f", 0x1000, "int")
        .param("x", "long")
        .then(assign(var("x"), binary(var("x"), Add, constant(1, 4))))
        .branch(None, binary(var("x"), Less, constant(100_000, 4)), 0, 0);
    let call = Call::new(10_000, &[0]);
    // 99 bytes, 5,000 steps, one parameter, less one.
    Row {
        buffer: 99 + 63 * 5_000 + 16 - 1,
        number: 22,
        ..Row::new(
            "refusal 22",
            (1, "run"),
            &filled(routine),
            &filled_world(),
            call,
        )
    }
}

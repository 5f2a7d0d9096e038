//! Writes the expected answers of the value layer, as the original gives
//! them, into the folder that the first argument names.
//!
//! README.md describes the four files.

use std::path::Path;
use std::{env, fs};

use oracle::ast::BinaryOp;
use oracle::emulate::{type_of, Val};
use oracle::random::Random;
use oracle::spellings::SPELLINGS;
use oracle::values::{binary, cast, gives_truth, pointee, OPERATORS};

const WIDTHS: [u32; 8] = [8, 16, 24, 32, 40, 48, 56, 64];
const MIXED_ROWS: usize = 4_000;
const CAST_ROWS: usize = 1_536;

fn main() {
    let folder = env::args().nth(1).unwrap_or_else(|| ".".to_string());
    let folder = Path::new(&folder);
    fs::create_dir_all(folder).expect("the folder can be made");
    write(folder, "equal.bin", &equal_cases(), 9);
    write(folder, "mixed.bin", &mixed_cases(), 31);
    write(folder, "casts.bin", &cast_cases(), 22);
    write(folder, "types.bin", &type_cases(), 69);
}

fn write(folder: &Path, name: &str, bytes: &[u8], row: usize) {
    fs::write(folder.join(name), bytes).expect("the file can be written");
    println!("{name}: {} rows, {} bytes", bytes.len() / row, bytes.len());
}

/// Every operator over the boundary numbers of every width and sign.
fn equal_cases() -> Vec<u8> {
    let mut rows = Vec::new();
    for width in WIDTHS {
        for signs in [(false, false), (false, true), (true, false), (true, true)] {
            all_operators(&mut rows, width, signs);
        }
    }
    rows
}

fn all_operators(rows: &mut Vec<u8>, width: u32, (left, right): (bool, bool)) {
    for op in OPERATORS {
        for a in boundaries(width) {
            for b in boundaries(width) {
                let (a, b) = (Val::known(a, width, left), Val::known(b, width, right));
                equal_row(rows, op, a, b);
            }
        }
    }
}

fn boundaries(width: u32) -> [u64; 10] {
    let half = 1u64 << (width - 1);
    let all = half - 1 + half;
    [0, 1, 2, 127, 128, 255, 256, half - 1, half, all]
}

fn equal_row(rows: &mut Vec<u8>, op: BinaryOp, left: Val, right: Val) {
    let Some(value) = binary(op, left, right) else {
        rows.push(4);
        rows.extend(0u64.to_le_bytes());
        return;
    };
    let width = if gives_truth(op) { 8 } else { left.bits };
    assert_eq!(value.bits, width, "the width that the row leaves out");
    rows.push(u8::from(value.signed) + if value.value.is_some() { 0 } else { 2 });
    rows.extend(value.value.unwrap_or(0).to_le_bytes());
}

/// Operands of any width, known or not.
fn mixed_cases() -> Vec<u8> {
    let mut random = Random::new(1);
    let mut rows = Vec::new();
    for row in 0..MIXED_ROWS {
        let op = OPERATORS[row % OPERATORS.len()];
        let (left, right) = (operand(&mut random), operand(&mut random));
        rows.push(op as u8);
        push_value(&mut rows, left);
        push_value(&mut rows, right);
        match binary(op, left, right) {
            Some(value) => push_value(&mut rows, value),
            None => rows.extend([4, 0, 0, 0, 0, 0, 0, 0, 0, 0]),
        }
    }
    rows
}

fn operand(random: &mut Random) -> Val {
    let width = *random.pick(&WIDTHS);
    let signed = random.chance(1, 2);
    if random.chance(1, 8) {
        return Val::unknown(width, signed);
    }
    let number = match random.below(4) {
        0 => random.bits(),
        1 => random.bits() >> random.below(64),
        _ => *random.pick(&boundaries(width)),
    };
    Val::known(number, width, signed)
}

/// Ten bytes: flags (1 known, 2 signed), width, number.
fn push_value(rows: &mut Vec<u8>, value: Val) {
    rows.push(u8::from(value.value.is_some()) | u8::from(value.signed) << 1);
    rows.push(u8::try_from(value.bits).expect("widths go to 64"));
    rows.extend(value.value.unwrap_or(0).to_le_bytes());
}

/// A spelling for each width and sign that the original's types have.
const TARGETS: [&str; 8] = [
    "uint8_t", "int8_t", "uint16_t", "int16_t", "uint32_t", "int32_t", "uint64_t", "int64_t",
];

fn cast_cases() -> Vec<u8> {
    let mut random = Random::new(2);
    let mut rows = Vec::new();
    for row in 0..CAST_ROWS {
        let ty = TARGETS[row % TARGETS.len()];
        let (bits, signed) = type_of(ty);
        let operand = operand(&mut random);
        let value = cast(ty, operand);
        assert_eq!((value.bits, value.signed), (bits, signed));
        push_value(&mut rows, operand);
        rows.push(u8::try_from(bits).expect("widths go to 64"));
        rows.push(u8::from(signed));
        push_value(&mut rows, value);
    }
    rows
}

fn type_cases() -> Vec<u8> {
    SPELLINGS.iter().flat_map(|ty| type_row(ty)).collect()
}

/// The spelling, its type, and the type that it points at (0 if it is no pointer's).
fn type_row(ty: &str) -> Vec<u8> {
    assert!(ty.len() <= 64, "{ty:?}");
    assert!(
        ty.bytes().all(|byte| (0x20..=0x7e).contains(&byte)),
        "{ty:?}"
    );
    let mut row = vec![ty.len() as u8];
    row.extend(ty.bytes());
    row.resize(65, 0);
    push_type(&mut row, type_of(ty));
    let is_pointer = ty.trim_end().ends_with('*');
    push_type(
        &mut row,
        if is_pointer {
            pointee(Some(ty))
        } else {
            (0, false)
        },
    );
    row
}

fn push_type(row: &mut Vec<u8>, (bits, signed): (u32, bool)) {
    row.push(u8::try_from(bits).expect("widths go to 64"));
    row.push(u8::from(signed));
}

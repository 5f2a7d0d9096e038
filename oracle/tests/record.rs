//! The record of document 01's `trim`, written out field by field.

use oracle::judge::{judge, LEAST_WORKSPACE};
use oracle::tiny::trim;

/// Names in order: dwell, sum, trim.
const DWELL: u16 = 0;
const SUM: u16 = 1;

fn value(signed: u8, bits: u32, number: u64) -> Vec<u8> {
    let mut out = vec![1, signed];
    out.extend(bits.to_le_bytes());
    out.extend(number.to_le_bytes());
    out
}

fn pairs(lengths: [u32; 6]) -> Vec<u8> {
    let mut out = Vec::new();
    let mut offset = 48u32;
    for length in lengths {
        out.extend(offset.to_le_bytes());
        out.extend(length.to_le_bytes());
        offset += length;
    }
    out
}

/// Kind 0 with the value; flag, address, number, node and name are unused.
fn stop() -> Vec<u8> {
    let mut out = vec![0, 0];
    out.extend([0; 1 + 8 + 8 + 4 + 2]);
    out.extend(value(1, 32, 0xffff_fffa));
    out
}

/// One block, two steps, three units.
fn counts() -> Vec<u8> {
    [1u32, 2, 3].map(u32::to_le_bytes).concat()
}

/// `sum = dwell + 200`, at 0x1000; then `return sum - 50`.
fn steps() -> Vec<u8> {
    let note = [0; 1 + 8 + 4 + 14 + 2];
    let mut out = vec![1];
    out.extend(0x1000u64.to_le_bytes());
    out.extend([0; 4 + 4]);
    out.push(1);
    out.extend(SUM.to_le_bytes());
    out.extend(value(1, 8, 44));
    out.extend(note);
    out.extend([0; 1 + 8 + 4]);
    out.extend(1u32.to_le_bytes());
    out.extend([0; 1 + 2 + 14]);
    out.extend(note);
    out
}

fn variables() -> Vec<u8> {
    let mut out = DWELL.to_le_bytes().to_vec();
    out.extend(value(0, 8, 100));
    out.extend(SUM.to_le_bytes());
    out.extend(value(1, 8, 44));
    out
}

#[test]
fn trim_field_by_field() {
    let expected = [
        pairs([39, 12, 126, 32, 0, 0]),
        stop(),
        counts(),
        steps(),
        variables(),
    ];
    let verdict = judge(&trim().files, 257, LEAST_WORKSPACE);
    assert_eq!(verdict.number, 0);
    assert_eq!(verdict.record, expected.concat());
}

#[test]
fn one_byte_too_few() {
    let verdict = judge(&trim().files, 256, LEAST_WORKSPACE);
    assert_eq!((verdict.number, verdict.record.len()), (22, 0));
}

#[test]
fn workspace_too_short() {
    let verdict = judge(&trim().files, 257, LEAST_WORKSPACE - 1);
    assert_eq!(verdict.number, 20);
}

//! Those in C held to the judge on the fixed cases and on generated ones, well
//! formed and damaged.

use oracle::boolean::speaks_of_bool;
use oracle::cases::{case, fixed, Case};
use oracle::generate::Size;
use oracle::judge::Verdict;

use crate::contenders::{checked, walker};

/// What the buffers hold before a run, and beyond them.
const PATTERN: u8 = 0xa5;

/// The fixed cases, then so many seeds, each once well formed and once damaged.
/// Those with bool types are left out: the walker does what the original does.
pub fn try_all(seeds: u64) {
    let generated = (0..2 * seeds).map(|seed| case(seed, Size::Any));
    let mut numbers = [0; 32];
    let cases = fixed().into_iter().chain(generated);
    let cases = cases.filter(|case| !speaks_of_bool(&case.files.routine));
    for (place, case) in cases.enumerate() {
        let verdict = case.judge();
        try_one(&case, &verdict, place);
        numbers[verdict.number as usize] += 1;
    }
    let refused: u32 = numbers[1..].iter().sum();
    println!(
        "{} accepted cases: the walker's records are the original's",
        numbers[0]
    );
    println!("{refused} refused cases: the answers of check and walker are the judge's");
    let met = (1..numbers.len()).filter(|number| numbers[*number] != 0);
    let met: Vec<String> = met.map(|n| format!("{n}: {}", numbers[n])).collect();
    println!("  {}\n", met.join(", "));
}

/// Both numbers of the answer and the whole buffer must be the judge's.
fn try_one(case: &Case, verdict: &Verdict, place: usize) {
    let left = left(case, verdict);
    let mut record = vec![PATTERN; left.len()];
    let answer = checked(&case.files, &mut record[..case.buffer], case.workspace);
    let judged = (verdict.number, verdict.length);
    assert_eq!(answer, judged, "case {place}: checked");
    assert!(record == left, "case {place}: the buffer, checked");
    if verdict.number == 0 {
        record.fill(PATTERN);
        let answer = walker(&case.files, &mut record[..case.buffer]);
        assert_eq!(answer, judged, "case {place}: the walker");
        assert!(record == left, "case {place}: the buffer, walker");
    }
}

/// What a run leaves in the buffer, and the pattern beyond it.
fn left(case: &Case, verdict: &Verdict) -> Vec<u8> {
    let mut left = vec![PATTERN; case.buffer + 64];
    match verdict.number {
        21 | 22 => left[..case.buffer].fill(0),
        _ => left[..verdict.record.len()].copy_from_slice(&verdict.record),
    }
    left
}

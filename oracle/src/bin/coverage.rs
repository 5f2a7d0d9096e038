//! Judges cases and prints what they reached: `coverage COUNT FIRST-SEED`.
//!
//! Every second case is damaged. Ends with 1 if a row of the table that must
//! be reached was not.

use std::env;
use std::process::ExitCode;

use oracle::cases::case;
use oracle::comparison::{constant_answer, constant_nodes};
use oracle::coverage::Coverage;
use oracle::generate::Size;
use oracle::judge::judge_constant;

fn main() -> ExitCode {
    let mut numbers = env::args()
        .skip(1)
        .map(|text| text.parse::<u64>().expect("a decimal number"));
    let count = numbers.next().unwrap_or(4_000);
    let first = numbers.next().unwrap_or(0);
    let mut coverage = Coverage::new();
    for seed in first..first + count {
        let case = case(seed, Size::Any);
        let verdict = case.judge();
        coverage.count(&case.files, &verdict);
        for node in constant_nodes(&case.files.routine, seed) {
            let verdict = judge_constant(&case.files.routine, node, case.workspace);
            coverage.count_constant(&constant_answer(verdict));
        }
        if let Some(how) = case.how {
            coverage.add("damage and answer", &format!("{how}: {}", verdict.number));
        }
    }
    print!("{coverage}");
    let missing = coverage.missing();
    for row in &missing {
        println!("not reached: {row}");
    }
    ExitCode::from(u8::from(!missing.is_empty()))
}

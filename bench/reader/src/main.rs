//! Our reader timed beside the original and a walker in C, with a check and
//! without, on the same files.
//!
//! `reader` compares the records of all and prints the tables;
//! `reader repeat ours|least|rust|c|checked TIMES ROW` does nothing but run one
//! row, whose name begins so, for tools that count instructions (ours with room
//! for the questions, or with the least workspace); `reader try CASES` holds
//! check and walker to the judge on generated cases.

mod contenders;
mod growth;
mod image;
mod refusals;
mod rows;
mod table;
mod timing;
mod trials;

use std::env;
use std::hint::black_box;

use contenders::{checked, ours, walker, Lent, Original};
use refusals::refusals;
use rows::{rows, Row, BUFFER};

fn main() {
    let words: Vec<String> = env::args().skip(1).collect();
    let words: Vec<&str> = words.iter().map(String::as_str).collect();
    match words.as_slice() {
        [] => tables(),
        ["repeat", who, times, row] => repeat(who, times.parse().expect("a number"), row),
        ["try", cases] => trials::try_all(cases.parse().expect("a number")),
        _ => {
            panic!("reader, reader repeat ours|least|rust|c|checked TIMES ROW, or reader try CASES")
        }
    }
}

fn tables() {
    let mut lent = Lent::new(BUFFER);
    let (rows, refusals) = (rows(), refusals());
    for row in &rows {
        table::check(row, &mut lent);
    }
    for row in &refusals {
        table::check_refusal(row, &mut lent);
    }
    println!("records: the same bytes from all on every row that runs");
    println!("numbers: those of the judge on every row that is refused\n");
    table::print(&rows, &refusals, &mut lent);
    growth::print(&mut lent);
}

/// The row whose name begins so.
fn found(name: &str) -> Row {
    let begins = |row: &Row| row.name.starts_with(name);
    let refusal = || refusals().into_iter().find(begins);
    let row = rows().into_iter().find(begins).or_else(refusal);
    row.expect("a row's name")
}

fn repeat(who: &str, times: usize, name: &str) {
    let row = found(name);
    let mut lent = Lent::new(row.buffer);
    let original = (who == "rust").then(|| Original::new(&row.files));
    let roomy = match (who, row.number) {
        ("ours", 0) => row.workspace + table::told(&row, &mut lent.second).questions,
        _ => row.workspace,
    };
    let workspace = &mut lent.workspace[..roomy];
    for _ in 0..times {
        let answer = match &original {
            // Kept, as in the tables: what frees it is not looked at.
            Some(original) => {
                std::mem::forget(black_box(original.run()));
                continue;
            }
            None if ["ours", "least"].contains(&who) => {
                ours(&row.files, &mut lent.record, workspace)
            }
            None if who == "checked" => checked(&row.files, &mut lent.record, row.workspace),
            None => walker(&row.files, &mut lent.record),
        };
        black_box(answer);
    }
}

//! The table of rows: the records are compared before anything is timed.

use std::hint::black_box;

use oracle::emulate::Run;
use oracle::judge::judge;

use crate::contenders::{checked, ours, walker, Lent, Original};
use crate::rows::Row;
use crate::timing::{medians, timed, Contender};

/// Our record and those of the walker, without the check and with it, must be
/// the original's, byte for byte, and the original's timed run the one that its
/// record was made of.
pub fn check(row: &Row, lent: &mut Lent) {
    let verdict = judge(&row.files, row.buffer, row.workspace);
    assert_eq!(verdict.number, 0, "{}: runs", row.name);
    let same = |who: &str, (number, length): (u32, u32), record: &mut [u8]| {
        assert_eq!(number, 0, "{}: {who} runs", row.name);
        let record = &mut record[..length as usize];
        let same = *record == verdict.record[..];
        assert!(same, "{}: the record of {who} is the original's", row.name);
        record.fill(0xa5);
    };
    let Lent {
        record, workspace, ..
    } = lent;
    same("ours", ours(&row.files, record, workspace), record);
    let least = &mut workspace[..row.workspace];
    same("ours in the least", ours(&row.files, record, least), record);
    same("the walker", walker(&row.files, record), record);
    let answer = checked(&row.files, record, row.workspace);
    same("C, checked", answer, record);
    let judged = verdict.ran.expect("it ran").run;
    let same = outcome(Original::new(&row.files).run()) == outcome(judged);
    assert!(same, "{}: the timed run is the judged one", row.name);
}

/// A run without its labels, which are cheap where it is timed.
fn outcome(mut run: Run) -> Run {
    run.steps.iter_mut().for_each(|step| step.text.clear());
    run
}

/// The number must be the one that the row is for, and what comes with it the
/// judge's.
pub fn check_refusal(row: &Row, lent: &mut Lent) {
    let verdict = judge(&row.files, row.buffer, row.workspace);
    let judged = (row.number, verdict.length);
    assert_eq!((verdict.number, verdict.length), judged, "{}", row.name);
    let record = &mut lent.record[..row.buffer];
    let answer = ours(&row.files, record, &mut lent.workspace[..row.workspace]);
    assert_eq!(answer, judged, "{}: ours", row.name);
    let answer = checked(&row.files, record, row.workspace);
    assert_eq!(answer, judged, "{}: C, checked", row.name);
}

pub fn print(rows: &[Row], refusals: &[Row], lent: &mut Lent) {
    println!(
        "{:42} {:>9} {:>12} {:>9} {:>7} {:>14} {:>8} {:>10}",
        "row", "units", "ours, ns", "ours/Rust", "ours/C", "ours/C checked", "least/C", "ns per"
    );
    for row in rows {
        print_row(row, lent);
    }
    for row in refusals {
        print_refusal(row, lent);
    }
    println!();
}

fn print_row(row: &Row, lent: &mut Lent) {
    let told = told(row, &mut lent.second);
    let Lent {
        record,
        workspace,
        second,
        third,
        least,
        fourth,
    } = lent;
    let original = Original::new(&row.files);
    let roomy = &mut workspace[..row.workspace + told.questions];
    let mut contenders: [Contender; 5] = [
        Box::new(|| timed(|| ours(&row.files, record, roomy))),
        Box::new(|| timed(|| original.run())),
        Box::new(|| timed(|| walker(&row.files, second))),
        Box::new(|| timed(|| checked(&row.files, third, row.workspace))),
        Box::new(|| timed(|| ours(&row.files, fourth, least))),
    ];
    let times = medians(&mut contenders);
    println!(
        "{:42} {:>9} {:>12.0} {:>9.3} {:>7.2} {:>14.2} {:>8.2} {:>10.2} {}",
        row.name,
        told.units,
        times[0],
        times[0] / times[1],
        times[0] / times[2],
        times[0] / times[3],
        times[4] / times[2],
        times[0] / row.work.0 as f64,
        row.work.1
    );
}

/// The units that a run spends and the bytes of its questions.
pub struct Told {
    pub units: u32,
    pub questions: usize,
}

/// What the walker's record tells of a row that runs.
pub fn told(row: &Row, record: &mut [u8]) -> Told {
    walker(&row.files, record);
    let field = |at: usize| u32::from_le_bytes(record[at..][..4].try_into().expect("four bytes"));
    Told {
        units: field(48 + 39 + 8),
        questions: field(5 * 8 + 4) as usize,
    }
}

/// Some refusals take less time than a look at the clock, so that many are
/// timed at once.
const REFUSALS: u32 = 100;

fn print_refusal(row: &Row, lent: &mut Lent) {
    let record = &mut lent.record[..row.buffer];
    let workspace = &mut lent.workspace[..row.workspace];
    let third = &mut lent.third[..row.buffer];
    let mut contenders: [Contender; 2] = [
        many(|| ours(&row.files, record, workspace)),
        many(|| checked(&row.files, third, row.workspace)),
    ];
    let times = medians(&mut contenders);
    let ratio = times[0] / times[1];
    println!(
        "{:42} {:>9} {:>12.0} {:>9} {:>7} {:>14.2} {:>8} {:>10}",
        row.name, "-", times[0], "-", "-", ratio, "-", "-"
    );
}

/// A contender that refuses many times at once.
fn many<'a>(mut refused: impl FnMut() -> (u32, u32) + 'a) -> Contender<'a> {
    let mut all = move || {
        for _ in 0..REFUSALS {
            black_box(refused());
        }
    };
    Box::new(move || timed(&mut all) / REFUSALS)
}

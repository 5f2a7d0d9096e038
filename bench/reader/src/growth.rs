//! How the cost grows: of a unit with their number, and of a jump, a variable,
//! a symbol and a load with how many there are. Ours alone.

use std::cell::RefCell;
use std::iter::once;

use crate::contenders::{ours, Lent};
use crate::rows::{copies, counting, jumps, loads, reads, Row};
use crate::table::told;
use crate::timing::{medians, timed, Contender};

/// A run, and a shorter one whose time and work are taken off, so that what
/// both do once does not count.
struct Cost {
    count: u64,
    long: Row,
    short: Option<Row>,
}

/// The units of the shorter and of the longer run.
const FEW: u32 = 10_000;
const MANY: u32 = 60_000;

pub fn print(lent: &mut Lent) {
    let units = [1_000, 10_000, 100_000, 1_000_000].map(|count| Cost {
        count,
        long: counting(count),
        short: None,
    });
    line("ns per unit, whole runs of a counting loop", &units, lent);
    let beyond = |counts: [u64; 4], row: fn(u64, u32) -> Row| {
        counts.map(|count| Cost {
            count,
            long: row(count, MANY),
            short: Some(row(count, FEW)),
        })
    };
    let tens = [2, 20, 200, 2_000];
    line("ns per jump, by blocks", &beyond(tens, jumps), lent);
    let eights = [1, 8, 64, 512];
    let copies = beyond(eights, copies);
    line("ns per statement x = y, by names", &copies, lent);
    let reads = beyond(eights, reads);
    line("ns per statement x = symbol, by symbols", &reads, lent);
    let loads = beyond([1, 10, 100, 1_000], loads);
    line(
        "ns per statement x = *(int *)address, by regions",
        &loads,
        lent,
    );
}

/// A line of costs, and how far the highest is above the lowest.
fn line(title: &str, costs: &[Cost], lent: &mut Lent) {
    let lent = RefCell::new(lent);
    let rows = costs
        .iter()
        .flat_map(|cost| once(&cost.long).chain(&cost.short));
    let mut contenders: Vec<Contender> = rows.map(|row| contender(row, &lent)).collect();
    let mut times = medians(&mut contenders).into_iter();
    let mut next = || times.next().expect("a time for each row");
    println!("{title}");
    let (mut least, mut most) = (f64::MAX, f64::MIN);
    for cost in costs {
        let (mut time, mut work) = (next(), cost.long.work.0);
        if let Some(short) = &cost.short {
            time -= next();
            work -= short.work.0;
        }
        let each = time / work as f64;
        (least, most) = (least.min(each), most.max(each));
        print!("  {}: {each:.2}", cost.count);
    }
    println!("  spread {:.0} %\n", 100.0 * (most / least - 1.0));
}

/// One run of a row, with room for its questions.
fn contender<'a>(row: &'a Row, lent: &'a RefCell<&mut Lent>) -> Contender<'a> {
    let questions = told(row, &mut lent.borrow_mut().second).questions;
    Box::new(move || {
        let lent = &mut *lent.borrow_mut();
        let roomy = &mut lent.workspace[..row.workspace + questions];
        timed(|| ours(&row.files, &mut lent.record, roomy))
    })
}

//! The harness checked against itself, over generated cases.

use oracle::cases::case;
use oracle::comparison::{constant_answer, constant_nodes};
use oracle::coverage::Coverage;
use oracle::files::{Call, Routine, World};
use oracle::generate::{sources, Size};
use oracle::judge::{judge, judge_constant, LEAST_WORKSPACE};
use oracle::original::{run, run_grown};
use oracle::tiny::{cases, trim, TRIM_LISTING};
use oracle::trees::Growth;

const CASES: u64 = 3_000;

#[test]
fn document_01_prints_trim_so() {
    let verdict = judge(&trim().files, 65_536, LEAST_WORKSPACE);
    assert_eq!(verdict.listing(), TRIM_LISTING);
}

/// `marks` names the node of every stop, and names the one that storage does.
#[test]
fn marks_change_nothing() {
    let mut copies = 0;
    let generated = (0..CASES).map(|seed| sources(seed, Size::Any).files());
    let tiny = cases().into_iter().map(|case| case.files);
    for files in generated.chain(tiny) {
        let routine = Routine::read(&files.routine);
        let (world, call) = (World::read(&files.world), Call::read(&files.call));
        let plain = run_grown(&routine, &world, &call, Growth::Plain);
        let whole = run(&routine, &world, &call);
        let marked = run_grown(&routine, &world, &call, Growth::Marked);
        copies += u64::from(plain != whole);
        assert_eq!(whole, marked);
    }
    assert!(copies > 20, "{copies} stops in a copy");
}

#[test]
fn everything_is_reached() {
    let mut coverage = Coverage::new();
    for seed in 0..2 * CASES {
        let case = case(seed, Size::Any);
        coverage.count(&case.files, &case.judge());
        for node in constant_nodes(&case.files.routine, seed) {
            let verdict = judge_constant(&case.files.routine, node, case.workspace);
            coverage.count_constant(&constant_answer(verdict));
        }
    }
    assert_eq!(coverage.missing(), Vec::<String>::new());
}

//! Lays our reader beside the original: `compare CASES PAIRS FIRST-SEED`.
//!
//! The fixed cases come first; of the others every second is damaged. Cases
//! that speak of bool, which the original alone does not judge, are compared
//! with the second reading and counted apart. A case that differs is written
//! into a folder of its own under `differences/`, and the program ends with 1.

use std::path::{Path, PathBuf};
use std::process::ExitCode;
use std::{env, fmt, fs};

use library::Library;
use oracle::boolean::speaks_of_bool;
use oracle::cases::{case, fixed, Case};
use oracle::comparison::{
    compare_constant, compare_run, compare_worlds, constant_nodes, worlds, Difference,
};
use oracle::coverage::Coverage;
use oracle::generate::Size;
use oracle::judge::Files;
use oracle::two_worlds::Change;

/// After so many differences the rest is not looked at.
const ENOUGH: usize = 20;

fn main() -> ExitCode {
    let mut numbers = env::args()
        .skip(1)
        .map(|text| text.parse::<u64>().expect("a decimal number"));
    let cases = numbers.next().unwrap_or(20_000);
    let pairs = numbers.next().unwrap_or(2_000);
    let first = numbers.next().unwrap_or(0);
    let mut tally = Tally::default();
    compare_fixed(&mut tally);
    for seed in first..first + cases {
        compare_seed(&mut tally, seed);
    }
    let mut seed = first;
    while tally.equal_pairs + tally.different_pairs < pairs {
        compare_pair(&mut tally, seed);
        seed += 1;
    }
    tally.report()
}

/// What was compared with one of the two judges.
#[derive(Default)]
struct Judged {
    runs: u64,
    damaged: u64,
    constants: u64,
}

impl fmt::Display for Judged {
    fn fmt(&self, out: &mut fmt::Formatter) -> fmt::Result {
        let (runs, damaged, constants) = (self.runs, self.damaged, self.constants);
        write!(
            out,
            "{runs} runs ({damaged} of changed files) and {constants} constants"
        )
    }
}

/// What was compared and what differed.
#[derive(Default)]
struct Tally {
    coverage: Coverage,
    original: Judged,
    second_reading: Judged,
    equal_pairs: u64,
    different_pairs: u64,
    bool_pairs: u64,
    differences: usize,
}

impl Tally {
    /// The counts that a case belongs to.
    fn judged(&mut self, files: &Files) -> &mut Judged {
        if speaks_of_bool(&files.routine) {
            &mut self.second_reading
        } else {
            &mut self.original
        }
    }

    fn differs(&mut self, name: &str, files: &Files, difference: &Difference) {
        self.differences += 1;
        println!("{name}: {}", difference.0);
        match keep(name, files) {
            Ok(folder) => println!("  its files are in {}", folder.display()),
            Err(why) => println!("  its files could not be kept: {why}"),
        }
        if self.differences == ENOUGH {
            println!("{ENOUGH} differences are enough");
            std::process::exit(1);
        }
    }

    fn report(&self) -> ExitCode {
        print!("{}", self.coverage);
        for row in self.coverage.missing() {
            println!("not reached: {row}");
        }
        println!(
            "{} compared with the original, {} of routines with bool types with the second reading",
            self.original, self.second_reading
        );
        println!(
            "{} pairs of worlds with equal records, {} with different ones; \
             {} of them of routines with bool types",
            self.equal_pairs, self.different_pairs, self.bool_pairs
        );
        println!("{} differences", self.differences);
        ExitCode::from(u8::from(self.differences > 0))
    }
}

/// Write a case's files into a folder of its own.
fn keep(name: &str, files: &Files) -> std::io::Result<PathBuf> {
    let folder = Path::new("differences").join(name);
    fs::create_dir_all(&folder)?;
    fs::write(folder.join("routine.bin"), &files.routine)?;
    fs::write(folder.join("world.bin"), &files.world)?;
    fs::write(folder.join("call.bin"), &files.call)?;
    Ok(folder)
}

fn compare_fixed(tally: &mut Tally) {
    for (number, case) in fixed().iter().enumerate() {
        let name = format!("fixed-{number}");
        compare_case(tally, &name, case);
        compare_constants(tally, &name, case, case.constants());
    }
}

fn compare_seed(tally: &mut Tally, seed: u64) {
    let case = case(seed, Size::Any);
    let name = seed.to_string();
    compare_case(tally, &name, &case);
    let nodes = constant_nodes(&case.files.routine, seed);
    compare_constants(tally, &name, &case, &nodes);
}

fn compare_constants(tally: &mut Tally, name: &str, case: &Case, nodes: &[u32]) {
    for node in nodes {
        tally.judged(&case.files).constants += 1;
        match compare_constant(&Library, &case.files.routine, *node, case.workspace) {
            Ok(answer) => tally.coverage.count_constant(&answer),
            Err(difference) => tally.differs(name, &case.files, &difference),
        }
    }
}

fn compare_case(tally: &mut Tally, name: &str, case: &Case) {
    let judged = tally.judged(&case.files);
    judged.runs += 1;
    judged.damaged += u64::from(case.how.is_some());
    match compare_run(&Library, case) {
        Ok(verdict) => tally.coverage.count(&case.files, &verdict),
        Err(difference) => tally.differs(name, &case.files, &difference),
    }
}

fn compare_pair(tally: &mut Tally, seed: u64) {
    let change = [Change::Untouched, Change::Answered, Change::Any][(seed % 3) as usize];
    let Some(worlds) = worlds(seed, change) else {
        return;
    };
    tally.bool_pairs += u64::from(speaks_of_bool(&worlds.first.files.routine));
    match compare_worlds(&Library, &worlds) {
        Ok(true) => tally.equal_pairs += 1,
        Ok(false) => tally.different_pairs += 1,
        Err(difference) => {
            let name = format!("pair-{seed}");
            tally.differs(&name, &worlds.first.files, &difference);
            let second = format!("pair-{seed}-second-world");
            tally.differs(&second, &worlds.second.files, &difference);
        }
    }
}

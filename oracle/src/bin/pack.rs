//! Packs cases and the original's answers into one file:
//! `pack FILE CASES LARGE FIRST-SEED`.
//!
//! The fixed cases come first, then LARGE cases of any size, then small ones,
//! until there are CASES at least. Every second one is damaged. Large ones, every
//! fourth small one and the fixed ones with faulty nodes are followed by two of
//! `constant_value`. A case that speaks of bool is left out, since the original
//! alone does not judge it.
//!
//! Prints what the cases reach, and ends with 1 if something is not reached
//! or the file is too large.

use std::ops::RangeFrom;
use std::process::ExitCode;
use std::{env, fs};

use oracle::boolean::speaks_of_bool;
use oracle::cases::{case, fixed, Case};
use oracle::comparison::{constant_answer, constant_nodes};
use oracle::coverage::Coverage;
use oracle::generate::Size;
use oracle::judge::judge_constant;
use oracle::vectors::{read, Packer, Vector};

/// The most bytes that the repository keeps.
const MOST_BYTES: usize = 4_000_000;

fn main() -> ExitCode {
    let mut arguments = env::args().skip(1);
    let file = arguments
        .next()
        .unwrap_or_else(|| "vectors.bin".to_string());
    let mut numbers = arguments.map(|text| text.parse::<u64>().expect("a decimal number"));
    let cases = numbers.next().unwrap_or(11_000);
    let large = numbers.next().unwrap_or(300);
    let first = numbers.next().unwrap_or(1_000_000);
    let mut maker = Maker {
        packer: Packer::default(),
        coverage: Coverage::without_bool(),
        made: Vec::new(),
    };
    for case in fixed().into_iter().filter(judged_alone) {
        maker.run(&case);
        for node in case.constants() {
            maker.constant(&case, *node);
        }
    }
    let mut seeds = first..;
    for _ in 0..large {
        maker.next(&mut seeds, Size::Any);
    }
    while u64::from(maker.packer.count()) < cases {
        maker.next(&mut seeds, Size::Small);
    }
    maker.finish(&file)
}

/// Whether the original alone judges a case.
fn judged_alone(case: &Case) -> bool {
    !speaks_of_bool(&case.files.routine)
}

struct Maker {
    packer: Packer,
    coverage: Coverage,
    made: Vec<Vector>,
}

impl Maker {
    /// The case of the next seed whose case is not left out.
    fn next(&mut self, seeds: &mut RangeFrom<u64>, size: Size) {
        let mut cases = seeds.map(|seed| (seed, case(seed, size)));
        let found = cases.find(|(_, case)| judged_alone(case));
        let (seed, case) = found.expect("seeds have no end");
        self.run(&case);
        if size == Size::Any || seed.is_multiple_of(4) {
            for node in constant_nodes(&case.files.routine, seed)
                .into_iter()
                .take(2)
            {
                self.constant(&case, node);
            }
        }
    }

    fn run(&mut self, case: &Case) {
        let verdict = case.judge();
        self.coverage.count(&case.files, &verdict);
        self.push(Vector::Run {
            files: case.files.clone(),
            buffer: case.buffer as u32,
            workspace: case.workspace as u32,
            number: verdict.number,
            length: verdict.length,
            record: verdict.record,
        });
    }

    fn constant(&mut self, case: &Case, node: u32) {
        let routine = &case.files.routine;
        let answer = constant_answer(judge_constant(routine, node, case.workspace));
        self.coverage.count_constant(&answer);
        self.push(Vector::Constant {
            routine: routine.clone(),
            node,
            workspace: case.workspace as u32,
            answer,
        });
    }

    fn push(&mut self, vector: Vector) {
        self.packer.push(&vector);
        self.made.push(vector);
    }

    fn finish(&self, file: &str) -> ExitCode {
        let bytes = self.packer.file();
        assert!(read(&bytes).as_ref() == Some(&self.made), "it reads back");
        fs::write(file, &bytes).expect("the file can be written");
        print!("{}", self.coverage);
        println!("{file}: {} cases, {} bytes", self.made.len(), bytes.len());
        let missing = self.coverage.missing();
        for row in &missing {
            println!("not reached: {row}");
        }
        let well = missing.is_empty() && bytes.len() <= MOST_BYTES;
        ExitCode::from(u8::from(!well))
    }
}

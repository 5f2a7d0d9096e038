//! Writes the tiny cases into the folder that the first argument names: for
//! each the three files, the original's record (both as hexadecimal text) and
//! its listing.

use std::path::Path;
use std::{env, fs};

use oracle::hex;
use oracle::judge::{judge, LEAST_WORKSPACE};
use oracle::tiny::{cases, Tiny, TRIM_LISTING};

/// The record buffer of the listing program.
const BUFFER: usize = 65_536;

fn main() {
    let folder = env::args().nth(1).unwrap_or_else(|| "tiny".to_string());
    let folder = Path::new(&folder);
    fs::create_dir_all(folder).expect("the folder can be made");
    let cases = cases();
    for case in &cases {
        write(folder, case);
    }
    println!("{} cases", cases.len());
}

fn write(folder: &Path, case: &Tiny) {
    let verdict = judge(&case.files, BUFFER, LEAST_WORKSPACE);
    assert_eq!(verdict.number, 0, "{} is accepted", case.name);
    if case.name == "trim" {
        assert_eq!(verdict.listing(), TRIM_LISTING, "document 01's listing");
    }
    let put = |part: &str, text: String| {
        let file = folder.join(format!("{}.{part}", case.name));
        fs::write(file, text).expect("the file can be written");
    };
    put("routine", hex::text(&case.files.routine));
    put("world", hex::text(&case.files.world));
    put("call", hex::text(&case.files.call));
    put("record", hex::text(&verdict.record));
    put("listing", verdict.listing());
    let longest = case.files.routine.len().max(case.files.world.len());
    println!("{:32} {longest:4} {:4}", case.name, verdict.record.len());
}

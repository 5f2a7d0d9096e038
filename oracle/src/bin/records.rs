//! Prints what the original makes of routine.bin, world.bin and call.bin in
//! the folder that the first argument names: the refusal's number, or the
//! record in hexadecimal, and the listing.
//!
//! A second and a third argument give the lengths of the record buffer and of
//! the workspace; both are 65,536 otherwise. A file that cannot be opened is
//! taken as empty.

use std::path::Path;
use std::{env, fs};

use oracle::hex;
use oracle::judge::{judge, Files, LEAST_WORKSPACE};

fn main() {
    let arguments: Vec<String> = env::args().skip(1).collect();
    let folder = arguments.first().map_or(".", String::as_str);
    let file = |name: &str| fs::read(Path::new(folder).join(name)).unwrap_or_default();
    let files = Files {
        routine: file("routine.bin"),
        world: file("world.bin"),
        call: file("call.bin"),
    };
    let buffer = length(&arguments, 1, 65_536);
    let workspace = length(&arguments, 2, LEAST_WORKSPACE);
    let verdict = judge(&files, buffer, workspace);
    println!("number {}, length {}", verdict.number, verdict.length);
    print!("{}{}", hex::text(&verdict.record), verdict.listing());
}

fn length(arguments: &[String], index: usize, usual: usize) -> usize {
    arguments.get(index).map_or(usual, |text| {
        text.parse().expect("a length is a decimal number")
    })
}

//! Writes cases for a listing program: `listings FOLDER CASES FIRST-SEED`.
//!
//! Each case is a folder with routine.bin, world.bin, call.bin and, as
//! expected.txt, what the original prints: `Run::text` with the statement's
//! number for its text and `node N` where it prints an expression, or
//! `; refused N`. Where a type speaks of bool it is what the second reading
//! prints. An empty file is left out, since the program takes a file that it
//! cannot open as empty.

use std::path::Path;
use std::{env, fs};

use oracle::cases::case;
use oracle::generate::Size;
use oracle::judge::{judge, Files, LEAST_WORKSPACE};
use oracle::source::{Call, Routine, World};
use oracle::tiny;
use oracle::tree::{constant, deref, intrinsic, plain, var, Tree};

/// The record buffer of the listing program.
const BUFFER: usize = 65_536;

fn main() {
    let mut arguments = env::args().skip(1);
    let folder = arguments.next().unwrap_or_else(|| "listings".to_string());
    let folder = Path::new(&folder);
    let mut numbers = arguments.map(|text| text.parse::<u64>().expect("a decimal number"));
    let cases = numbers.next().unwrap_or(600);
    let first = numbers.next().unwrap_or(2_000_000);
    let tiny = tiny::cases();
    for case in &tiny {
        write(&folder.join(case.name), &case.files);
    }
    // A record that just fills the buffer, since a symbol takes 43 bytes of
    // questions, and one of a byte more, since four loads take 44.
    let loads = vec![deref(constant(0x9000, 8)); 4];
    write(&folder.join("full-buffer"), &long(vec![var("s")]));
    write(&folder.join("a-byte-too-many"), &long(loads));
    for seed in first..first + cases {
        let files = case(seed, Size::Any).files;
        write(&folder.join(seed.to_string()), &files);
    }
    println!("{} fixed and {cases} generated cases", tiny.len() + 2);
}

/// A run of 1,038 steps, the last of which evaluates these. Without questions
/// its record has 99 + 1,038 * 63 bytes, 43 less than the buffer.
fn long(asking: Vec<Tree>) -> Files {
    let routine = Routine::new("f", 0x1000, "int");
    let routine = (1..1_038).fold(routine, |routine, _| routine.then(plain()));
    let routine = routine.then(intrinsic("f", asking)).returns();
    let world = World::default().symbol("s", 8, 0x2000);
    Files {
        routine: routine.file(),
        world: world.region(0x2000, &[1; 8]).file(),
        call: Call::new(2_000, &[]).file(),
    }
}

fn write(folder: &Path, files: &Files) {
    fs::create_dir_all(folder).expect("the folder can be made");
    let put = |name: &str, bytes: &[u8]| {
        fs::write(folder.join(name), bytes).expect("the file can be written");
    };
    let listing = judge(files, BUFFER, LEAST_WORKSPACE).listing();
    put("expected.txt", listing.as_bytes());
    let named = [
        ("routine.bin", &files.routine),
        ("world.bin", &files.world),
        ("call.bin", &files.call),
    ];
    for (name, bytes) in named.into_iter().filter(|(_, bytes)| !bytes.is_empty()) {
        put(name, bytes);
    }
}

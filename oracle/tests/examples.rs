//! What the prover computes of tiny routines, as it stands in `Examples*.antt`
//! of `definition` and `definition_cases`, beside what the judge says of the
//! same files; and the table of conversions in `spelling`, beside 6.3.1.2 and
//! 6.3.1.3 said once more.

use std::collections::{HashMap, HashSet};
use std::fs;
use std::path::PathBuf;

use oracle::boolean::{inserted, is_bool, speaks_of_bool};
use oracle::emulate::{type_of, Val};
use oracle::files::{Call, Routine};
use oracle::hex;
use oracle::judge::{judge, judge_constant, Files, LEAST_WORKSPACE};
use oracle::tiny::cases;
use oracle::trees::{stages, Growth};

/// The least count of conversions to bool among the examples.
const CONVERSIONS: usize = 300;

fn crates() -> PathBuf {
    PathBuf::from(env!("CARGO_MANIFEST_DIR")).join("../crates")
}

/// What stands between blank lines, without comments.
fn paragraphs(file: PathBuf) -> Vec<String> {
    let text = fs::read_to_string(&file).unwrap_or_else(|_| panic!("{file:?} is there"));
    let code = |paragraph: &str| {
        let lines = paragraph.lines().filter(|line| !line.starts_with("--"));
        lines.collect::<Vec<_>>().join("\n")
    };
    text.split("\n\n").map(code).collect()
}

/// The texts between quotes.
fn rows(text: &str) -> Vec<&str> {
    text.split('"').skip(1).step_by(2).collect()
}

fn bytes(text: &str) -> Vec<u8> {
    let digits = rows(text).concat().replace(' ', "");
    let byte = |at| u8::from_str_radix(&digits[at..at + 2], 16).expect("two digits");
    (0..digits.len()).step_by(2).map(byte).collect()
}

/// What the examples declare and claim.
#[derive(Default)]
struct Examples {
    files: HashMap<String, Vec<u8>>,
    claims: Vec<Claim>,
}

/// `name : what ≡ expected`
struct Claim {
    name: String,
    what: Vec<String>,
    expected: String,
}

impl Examples {
    fn read() -> Self {
        let mut examples = Self::default();
        for folder in ["definition/proofs", "definition_cases/proofs"] {
            examples.add_folder(crates().join(folder));
        }
        examples
    }

    fn add_folder(&mut self, folder: PathBuf) {
        for entry in fs::read_dir(folder).expect("the proofs are there") {
            let file = entry.expect("an entry").path();
            let name = file.file_name().unwrap_or_default().to_string_lossy();
            if name.starts_with("Examples") || name == "Hex.antt" {
                let paragraphs = paragraphs(file.clone());
                paragraphs.iter().for_each(|text| self.add(text));
            }
        }
    }

    fn add(&mut self, text: &str) {
        if let Some((head, body)) = text.split_once(" = hex (") {
            let name = head.split_whitespace().last().expect("a name");
            let other = self.files.insert(name.to_string(), bytes(body));
            assert_eq!(other, None, "{name} is declared once");
        } else if text.contains(" = refl") {
            let (head, expected) = text.split_once(" ≡ ").expect("a claim");
            let (name, what) = head.split_once(" : ").expect("a name");
            self.claims.push(Claim {
                name: name.trim().to_string(),
                what: words(what),
                expected: expected.to_string(),
            });
        }
    }

    fn file(&self, name: &str) -> Vec<u8> {
        let found = self.files.get(name);
        found
            .unwrap_or_else(|| panic!("{name} is declared"))
            .clone()
    }

    fn of(&self, what: &[String]) -> Files {
        Files {
            routine: self.file(&what[1]),
            world: self.file(&what[2]),
            call: self.file(&what[3]),
        }
    }
}

/// The words between blanks and round brackets.
fn words(text: &str) -> Vec<String> {
    let pieces = text.split(|c: char| c.is_whitespace() || "()".contains(c));
    let words = pieces.filter(|piece| !piece.is_empty());
    words.map(str::to_string).collect()
}

fn numbers(words: &[String]) -> Vec<u64> {
    words.iter().filter_map(|word| word.parse().ok()).collect()
}

#[test]
fn examples_are_the_judges() {
    let examples = Examples::read();
    for claim in &examples.claims {
        match claim.what[0].as_str() {
            "record_computed" => record(&examples, claim),
            "listing_computed" => listing(&examples, claim),
            "map" if claim.what[1] == "constant_computed" => constants(&examples, claim),
            // The numbers of `trim`, by its buffers.
            _ => assert_eq!(claim.name, "trim_numbers"),
        }
    }
}

fn record(examples: &Examples, claim: &Claim) {
    let verdict = judge(&examples.of(&claim.what), 65_536, LEAST_WORKSPACE);
    let expected = hex::text(&bytes(&claim.expected));
    same(&claim.name, &expected, &hex::text(&verdict.record));
}

fn listing(examples: &Examples, claim: &Claim) {
    let verdict = judge(&examples.of(&claim.what), 65_536, LEAST_WORKSPACE);
    let expected = rows(&claim.expected).join("\n") + "\n";
    same(&claim.name, &expected, &verdict.listing());
}

fn same(name: &str, expected: &str, found: &str) {
    let mut lines = expected.lines().zip(found.lines());
    assert_eq!(lines.find(|(e, f)| e != f), None, "{name}");
    assert_eq!(expected.len(), found.len(), "{name}");
}

/// `constant_value` of each node.
fn constants(examples: &Examples, claim: &Claim) {
    let routine = examples.file(&claim.what[2]);
    let nodes = numbers(&claim.what);
    let values = claim.expected.split('∷').map(value);
    for (node, expected) in nodes.iter().zip(values) {
        let found = judge_constant(&routine, *node as u32, LEAST_WORKSPACE);
        assert_eq!(Ok(expected), found, "{}, node {node}", claim.name);
    }
}

/// `None`, or a number, a width and whether it is signed.
fn value(text: &str) -> Option<Val> {
    let words = words(text);
    let signed = words.iter().any(|word| word == "true");
    match numbers(&words)[..] {
        [number, bits] => Some(Val::known(number, bits as u32, signed)),
        _ => None,
    }
}

/// Every routine of `tiny` about bools is among them.
#[test]
fn tiny_bools_are_there() {
    let examples = Examples::read();
    let declared: HashSet<&Vec<u8>> = examples.files.values().collect();
    for case in cases() {
        if speaks_of_bool(&case.files.routine) {
            let Files {
                routine,
                world,
                call,
            } = &case.files;
            let found = [routine, world, call].map(|file| declared.contains(file));
            assert_eq!(found, [true; 3], "{}", case.name);
        }
    }
}

#[test]
fn conversions_are_many() {
    let examples = Examples::read();
    let files = examples.files.iter();
    let routines = files.filter(|(name, _)| name.ends_with("_routine"));
    let grown = routines.map(|(_, file)| inserted(&stages(&Routine::read(file), Growth::Plain)));
    let claims = examples.claims.iter();
    let runs = claims.filter(|claim| claim.what[0] == "record_computed");
    let given = runs.map(|claim| arguments(&examples.of(&claim.what)));
    let count = grown.sum::<usize>() + given.sum::<usize>();
    assert!(count >= CONVERSIONS, "{count} conversions to bool");
}

/// How many of a call's arguments are converted to bool.
fn arguments(files: &Files) -> usize {
    let routine = Routine::read(&files.routine);
    let call = Call::read(&files.call);
    let given = routine.head.params.iter().zip(&call.arguments);
    let bools = given.filter(|((_, ty), _)| is_bool(&routine.types[usize::from(*ty)]));
    bools.count()
}

/// The rows of `spelling`'s table: the type that is converted, a spelling, its
/// type, numbers, and what comes of them.
#[test]
fn table_of_conversions() {
    let table = crates().join("spelling/proofs/BoolCases.antt");
    let table = paragraphs(table).join("\n");
    let rows: Vec<&str> = table.split("row (").skip(1).collect();
    assert!(!rows.is_empty());
    for row in rows {
        let parts: Vec<&str> = row.split('"').collect();
        let (from, to) = (words(parts[0]), words(parts[2]));
        let numbers = &numbers(&to)[1..];
        let (sources, results) = numbers.split_at(numbers.len() / 2);
        assert_eq!(ty(&to), type_of(parts[1]), "{row}");
        for (number, result) in sources.iter().zip(results) {
            let found = converted(*number, ty(&from), parts[1]);
            assert_eq!(*result, found, "{number} in {row}");
        }
    }
}

/// `u 24` or `s 24`
fn ty(words: &[String]) -> (u32, bool) {
    let bits = numbers(words)[0] as u32;
    (bits, words.iter().any(|word| word == "s"))
}

/// ISO C 6.3.1.2 to a bool, 6.3.1.3 to another type, with wrapping.
fn converted(number: u64, (bits, signed): (u32, bool), spelling: &str) -> u64 {
    let number = i128::from(number);
    let negative = signed && number >> (bits - 1) == 1;
    let meant = if negative {
        number - (1 << bits)
    } else {
        number
    };
    if is_bool(spelling) {
        return u64::from(meant != 0);
    }
    let (bits, _) = type_of(spelling);
    meant.rem_euclid(1 << bits) as u64
}

//! The original emulator as a judge.
//!
//! `ast` and `emulate` are the original's own files, compiled unchanged from
//! where they lie. `lift`, `structure` and `emit` are what they lean on, as
//! document 01 ("Taking it over") lets a harness declare it. The rest of this
//! crate feeds the original with document 01's files and writes down what it
//! does in document 01's record.

include!(concat!(env!("OUT_DIR"), "/original.rs"));

// What the original leans on.
pub mod emit;
pub mod lift;
pub mod structure;

// Document 01's files, and what is refused in them.
pub mod fields;
pub mod files;
pub mod kinds;
pub mod refusal;

// Runs of the original, and their records.
pub mod boolean;
pub mod judge;
pub mod marks;
pub mod notes;
pub mod original;
pub mod record;
pub mod stops;
pub mod trees;
pub mod values;
pub mod world;

// Making files.
pub mod cases;
pub mod damage;
pub mod edges;
pub mod every;
pub mod generate;
pub mod random;
pub mod source;
pub mod spellings;
pub mod sweep;
pub mod tiny;
pub mod tree;
pub mod two_worlds;

// Laying a part beside the original, and showing what came out.
pub mod comparison;
pub mod coverage;
pub mod hex;
pub mod vectors;

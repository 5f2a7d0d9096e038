//! Runs of the original on document 01's files.

use std::cell::Cell;

use crate::emit::{with_labels, COPY};
use crate::emulate::{self, run_with, Limits, Memory, Run, Stop, Val};
use crate::files::{Call, Routine, World};
use crate::lift::{Function, Stages};
use crate::structure::{Node, Statement, Terminator};
use crate::trees::{self, Growth};
use crate::world::{Question, Recorder};

/// A run of the original and what the harness saw of it.
#[derive(Debug, PartialEq, Eq)]
pub struct Ran {
    /// Statements are printed as their numbers, expressions as `node N`.
    pub run: Run,
    pub questions: Vec<Question>,
    /// The bytes that the questions take in a record.
    pub questions_length: u64,
    /// The units that the run took off its budget.
    pub spent: usize,
}

/// `run_with` "at depth 0 with empty memory and arguments of 64 bits signed
/// as `run` makes them".
pub fn run(routine: &Routine, world: &World, call: &Call) -> Ran {
    let mut ran = run_grown(routine, world, call, Growth::Plain);
    if prints_copy(&ran.run.stop) {
        ran.run.stop = marked_stop(routine, world, call, &ran);
    }
    ran
}

/// The run on trees that are grown in one of the two ways.
pub fn run_grown(routine: &Routine, world: &World, call: &Call, growth: Growth) -> Ran {
    let stages = trees::stages(routine, growth);
    let labels = trees::labels(routine, &stages, growth);
    let arguments = trees::arguments(routine, call, growth);
    let limits = Limits {
        steps: call.steps as usize,
        depth: call.depth as usize,
    };
    let recorder = Recorder::new(world);
    let budget = Cell::new(limits.steps);
    let run = with_labels(labels, || {
        let memory = Memory::new();
        run_with(&stages, &arguments, &recorder, &limits, 0, memory, &budget)
    });
    let (questions, questions_length) = recorder.into_questions();
    Ran {
        run,
        questions,
        questions_length,
        spent: limits.steps - budget.get(),
    }
}

/// Whether the stop prints a node that was in no table.
fn prints_copy(stop: &Stop) -> bool {
    matches!(stop, Stop::Unknown { what, .. } if what.contains(COPY))
}

/// The stop of a run whose print of a copy has the number of the file's node.
fn marked_stop(routine: &Routine, world: &World, call: &Call, plain: &Ran) -> Stop {
    let mut marked = run_grown(routine, world, call, Growth::Marked);
    let stop = std::mem::replace(&mut marked.run.stop, plain.run.stop.clone());
    assert!(marked == *plain, "marks change nothing that a run does");
    assert_eq!(without_number(&stop), without_number(&plain.run.stop));
    assert!(!prints_copy(&stop), "every copy is marked");
    stop
}

/// A stop whose printed node's number is struck.
fn without_number(stop: &Stop) -> Stop {
    let Stop::Unknown { at, what } = stop else {
        return stop.clone();
    };
    let words: Vec<&str> = what.split(' ').collect();
    let struck = words.iter().enumerate().map(|(index, word)| {
        let numbered = index > 0 && words[index - 1] == "node";
        if numbered {
            "?"
        } else {
            *word
        }
    });
    Stop::Unknown {
        at: *at,
        what: struck.collect::<Vec<&str>>().join(" "),
    }
}

/// What `constant_value` gives for a node, and how many addresses it wrote.
#[derive(Debug, PartialEq, Eq)]
pub struct Constant {
    pub value: Option<Val>,
    pub written: usize,
}

/// The original's `constant_value`. It keeps its memory to itself, so the same
/// expression is evaluated once more as what a function returns, with nothing
/// declared, in an empty world, as deep as calls go.
pub fn constant_value(routine: &Routine, node: usize) -> Constant {
    let tree = trees::expression(routine, node);
    let value = emulate::constant_value(&tree);
    let stages = Stages {
        function: Function {
            name: String::new(),
            address: 0,
            return_type: "void".to_string(),
            params: Vec::new(),
            locals: Vec::new(),
        },
        medium: vec![Node {
            statements: vec![Statement {
                node: crate::ast::AstNode::Return {
                    value: Some(Box::new(tree)),
                },
                addresses: Vec::new(),
            }],
            terminator: Terminator::Return,
        }],
    };
    let limits = Limits::default();
    let budget = Cell::new(limits.steps);
    let nothing = World {
        symbols: Vec::new(),
        regions: Vec::new(),
    };
    let world = Recorder::new(&nothing);
    let memory = Memory::new();
    let run = run_with(&stages, &[], &world, &limits, limits.depth, memory, &budget);
    let returned = run.returned().filter(|value| value.value.is_some());
    assert_eq!(returned, value, "both ways to evaluate agree");
    Constant {
        value,
        written: run.memory.len(),
    }
}

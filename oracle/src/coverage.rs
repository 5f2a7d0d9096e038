//! What a set of cases reached: the table that shows that nothing of the papers
//! was left out.

use std::collections::BTreeMap;
use std::fmt;

use crate::boolean::{speaks_of_bool, PLACES};
use crate::comparison::ConstantAnswer;
use crate::files::{bodies, nodes, Call, Routine, World, NODE_BYTES};
use crate::judge::{Files, Verdict};
use crate::kinds;
use crate::notes::{self, Note};
use crate::original::{run_grown, Ran};
use crate::refusal::{faulty_nodes, unused_fields_are_zero};
use crate::stops::{self, Stopped};
use crate::trees::Growth;
use crate::values::OPERATORS;
use crate::world::Question;

/// Counts by subject and row.
#[derive(Debug)]
pub struct Coverage {
    rows: BTreeMap<(&'static str, String), u64>,
}

const REFUSALS: [u32; 15] = [0, 1, 2, 3, 4, 5, 30, 31, 6, 7, 8, 9, 20, 21, 22];

/// The refusals that name a node.
const OF_NODES: [u32; 3] = [5, 30, 31];

const OF_A_NODE: &str = "refusal of a node";
const SAME_NODE: &str = "30 before 31 of the same node";
const PART_BEHIND: &str = "before a part of a node";

const QUESTIONS: [&str; 7] = [
    "address_of",
    "address_of, none",
    "size_of",
    "size_of, none",
    "read, whole or in part",
    "read, none",
    "call",
];

const CONSTANTS: [&str; 14] = [
    "a value",
    "none",
    "1 refused",
    "2 refused",
    "3 refused",
    "4 refused",
    "5 refused",
    "30 refused",
    "31 refused",
    "6 refused",
    "7 refused",
    "9 refused",
    "20 refused",
    "21 refused",
];

/// By place: conversions without which the run would be another one.
const TO_BOOL: &str = "conversion to bool of another number than 0 and 1";

const TERMINATORS: [&str; 4] = ["Return", "Goto", "Branch", "Switch"];

impl Default for Coverage {
    fn default() -> Self {
        Self::new()
    }
}

impl Coverage {
    /// A table with every row that must be reached.
    pub fn new() -> Self {
        let mut coverage = Self {
            rows: BTreeMap::new(),
        };
        coverage.rows("answer", REFUSALS.map(answer));
        coverage.rows(OF_A_NODE, of_a_node());
        coverage.rows("stop", stops::KINDS);
        coverage.rows("reason", &stops::REASONS[1..]);
        coverage.rows("note", notes::NAMES);
        coverage.rows("question", QUESTIONS);
        coverage.rows("constant_value", CONSTANTS);
        coverage.rows("node in an accepted routine", kinds::NAMES);
        let operators = OPERATORS.map(|op| format!("{op:?}"));
        coverage.rows("operator in an accepted routine", operators);
        coverage.rows("terminator in an accepted routine", TERMINATORS);
        coverage.rows(TO_BOOL, PLACES.map(|place| format!("{place:?}")));
        coverage
    }

    /// The table of cases that the original alone can judge.
    pub fn without_bool() -> Self {
        let mut coverage = Self::new();
        coverage.rows.retain(|(subject, _), _| *subject != TO_BOOL);
        coverage
    }

    fn rows<T: ToString>(&mut self, subject: &'static str, names: impl IntoIterator<Item = T>) {
        for name in names {
            self.rows.insert((subject, name.to_string()), 0);
        }
    }

    /// Count a case and its answer.
    pub fn count(&mut self, files: &Files, verdict: &Verdict) {
        self.add("answer", &answer(verdict.number));
        if OF_NODES.contains(&verdict.number) {
            self.count_faulty(&files.routine);
        }
        if let Some(ran) = &verdict.ran {
            self.count_run(ran);
            self.count_routine(&Routine::read(&files.routine));
            if speaks_of_bool(&files.routine) {
                self.count_conversions(files);
            }
        }
    }

    /// Count the answer to a `constant_value`.
    pub fn count_constant(&mut self, answer: &ConstantAnswer) {
        let row = match (answer.refusal, answer.known) {
            (0, true) => "a value".to_string(),
            (0, false) => "none".to_string(),
            (number, _) => format!("{number} refused"),
        };
        self.add("constant_value", &row);
    }

    pub fn add(&mut self, subject: &'static str, name: &str) {
        *self.rows.entry((subject, name.to_string())).or_default() += 1;
    }

    /// The rows that nothing reached.
    pub fn missing(&self) -> Vec<String> {
        let empty = self.rows.iter().filter(|(_, count)| **count == 0);
        empty
            .map(|((subject, name), _)| format!("{subject}: {name}"))
            .collect()
    }

    fn count_run(&mut self, ran: &Ran) {
        let stop = Stopped::new(&ran.run.stop);
        self.add("stop", stops::KINDS[usize::from(stop.kind)]);
        if stop.reason != 0 {
            self.add("reason", stops::REASONS[usize::from(stop.reason)]);
        }
        for step in &ran.run.steps {
            let note = step.note.as_deref().map(Note::new);
            let kind = note.map_or(0, |note| note.kind());
            self.add("note", notes::NAMES[usize::from(kind)]);
        }
        for question in &ran.questions {
            self.add("question", question_row(question));
        }
    }

    /// Count the refusal of a node, and what else fails that comes after it.
    fn count_faulty(&mut self, routine: &[u8]) {
        let faulty = faulty_nodes(routine);
        let lowest = faulty[0];
        self.add(OF_A_NODE, &of_node(lowest.number, lowest.node == 0));
        for later in &faulty[1..] {
            self.add(OF_A_NODE, &before(lowest.number, later.number));
        }
        let body = bodies(routine, 6).expect("the table was accepted")[3];
        let node = nodes(body)[lowest.node as usize];
        if lowest.number == 30 && !unused_fields_are_zero(&node) {
            self.add(OF_A_NODE, SAME_NODE);
        }
        if !body.len().is_multiple_of(NODE_BYTES) {
            self.add(OF_A_NODE, PART_BEHIND);
        }
    }

    /// Count the places whose conversions change the run. One of 0, of 1 or of
    /// an unknown number changes nothing.
    fn count_conversions(&mut self, files: &Files) {
        let routine = Routine::read(&files.routine);
        let (world, call) = (World::read(&files.world), Call::read(&files.call));
        let run = |growth: Growth| run_grown(&routine, &world, &call, growth);
        let plain = run(Growth::Plain);
        for place in PLACES {
            if run(Growth::Without(place)) != plain {
                self.add(TO_BOOL, &format!("{place:?}"));
            }
        }
    }

    fn count_routine(&mut self, routine: &Routine) {
        for node in &routine.nodes {
            let kind = usize::from(node.kind);
            self.add("node in an accepted routine", kinds::NAMES[kind]);
            if node.kind == kinds::BINARY {
                let op = OPERATORS[usize::from(node.flag)];
                self.add("operator in an accepted routine", &format!("{op:?}"));
            }
        }
        for block in &routine.blocks {
            let name = TERMINATORS[usize::from(block.terminator)];
            self.add("terminator in an accepted routine", name);
        }
    }
}

fn answer(number: u32) -> String {
    match number {
        0 => " 0 accepted".to_string(),
        _ => format!("{number:2} refused"),
    }
}

/// The rows of refusals that name a node: where it is, and what comes after.
fn of_a_node() -> Vec<String> {
    let mut rows = vec![SAME_NODE.to_string(), PART_BEHIND.to_string()];
    for number in OF_NODES {
        rows.extend([true, false].map(|first| of_node(number, first)));
        rows.extend(OF_NODES.map(|later| before(number, later)));
    }
    rows
}

fn of_node(number: u32, first: bool) -> String {
    let place = if first { "node 0" } else { "a later node" };
    format!("{number:2} of {place}")
}

fn before(number: u32, later: u32) -> String {
    format!("{number:2} before a node's {later}")
}

fn question_row(question: &Question) -> &'static str {
    let index = match question {
        Question::AddressOf { answer, .. } => usize::from(answer.is_none()),
        Question::SizeOf { answer, .. } => 2 + usize::from(answer.is_none()),
        Question::Read { answer, .. } => 4 + usize::from(answer.is_none()),
        Question::Call { .. } => 6,
    };
    QUESTIONS[index]
}

impl fmt::Display for Coverage {
    fn fmt(&self, out: &mut fmt::Formatter) -> fmt::Result {
        let mut last = "";
        for ((subject, name), count) in &self.rows {
            if *subject != last {
                writeln!(out, "{subject}")?;
                last = subject;
            }
            writeln!(out, "  {name:28} {count:9}")?;
        }
        Ok(())
    }
}

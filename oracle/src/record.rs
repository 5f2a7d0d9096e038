//! Document 01's record, made from a run of the original.

use std::collections::HashMap;

use crate::emulate::{Step, Val};
use crate::files::{Call, Routine};
use crate::kinds::{ASSIGN, CAST, DEREF};
use crate::notes::{written, Note};
use crate::original::Ran;
use crate::stops::Stopped;
use crate::values::pointee;
use crate::world::Question;

/// The bytes of the six pairs and of the bodies whose length is fixed.
const PAIRS: u64 = 48;
const STOP: u64 = 39;
const COUNTS: u64 = 12;

/// A step without taken names, a variable, a written byte.
const STEP: u64 = 63;
const VARIABLE: u64 = 16;
const WRITTEN: u64 = 9;

/// The length of the record that `ran` defines.
pub fn length(ran: &Ran) -> u64 {
    let steps: u64 = ran.run.steps.iter().map(step_length).sum();
    let variables = VARIABLE * ran.run.variables.len() as u64;
    let memory = WRITTEN * ran.run.memory.len() as u64;
    PAIRS + STOP + COUNTS + steps + variables + memory + ran.questions_length
}

fn step_length(step: &Step) -> u64 {
    match step.note.as_deref().map(Note::new) {
        Some(Note::Taken(names)) => STEP + 2 * names.len() as u64,
        _ => STEP,
    }
}

/// The record. Its length must be one that a buffer can have.
pub fn record(routine: &Routine, call: &Call, ran: &Ran) -> Vec<u8> {
    let encoder = Encoder::new(routine);
    let bodies = [
        encoder.stop(&Stopped::new(&ran.run.stop)),
        counts(call, ran),
        encoder.steps(&ran.run.steps),
        encoder.variables(ran),
        memory(ran),
        encoder.questions(&ran.questions),
    ];
    let mut out = Vec::new();
    let mut offset = PAIRS as u32;
    for body in &bodies {
        let length = u32::try_from(body.len()).expect("a record is below 2^32 bytes");
        put32(&mut out, offset);
        put32(&mut out, length);
        offset += length;
    }
    out.extend(bodies.concat());
    assert_eq!(out.len() as u64, length(ran), "both count the same bytes");
    out
}

/// Blocks entered, steps recorded, units spent. "Spent is the sum of the two
/// others", and the original tells the other two of the three.
fn counts(call: &Call, ran: &Ran) -> Vec<u8> {
    let recorded = ran.run.steps.len();
    let entered = ran.spent.checked_sub(recorded);
    let entered = entered.expect("each recorded step was paid for");
    assert!(ran.spent <= call.steps as usize);
    let mut out = Vec::new();
    for count in [entered, recorded, ran.spent] {
        put32(&mut out, count as u32);
    }
    out
}

fn memory(ran: &Ran) -> Vec<u8> {
    let mut out = Vec::new();
    for (address, byte) in &ran.run.memory {
        put64(&mut out, *address);
        out.push(*byte);
    }
    out
}

/// What names and statements are in numbers.
struct Encoder<'a> {
    names: HashMap<&'a str, u16>,
    /// By statement: the type that a store at its top writes.
    stored: Vec<Option<(u32, bool)>>,
}

impl<'a> Encoder<'a> {
    fn new(routine: &'a Routine) -> Self {
        let names = routine.names.iter().zip(0..);
        let mut seen = HashMap::new();
        Self {
            names: names.map(|(name, n)| (name.as_str(), n)).collect(),
            stored: routine
                .statements
                .iter()
                .map(|statement| stored_type(routine, statement.root as usize, &mut seen))
                .collect(),
        }
    }

    fn name(&self, name: &str) -> u16 {
        self.names[name]
    }

    fn stop(&self, stop: &Stopped) -> Vec<u8> {
        let mut out = vec![stop.kind, stop.reason];
        put_address(&mut out, stop.address);
        put64(&mut out, stop.number);
        put32(&mut out, stop.node);
        put16(
            &mut out,
            stop.name.as_ref().map_or(0, |name| self.name(name)),
        );
        put_value(&mut out, stop.value);
        out
    }

    fn steps(&self, steps: &[Step]) -> Vec<u8> {
        let mut out = Vec::new();
        for step in steps {
            self.step(&mut out, step);
        }
        out
    }

    fn step(&self, out: &mut Vec<u8>, step: &Step) {
        let statement: usize = step.text.parse().expect("a statement's number");
        put_address(out, step.address);
        put32(out, step.block as u32);
        put32(out, statement as u32);
        let wrote = step.wrote.as_ref();
        out.push(u8::from(wrote.is_some()));
        put16(out, wrote.map_or(0, |(name, _)| self.name(name)));
        put_value(out, wrote.map(|(_, value)| *value));
        self.note(out, statement, step.note.as_deref().map(Note::new));
    }

    fn note(&self, out: &mut Vec<u8>, statement: usize, note: Option<Note>) {
        out.push(note.as_ref().map_or(0, Note::kind));
        let (mut at, mut fields, mut value, mut taken) = (0, 0, None, Vec::new());
        match note {
            Some(Note::Fields { count, address }) => (at, fields) = (address, count),
            Some(Note::Value { number, address }) => {
                let ty = self.stored[statement].expect("the statement is a store");
                (at, value) = (address, Some(written(number, ty)));
            }
            Some(Note::Taken(names)) => taken = names,
            Some(Note::Unknown | Note::NotFollowed) | None => {}
        }
        put64(out, at);
        put32(out, fields);
        put_value(out, value);
        put16(
            out,
            u16::try_from(taken.len()).expect("16 arguments at most"),
        );
        for name in &taken {
            put16(out, self.name(name));
        }
    }

    fn variables(&self, ran: &Ran) -> Vec<u8> {
        let mut out = Vec::new();
        for (name, value) in &ran.run.variables {
            put16(&mut out, self.name(name));
            put_value(&mut out, Some(*value));
        }
        out
    }

    fn questions(&self, questions: &[Question]) -> Vec<u8> {
        let mut out = Vec::new();
        for question in questions {
            let before = out.len();
            self.question(&mut out, question);
            assert_eq!(out.len() - before, question.length());
        }
        out
    }

    fn question(&self, out: &mut Vec<u8>, question: &Question) {
        match question {
            Question::AddressOf { name, answer } => self.told(out, 1, name, *answer),
            Question::SizeOf { name, answer } => self.told(out, 2, name, *answer),
            Question::Read {
                address,
                length,
                answer,
            } => {
                let bytes = answer.as_deref().unwrap_or(&[]);
                out.push(3);
                put64(out, *address);
                out.push(*length as u8);
                out.push(bytes.len() as u8);
                out.extend(bytes);
            }
            Question::Call {
                name,
                address,
                depth,
                arguments,
            } => {
                out.push(4);
                put16(out, self.name(name));
                put64(out, *address);
                put32(out, *depth as u32);
                out.push(arguments.len() as u8);
                for argument in arguments {
                    put_value(out, Some(*argument));
                }
                out.push(0);
            }
        }
    }

    fn told(&self, out: &mut Vec<u8>, kind: u8, name: &str, answer: Option<u64>) {
        out.push(kind);
        put16(out, self.name(name));
        out.push(u8::from(answer.is_some()));
        put64(out, answer.unwrap_or(0));
    }
}

/// The type that a store through a pointer at the top of a statement writes.
/// The original's words leave it out, so it is asked what it reads through
/// the same pointer type.
fn stored_type(
    routine: &Routine,
    root: usize,
    seen: &mut HashMap<Option<u16>, (u32, bool)>,
) -> Option<(u32, bool)> {
    let kind = |node: usize| routine.nodes[node].kind;
    if kind(root) != ASSIGN || kind(root + 1) != DEREF {
        return None;
    }
    let target = &routine.nodes[root + 2];
    let ty = (target.kind == CAST).then_some(target.reference);
    let asked = || pointee(ty.map(|ty| routine.types[usize::from(ty)].as_str()));
    Some(*seen.entry(ty).or_insert_with(asked))
}

fn put16(out: &mut Vec<u8>, number: u16) {
    out.extend(number.to_le_bytes());
}

fn put32(out: &mut Vec<u8>, number: u32) {
    out.extend(number.to_le_bytes());
}

fn put64(out: &mut Vec<u8>, number: u64) {
    out.extend(number.to_le_bytes());
}

fn put_address(out: &mut Vec<u8>, address: Option<u64>) {
    out.push(u8::from(address.is_some()));
    put64(out, address.unwrap_or(0));
}

/// "A value is 14 bytes: known u8, signed u8, width in bits u32, number u64."
/// One that is not there is 0 throughout.
fn put_value(out: &mut Vec<u8>, value: Option<Val>) {
    match value {
        None => out.extend([0; 14]),
        Some(value) => {
            out.push(u8::from(value.value.is_some()));
            out.push(u8::from(value.signed));
            put32(out, value.bits);
            put64(out, value.value.unwrap_or(0));
        }
    }
}

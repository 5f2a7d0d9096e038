//! The answers that the papers define, with the original as the run.

use crate::emulate::Val;
use crate::files::{Call, Routine, World};
use crate::original::{self, Ran};
use crate::record;
use crate::refusal::{check, check_constant, Checked, Refusal};

/// "workspace under 65,536 bytes"
pub const LEAST_WORKSPACE: usize = 65_536;

/// "writes over 4,096 distinct addresses"
pub const MOST_ADDRESSES: usize = 4_096;

/// The three files of a run.
#[derive(Debug, Clone, PartialEq, Eq, Hash)]
pub struct Files {
    pub routine: Vec<u8>,
    pub world: Vec<u8>,
    pub call: Vec<u8>,
}

/// The answer to a run.
#[derive(Debug)]
pub struct Verdict {
    /// 0, or the refusal's number.
    pub number: u32,
    /// The record's length, or the node that the refusal names, or 0.
    pub length: u32,
    /// Empty after a refusal.
    pub record: Vec<u8>,
    /// The run, where the input was not refused.
    pub ran: Option<Ran>,
}

impl Verdict {
    fn refused(refusal: Refusal, ran: Option<Ran>) -> Self {
        Self {
            number: refusal.number,
            length: refusal.node,
            record: Vec::new(),
            ran,
        }
    }

    /// The run, if it was accepted.
    pub fn accepted(self) -> Option<Ran> {
        self.ran.filter(|_| self.number == 0)
    }

    /// What the listing program prints.
    pub fn listing(&self) -> String {
        match (&self.ran, self.number) {
            (Some(ran), 0) => ran.run.text(),
            (_, number) => format!("; refused {number}\n"),
        }
    }
}

/// The answer to a run with a record buffer and a workspace of these lengths.
pub fn judge(files: &Files, buffer: usize, workspace: usize) -> Verdict {
    if let Err(refusal) = check(&files.routine, &files.world, &files.call) {
        return Verdict::refused(refusal, None);
    }
    if workspace < LEAST_WORKSPACE {
        return Verdict::refused(Refusal::by(20), None);
    }
    let routine = Routine::read(&files.routine);
    let call = Call::read(&files.call);
    let ran = original::run(&routine, &World::read(&files.world), &call);
    if ran.run.memory.len() > MOST_ADDRESSES {
        return Verdict::refused(Refusal::by(21), Some(ran));
    }
    let length = record::length(&ran);
    if length > buffer as u64 || length > u64::from(u32::MAX) {
        return Verdict::refused(Refusal::by(22), Some(ran));
    }
    Verdict {
        number: 0,
        length: length as u32,
        record: record::record(&routine, &call, &ran),
        ran: Some(ran),
    }
}

/// The answer to a `constant_value`: a known value or none, or what refuses it.
pub fn judge_constant(routine: &[u8], node: u32, workspace: usize) -> Checked<Option<Val>> {
    check_constant(routine, node)?;
    if workspace < LEAST_WORKSPACE {
        return Err(Refusal::by(20));
    }
    let constant = original::constant_value(&Routine::read(routine), node as usize);
    if constant.written > MOST_ADDRESSES {
        return Err(Refusal::by(21));
    }
    Ok(constant.value)
}

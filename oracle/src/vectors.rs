//! Cases and their answers packed into one file, for programs that have no
//! Rust to ask.
//!
//! README.md describes the layout.

use crate::comparison::ConstantAnswer;
use crate::fields::Fields;
use crate::judge::Files;

/// The file's first bytes.
pub const MAGIC: &[u8; 4] = b"VEC2";

const RUN: u8 = 0;
const CONSTANT: u8 = 1;

/// How bytes follow from the last ones of their sort.
const SAME: u8 = 0;
const WHOLE: u8 = 1;
const CHANGED: u8 = 2;

/// More changes than these, and the bytes are written whole.
const MOST_CHANGES: usize = 24;

/// A case with its answer.
#[derive(Debug, Clone, PartialEq, Eq)]
pub enum Vector {
    Run {
        files: Files,
        buffer: u32,
        workspace: u32,
        number: u32,
        length: u32,
        record: Vec<u8>,
    },
    Constant {
        routine: Vec<u8>,
        node: u32,
        workspace: u32,
        answer: ConstantAnswer,
    },
}

/// The bytes of each sort that came last.
#[derive(Debug, Default)]
struct Last {
    routine: Vec<u8>,
    world: Vec<u8>,
    call: Vec<u8>,
    record: Vec<u8>,
}

/// Writes vectors one after the other.
#[derive(Debug, Default)]
pub struct Packer {
    count: u32,
    cases: Vec<u8>,
    last: Last,
}

impl Packer {
    pub fn count(&self) -> u32 {
        self.count
    }

    /// The whole file.
    pub fn file(&self) -> Vec<u8> {
        let mut out = MAGIC.to_vec();
        out.extend(self.count.to_le_bytes());
        out.extend(&self.cases);
        out
    }

    pub fn push(&mut self, vector: &Vector) {
        let mut case = Vec::new();
        match vector {
            Vector::Run { .. } => self.run(&mut case, vector),
            Vector::Constant { .. } => self.constant(&mut case, vector),
        }
        self.cases.extend((case.len() as u32).to_le_bytes());
        self.cases.extend(case);
        self.count += 1;
    }

    fn run(&mut self, case: &mut Vec<u8>, vector: &Vector) {
        let Vector::Run {
            files,
            buffer,
            workspace,
            number,
            length,
            record,
        } = vector
        else {
            return;
        };
        case.push(RUN);
        follow(case, &mut self.last.routine, &files.routine);
        follow(case, &mut self.last.world, &files.world);
        follow(case, &mut self.last.call, &files.call);
        case.extend(buffer.to_le_bytes());
        case.extend(workspace.to_le_bytes());
        case.push(*number as u8);
        case.extend(length.to_le_bytes());
        if *number == 0 {
            follow(case, &mut self.last.record, record);
        }
    }

    fn constant(&mut self, case: &mut Vec<u8>, vector: &Vector) {
        let Vector::Constant {
            routine,
            node,
            workspace,
            answer,
        } = vector
        else {
            return;
        };
        case.push(CONSTANT);
        follow(case, &mut self.last.routine, routine);
        case.extend(node.to_le_bytes());
        case.extend(workspace.to_le_bytes());
        case.push(answer.refusal as u8);
        case.push(u8::from(answer.known));
        case.push(u8::from(answer.signed));
        case.extend(answer.bits.to_le_bytes());
        case.extend(answer.number.to_le_bytes());
    }
}

/// Write bytes by how they follow from the last ones.
fn follow(case: &mut Vec<u8>, last: &mut Vec<u8>, bytes: &[u8]) {
    if last == bytes {
        case.push(SAME);
        return;
    }
    let changes: Vec<usize> = (0..bytes.len().min(last.len()))
        .filter(|&at| bytes[at] != last[at])
        .collect();
    if bytes.len() == last.len() && changes.len() <= MOST_CHANGES {
        case.push(CHANGED);
        case.push(changes.len() as u8);
        for at in changes {
            case.extend((at as u32).to_le_bytes());
            case.push(bytes[at]);
        }
    } else {
        case.push(WHOLE);
        packed(case, bytes);
    }
    *last = bytes.to_vec();
}

/// The length, then runs: a byte below 128 is one less than a count of bytes
/// that follow as they are; another is 127 more than a count of zeros.
fn packed(out: &mut Vec<u8>, bytes: &[u8]) {
    out.extend((bytes.len() as u32).to_le_bytes());
    let mut rest = bytes;
    while !rest.is_empty() {
        let zeros = rest.iter().take(128).take_while(|byte| **byte == 0).count();
        if zeros > 0 {
            out.push((127 + zeros) as u8);
            rest = &rest[zeros..];
        } else {
            let count = plain_run(rest);
            out.push((count - 1) as u8);
            out.extend(&rest[..count]);
            rest = &rest[count..];
        }
    }
}

/// The bytes up to the next two zeros: a single one is no gain.
fn plain_run(bytes: &[u8]) -> usize {
    let end = bytes.windows(2).position(|pair| pair == [0, 0]);
    end.unwrap_or(bytes.len()).clamp(1, 128)
}

/// Reads a file of vectors; nothing where it is not well made.
pub fn read(file: &[u8]) -> Option<Vec<Vector>> {
    let mut fields = Fields::new(file);
    if fields.bytes(MAGIC.len())? != MAGIC {
        return None;
    }
    let mut last = Last::default();
    let mut found = Vec::new();
    for _ in 0..fields.u32()? {
        let length = fields.u32()? as usize;
        let mut case = Fields::new(fields.bytes(length)?);
        let vector = match case.u8()? {
            RUN => read_run(&mut case, &mut last)?,
            _ => read_constant(&mut case, &mut last)?,
        };
        if !case.is_empty() {
            return None;
        }
        found.push(vector);
    }
    fields.is_empty().then_some(found)
}

fn read_run(case: &mut Fields, last: &mut Last) -> Option<Vector> {
    read_following(case, &mut last.routine)?;
    read_following(case, &mut last.world)?;
    read_following(case, &mut last.call)?;
    let (buffer, workspace) = (case.u32()?, case.u32()?);
    let (number, length) = (u32::from(case.u8()?), case.u32()?);
    if number == 0 {
        read_following(case, &mut last.record)?;
    }
    let record = if number == 0 { &last.record[..] } else { &[] };
    Some(Vector::Run {
        files: Files {
            routine: last.routine.clone(),
            world: last.world.clone(),
            call: last.call.clone(),
        },
        buffer,
        workspace,
        number,
        length,
        record: record.to_vec(),
    })
}

fn read_constant(case: &mut Fields, last: &mut Last) -> Option<Vector> {
    read_following(case, &mut last.routine)?;
    Some(Vector::Constant {
        routine: last.routine.clone(),
        node: case.u32()?,
        workspace: case.u32()?,
        answer: ConstantAnswer {
            refusal: u32::from(case.u8()?),
            known: case.u8()? == 1,
            signed: case.u8()? == 1,
            bits: case.u32()?,
            number: case.u64()?,
        },
    })
}

fn read_following(case: &mut Fields, last: &mut Vec<u8>) -> Option<()> {
    match case.u8()? {
        SAME => {}
        WHOLE => *last = unpacked(case)?,
        _ => {
            for _ in 0..case.u8()? {
                let at = case.u32()? as usize;
                *last.get_mut(at)? = case.u8()?;
            }
        }
    }
    Some(())
}

fn unpacked(fields: &mut Fields) -> Option<Vec<u8>> {
    let length = fields.u32()? as usize;
    let mut out = Vec::new();
    while out.len() < length {
        match usize::from(fields.u8()?) {
            run if run < 128 => out.extend(fields.bytes(run + 1)?),
            run => out.resize(out.len() + run - 127, 0),
        }
    }
    (out.len() == length).then_some(out)
}

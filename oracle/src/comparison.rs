//! A part laid beside the original: both numbers of an answer and every byte
//! of both buffers, after every answer.

use crate::cases::{case, Case, AMPLE_BUFFER};
use crate::emulate::Val;
use crate::files;
use crate::generate::Size;
use crate::judge::{judge_constant, Files, Verdict, LEAST_WORKSPACE};
use crate::random::Random;
use crate::refusal::Checked;
use crate::two_worlds::{agrees, second_world, Change};

/// What is compared: document 01's two entries.
pub trait Part {
    /// The number, and the record's length or the node that a refusal names.
    fn run(&self, files: &Files, record: &mut [u8], workspace: &mut [u8]) -> (u32, u32);

    fn constant_value(&self, routine: &[u8], node: u32, workspace: &mut [u8]) -> ConstantAnswer;
}

/// What `constant_value` gives. Where there is no value all but the refusal is
/// 0, and `number` is the node that the refusal names.
#[derive(Debug, Clone, Copy, PartialEq, Eq)]
pub struct ConstantAnswer {
    pub refusal: u32,
    pub known: bool,
    pub signed: bool,
    pub bits: u32,
    pub number: u64,
}

/// Where a part departs from the original.
#[derive(Debug, Clone, PartialEq, Eq)]
pub struct Difference(pub String);

type Compared<T> = Result<T, Difference>;

fn expect(same: bool, what: impl FnOnce() -> String) -> Compared<()> {
    if same {
        Ok(())
    } else {
        Err(Difference(what()))
    }
}

/// A lent buffer between guard bytes, all of it patterned and nowhere 0.
struct Lent {
    bytes: Vec<u8>,
    before: Vec<u8>,
    length: usize,
}

const GUARD: usize = 64;

impl Lent {
    fn new(length: usize, salt: usize) -> Self {
        let before = pattern(length + 2 * GUARD, salt);
        Self {
            bytes: before.clone(),
            before,
            length,
        }
    }

    fn slice(&mut self) -> &mut [u8] {
        &mut self.bytes[GUARD..GUARD + self.length]
    }

    /// That the buffer begins with `front` and is otherwise `rest`, and that
    /// the guards stand.
    fn check(mut self, name: &str, front: &[u8], rest: Rest) -> Compared<()> {
        let expected = &mut self.before[GUARD..GUARD + self.length];
        if rest == Rest::Zero {
            expected.fill(0);
        }
        expected[..front.len()].copy_from_slice(front);
        expect(self.bytes == self.before, || {
            let pairs = self.bytes.iter().zip(&self.before);
            let at = pairs.take_while(|(found, expected)| found == expected);
            let at = at.count();
            let place = at as isize - GUARD as isize;
            let (found, expected) = (self.bytes[at], self.before[at]);
            format!("{name} byte {place} is {found:#04x}, and not {expected:#04x}")
        })
    }
}

/// All numbers from 1 to 255 in some order, over and over.
fn pattern(length: usize, salt: usize) -> Vec<u8> {
    let period: Vec<u8> = (0..255)
        .map(|at| (1 + (at * 167 + salt) % 255) as u8)
        .collect();
    let mut bytes = period.repeat(length / 255 + 1);
    bytes.truncate(length);
    bytes
}

/// What a buffer holds beyond what was written.
#[derive(Debug, Clone, Copy, PartialEq, Eq)]
enum Rest {
    Untouched,
    Zero,
}

/// What a refusal, or a run (0), leaves of workspace and record buffer.
fn leaves(number: u32) -> (Rest, Rest) {
    match number {
        0 => (Rest::Zero, Rest::Untouched),
        21 | 22 => (Rest::Zero, Rest::Zero),
        _ => (Rest::Untouched, Rest::Untouched),
    }
}

/// Compare a run; gives the original's verdict. An accepted one is compared in
/// a longer workspace, too, where all that it asks has room.
pub fn compare_run(part: &dyn Part, case: &Case) -> Compared<Verdict> {
    let verdict = case.judge();
    compare_lent(part, case, &verdict, case.workspace)?;
    if verdict.number == 0 {
        compare_lent(part, case, &verdict, case.workspace + verdict.record.len())?;
    }
    Ok(verdict)
}

fn compare_lent(
    part: &dyn Part,
    case: &Case,
    verdict: &Verdict,
    workspace_length: usize,
) -> Compared<()> {
    let files = case.files.clone();
    let salt = case.files.routine.len() + case.buffer;
    let mut record = Lent::new(case.buffer, salt);
    let mut workspace = Lent::new(workspace_length, salt + 1);
    let (number, length) = part.run(&files, record.slice(), workspace.slice());
    expect(number == verdict.number, || {
        format!("the number is {number}, and not {}", verdict.number)
    })?;
    expect(length == verdict.length, || {
        format!(
            "number {number} comes with {length}, and not {}",
            verdict.length
        )
    })?;
    let (left_workspace, left_record) = leaves(number);
    record.check("record", &verdict.record, left_record)?;
    workspace.check("workspace", &[], left_workspace)?;
    expect(files == case.files, || "a file was written".to_string())
}

/// Compare a `constant_value`.
pub fn compare_constant(
    part: &dyn Part,
    routine: &[u8],
    node: u32,
    workspace_length: usize,
) -> Compared<ConstantAnswer> {
    let expected = constant_answer(judge_constant(routine, node, workspace_length));
    let mut workspace = Lent::new(workspace_length, node as usize);
    let found = part.constant_value(routine, node, workspace.slice());
    expect(found == expected, || {
        format!("constant_value of node {node} is {found:?}, and not {expected:?}")
    })?;
    workspace.check("workspace", &[], leaves(found.refusal).0)?;
    Ok(found)
}

/// The original's answer as an entry gives it.
pub fn constant_answer(verdict: Checked<Option<Val>>) -> ConstantAnswer {
    let value = verdict.unwrap_or(None);
    let (refusal, node) = verdict.err().map_or((0, 0), |by| (by.number, by.node));
    ConstantAnswer {
        refusal,
        known: value.is_some(),
        signed: value.is_some_and(|value| value.signed),
        bits: value.map_or(0, |value| value.bits),
        number: value
            .and_then(|value| value.value)
            .unwrap_or(u64::from(node)),
    }
}

/// The first node and some that a seed chooses, a few out of reach.
pub fn constant_nodes(routine: &[u8], seed: u64) -> Vec<u32> {
    let mut random = Random::new(seed);
    let body = files::bodies(routine, 6).map_or(routine.len(), |bodies| bodies[3].len());
    let count = body / files::NODE_BYTES + 2;
    let mut nodes = vec![0];
    nodes.extend((0..3).map(|_| random.below(count) as u32));
    nodes
}

/// A case in two worlds.
#[derive(Debug, Clone)]
pub struct Worlds {
    pub first: Case,
    pub second: Case,
    pub change: Change,
    /// Whether the second world gives the answers that the first run got.
    pub agree: bool,
}

/// The case of a seed in two worlds, if it is accepted in both and there is
/// something to change.
pub fn worlds(seed: u64, change: Change) -> Option<Worlds> {
    let mut first = case(2 * seed, Size::Any);
    (first.workspace, first.buffer) = (LEAST_WORKSPACE, AMPLE_BUFFER);
    let verdict = first.judge();
    first.buffer = verdict.record.len() + 64;
    let ran = verdict.accepted()?;
    let world = files::World::read(&first.files.world);
    let mut random = Random::new(seed);
    let file = second_world(&mut random, &world, &ran.questions, change)?;
    let agree = agrees(&files::World::read(&file), &ran.questions);
    let mut second = first.clone();
    (second.files.world, second.buffer) = (file, AMPLE_BUFFER);
    let verdict = second.judge();
    second.buffer = verdict.record.len() + 64;
    verdict.accepted()?;
    Some(Worlds {
        first,
        second,
        change,
        agree,
    })
}

/// Compare the part's runs in two worlds, and the claim that ties them;
/// whether the records are equal.
pub fn compare_worlds(part: &dyn Part, worlds: &Worlds) -> Compared<bool> {
    let first = compare_run(part, &worlds.first)?;
    let second = compare_run(part, &worlds.second)?;
    let (equal, agree) = (first.record == second.record, worlds.agree);
    expect(equal == agree, || {
        format!("records equal: {equal}, answers agree: {agree}")
    })?;
    let claimed = match worlds.change {
        Change::Untouched => agree,
        Change::Answered => !agree,
        Change::Any => true,
    };
    expect(claimed, || {
        format!("{:?}: answers agree: {agree}", worlds.change)
    })?;
    Ok(equal)
}

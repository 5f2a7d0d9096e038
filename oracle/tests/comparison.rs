//! The comparison finds no difference in a part that is the original itself,
//! and finds each of some faults.

use oracle::boolean::{is_bool, pointee};
use oracle::cases::{case, Case};
use oracle::comparison::{
    compare_constant, compare_run, compare_worlds, constant_answer, constant_nodes, worlds,
    ConstantAnswer, Part,
};
use oracle::files::{bodies, types};
use oracle::generate::Size;
use oracle::judge::{judge, judge_constant, Files, Verdict};
use oracle::refusal::{check, faulty_nodes};
use oracle::source::file;
use oracle::two_worlds::Change;

/// A fault of a part.
#[derive(Clone, Copy, PartialEq, Eq, Debug)]
enum Fault {
    None,
    WrongNumber,
    WrongLength,
    WrongLastByte,
    ByteBeyond,
    WorkspaceLeft,
    RecordLeftAfter22,
    TouchedAtRefusal,
    TouchedAt30And31,
    WrongConstant,
    /// 0 in place of the node.
    NodeLeftOut,
    NodeOfConstantLeftOut,
    /// The last faulty node in place of the first.
    LastNode,
    /// All nodes tested for 5, then all for 30, then all for 31.
    LowestNumber,
    /// A bool is 8 bits unsigned and nothing more.
    BoolIsByte,
}

/// The original behind the entries, with a fault.
struct Original(Fault);

impl Part for Original {
    fn run(&self, files: &Files, record: &mut [u8], workspace: &mut [u8]) -> (u32, u32) {
        let taken = self.taken(files);
        let verdict = judge(&taken, record.len(), workspace.len());
        let length = verdict.record.len();
        let clear_record = self.0 != Fault::RecordLeftAfter22;
        match verdict.number {
            0 => record[..length].copy_from_slice(&verdict.record),
            21 | 22 if clear_record => record.fill(0),
            _ => {}
        }
        let clear_workspace = self.0 != Fault::WorkspaceLeft;
        if matches!(verdict.number, 0 | 21 | 22) && clear_workspace {
            workspace.fill(0);
        }
        self.spoil(verdict.number, record, length);
        self.answer(&verdict, &files.routine)
    }

    fn constant_value(&self, routine: &[u8], node: u32, workspace: &mut [u8]) -> ConstantAnswer {
        let mut answer = constant_answer(judge_constant(routine, node, workspace.len()));
        if matches!(answer.refusal, 0 | 21) {
            workspace.fill(0);
        }
        match self.0 {
            Fault::WrongConstant => answer.number ^= 1,
            Fault::NodeOfConstantLeftOut if !answer.known => answer.number = 0,
            _ => {}
        }
        answer
    }
}

impl Original {
    /// The files as the part takes them.
    fn taken(&self, files: &Files) -> Files {
        let mut taken = files.clone();
        let accepted = check(&files.routine, &files.world, &files.call).is_ok();
        if self.0 == Fault::BoolIsByte && accepted {
            taken.routine = with_bytes(&files.routine);
        }
        taken
    }

    /// The number and what comes with it.
    fn answer(&self, verdict: &Verdict, routine: &[u8]) -> (u32, u32) {
        let Verdict { number, length, .. } = *verdict;
        let refused = match self.0 {
            Fault::WrongNumber => return (number + 1, length),
            Fault::WrongLength => return (number, length + 1),
            Fault::NodeLeftOut if number != 0 => return (number, 0),
            Fault::LastNode => faulty_nodes(routine).pop(),
            Fault::LowestNumber => faulty_nodes(routine).into_iter().min_by_key(|by| by.number),
            _ => None,
        };
        let of_node = refused.filter(|_| [5, 30, 31].contains(&number));
        of_node.map_or((number, length), |by| (by.number, by.node))
    }

    fn spoil(&self, number: u32, record: &mut [u8], length: usize) {
        let place = match self.0 {
            Fault::WrongLastByte if number == 0 => length - 1,
            Fault::ByteBeyond if number == 0 => length,
            Fault::TouchedAtRefusal if !matches!(number, 0 | 21 | 22) => 0,
            Fault::TouchedAt30And31 if matches!(number, 30 | 31) => 0,
            _ => return,
        };
        if let Some(byte) = record.get_mut(place) {
            *byte ^= 1;
        }
    }
}

/// A routine file with `uint8_t` for bool.
fn with_bytes(routine: &[u8]) -> Vec<u8> {
    let parts = bodies(routine, 6).expect("the file was accepted");
    let mut parts: Vec<Vec<u8>> = parts.into_iter().map(<[u8]>::to_vec).collect();
    parts[1].clear();
    for ty in types(routine) {
        let ty = match pointee(&ty) {
            _ if is_bool(&ty) => "uint8_t",
            Some(ty) if is_bool(ty) => "uint8_t *",
            _ => &ty,
        };
        parts[1].push(ty.len() as u8);
        parts[1].extend(ty.bytes());
    }
    file(&parts)
}

/// How many of some cases differ.
fn differences(fault: Fault) -> usize {
    let part = Original(fault);
    let differs = |seed: u64| {
        let case: Case = case(seed, Size::Any);
        let run = compare_run(&part, &case).is_err();
        let constants = constant_nodes(&case.files.routine, seed)
            .into_iter()
            .any(|node| {
                compare_constant(&part, &case.files.routine, node, case.workspace).is_err()
            });
        run || constants
    };
    (0..600).filter(|seed| differs(*seed)).count()
}

#[test]
fn the_original_does_not_differ_from_itself() {
    assert_eq!(differences(Fault::None), 0);
}

#[test]
fn faults_are_found() {
    let faults = [
        Fault::WrongNumber,
        Fault::WrongLength,
        Fault::WrongLastByte,
        Fault::ByteBeyond,
        Fault::WorkspaceLeft,
        Fault::RecordLeftAfter22,
        Fault::TouchedAtRefusal,
        Fault::TouchedAt30And31,
        Fault::WrongConstant,
        Fault::NodeLeftOut,
        Fault::NodeOfConstantLeftOut,
        Fault::LastNode,
        Fault::LowestNumber,
        Fault::BoolIsByte,
    ];
    for fault in faults {
        let found = differences(fault);
        println!("{fault:?}: {found}");
        assert!(found > 10, "{fault:?}");
    }
}

/// Demand 3 holds of the original.
#[test]
fn two_worlds() {
    let part = Original(Fault::None);
    for change in [Change::Untouched, Change::Answered, Change::Any] {
        let (mut equal, mut different) = (0, 0);
        for worlds in (0..600).filter_map(|seed| worlds(seed, change)) {
            match compare_worlds(&part, &worlds).expect("demand 3") {
                true => equal += 1,
                false => different += 1,
            }
        }
        println!("{change:?}: {equal} equal, {different} different");
        assert!(equal + different > 100, "{change:?}");
    }
}

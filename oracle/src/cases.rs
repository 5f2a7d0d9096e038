//! The cases that a seed stands for: files with the lengths of the buffers
//! that are lent.

use crate::damage::damaged;
use crate::edges::{edges, faulty_nodes};
use crate::generate::{sources, Size};
use crate::judge::{judge, Files, Verdict, LEAST_WORKSPACE};
use crate::random::Random;
use crate::sweep::sweep;
use crate::tiny;

/// A record buffer that holds the record of all but the longest runs.
pub const AMPLE_BUFFER: usize = 1 << 22;

/// A case of a run.
#[derive(Debug, Clone)]
pub struct Case {
    pub files: Files,
    pub buffer: usize,
    pub workspace: usize,
    /// How a well case was changed into it, if it was.
    pub how: Option<&'static str>,
}

/// How the fixed cases with faulty nodes were changed.
const FAULTY_NODES: &str = "faulty nodes";

impl Case {
    pub fn judge(&self) -> Verdict {
        judge(&self.files, self.buffer, self.workspace)
    }

    /// The nodes of a fixed case whose `constant_value` is asked for, too: the
    /// first and one out of reach, where nodes are faulty.
    pub fn constants(&self) -> &'static [u32] {
        match self.how {
            Some(FAULTY_NODES) => &[0, u32::MAX],
            _ => &[],
        }
    }
}

/// The cases that no seed decides: `tiny`, `edges` and `sweep`.
pub fn fixed() -> Vec<Case> {
    let tiny = tiny::cases().into_iter().map(|case| case.files);
    let mut cases: Vec<Case> = tiny.map(|files| ample(files, None)).collect();
    let edges = edges().into_iter().map(|files| ample(files, Some("edge")));
    cases.extend(edges);
    let nodes = faulty_nodes().into_iter();
    cases.extend(nodes.map(|files| ample(files, Some(FAULTY_NODES))));
    let sweep = sweep().into_iter().map(|files| ample(files, Some("sweep")));
    cases.extend(sweep);
    for case in &mut cases {
        case.buffer = case.judge().record.len() + 32;
    }
    cases
}

fn ample(files: Files, how: Option<&'static str>) -> Case {
    Case {
        files,
        buffer: AMPLE_BUFFER,
        workspace: LEAST_WORKSPACE,
        how,
    }
}

/// The case of a seed: odd seeds are damaged.
pub fn case(seed: u64, size: Size) -> Case {
    let whole = sources(seed / 2, size);
    let (files, how) = if seed.is_multiple_of(2) {
        (whole.files(), None)
    } else {
        let damaged = damaged(seed, whole);
        (damaged.files, Some(damaged.how))
    };
    let mut case = ample(files, how);
    lend(&mut case, seed);
    case
}

/// Choose the lengths of what is lent: mostly enough, now and then just
/// enough or just too little.
fn lend(case: &mut Case, seed: u64) {
    let mut random = Random::new(!seed);
    if random.chance(1, 20) {
        case.workspace = *random.pick(&[0, 1, LEAST_WORKSPACE - 1, LEAST_WORKSPACE + 7]);
    }
    let length = case.judge().record.len();
    case.buffer = match random.below(30) {
        0 => length,
        1 => length.saturating_sub(1),
        2 => random.below(length + 1),
        3 => 0,
        _ => length + random.below(300),
    };
}

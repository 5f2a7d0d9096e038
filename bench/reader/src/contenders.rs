//! Those that are timed: our library, the original, the walker in C, and the
//! walker behind a check in C.

use library::Library;
use oracle::comparison::Part;
use oracle::emulate::{self, Limits, Run};
use oracle::files;
use oracle::judge::{Files, LEAST_WORKSPACE};
use oracle::lift::Stages;
use oracle::trees::{self, Growth};

use crate::image::Image;

/// `struct refusal`
#[repr(C)]
struct Refusal {
    number: u32,
    node: u32,
}

extern "C" {
    fn files_check(
        routine: *const u8,
        routine_length: usize,
        world: *const u8,
        world_length: usize,
        call: *const u8,
        call_length: usize,
    ) -> Refusal;

    fn walker_run(
        routine: *const u8,
        world: *const u8,
        call: *const u8,
        record: *mut u8,
        capacity: usize,
        length: *mut u32,
    ) -> u32;
}

/// What our library may be lent beyond the least workspace: room for the
/// questions of every row.
const QUESTIONS: usize = 1 << 22;

/// What is lent to our library, the record buffers of the walker without and
/// with the check, and what is lent to our library with the least workspace.
/// All are reused from run to run and cleared by nobody but who is run.
pub struct Lent {
    pub record: Vec<u8>,
    pub workspace: Vec<u8>,
    pub second: Vec<u8>,
    pub third: Vec<u8>,
    pub least: Vec<u8>,
    pub fourth: Vec<u8>,
}

impl Lent {
    pub fn new(record: usize) -> Self {
        // Written, so that no page is touched for the first time while timed.
        Self {
            record: vec![1; record],
            workspace: vec![1; LEAST_WORKSPACE + QUESTIONS],
            second: vec![1; record],
            third: vec![1; record],
            least: vec![1; LEAST_WORKSPACE],
            fourth: vec![1; record],
        }
    }
}

/// Our library: files in, record out; gives the number and the record's length,
/// or the node that a refusal names.
pub fn ours(files: &Files, record: &mut [u8], workspace: &mut [u8]) -> (u32, u32) {
    Library.run(files, record, workspace)
}

/// The walker in C: files in that are well formed, record out; gives the
/// number and the record's length.
pub fn walker(files: &Files, record: &mut [u8]) -> (u32, u32) {
    let mut length = 0;
    // SAFETY: the files were accepted before, and the record is written within
    // its capacity.
    let number = unsafe {
        walker_run(
            files.routine.as_ptr(),
            files.world.as_ptr(),
            files.call.as_ptr(),
            record.as_mut_ptr(),
            record.len(),
            &mut length,
        )
    };
    (number, length)
}

/// The check in C, then the walker: any files in, record out; gives what our
/// library gives. It needs no workspace, and looks only how long one is lent.
pub fn checked(files: &Files, record: &mut [u8], workspace: usize) -> (u32, u32) {
    // SAFETY: each pointer comes with the length of its own slice.
    let refusal = unsafe {
        files_check(
            files.routine.as_ptr(),
            files.routine.len(),
            files.world.as_ptr(),
            files.world.len(),
            files.call.as_ptr(),
            files.call.len(),
        )
    };
    match refusal.number {
        0 if workspace < LEAST_WORKSPACE => (20, 0),
        0 => walker(files, record),
        number => (number, refusal.node),
    }
}

/// The original's program in storage, made from the files before it is timed.
pub struct Original {
    stages: Stages,
    image: Image,
    arguments: Vec<u64>,
    limits: Limits,
}

impl Original {
    pub fn new(files: &Files) -> Self {
        let routine = files::Routine::read(&files.routine);
        let call = files::Call::read(&files.call);
        Self {
            stages: trees::stages(&routine, Growth::Plain),
            image: Image::new(&files::World::read(&files.world)),
            arguments: call.arguments,
            limits: Limits {
                steps: call.steps as usize,
                depth: call.depth as usize,
            },
        }
    }

    /// The original's own run: no decoding, no question kept, no record. Its
    /// labels are one text of six bytes without a lookup.
    pub fn run(&self) -> Run {
        emulate::run(&self.stages, &self.arguments, &self.image, &self.limits)
    }
}

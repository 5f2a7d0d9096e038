//! Our reader, linked from its static library and called through its C
//! interface.

use oracle::comparison::{ConstantAnswer, Part};
use oracle::judge::Files;

/// `struct Answer`
#[repr(C)]
struct Answer {
    number: u32,
    length: u32,
}

/// `struct Constant`; a C `bool` is read as the byte that it is.
#[repr(C)]
struct Constant {
    refusal: u32,
    known: u8,
    is_signed: u8,
    bits: u32,
    number: u64,
}

extern "C" {
    fn run(
        routine: *const u8,
        routine_length: usize,
        world: *const u8,
        world_length: usize,
        call: *const u8,
        call_length: usize,
        record: *mut u8,
        record_length: usize,
        workspace: *mut u8,
        workspace_length: usize,
    ) -> Answer;

    fn constant_value(
        routine: *const u8,
        routine_length: usize,
        node: u32,
        workspace: *mut u8,
        workspace_length: usize,
    ) -> Constant;
}

/// The linked library.
pub struct Library;

impl Part for Library {
    fn run(&self, files: &Files, record: &mut [u8], workspace: &mut [u8]) -> (u32, u32) {
        // SAFETY: each pointer comes with the length of its own slice, and
        // the library keeps none of them.
        let answer = unsafe {
            run(
                start(&files.routine),
                files.routine.len(),
                start(&files.world),
                files.world.len(),
                start(&files.call),
                files.call.len(),
                start_mut(record),
                record.len(),
                start_mut(workspace),
                workspace.len(),
            )
        };
        (answer.number, answer.length)
    }

    fn constant_value(&self, routine: &[u8], node: u32, workspace: &mut [u8]) -> ConstantAnswer {
        // SAFETY: as above.
        let constant = unsafe {
            constant_value(
                start(routine),
                routine.len(),
                node,
                start_mut(workspace),
                workspace.len(),
            )
        };
        ConstantAnswer {
            refusal: constant.refusal,
            known: truth(constant.known),
            signed: truth(constant.is_signed),
            bits: constant.bits,
            number: constant.number,
        }
    }
}

/// A slice's first byte; NULL for an empty one, as a C host lends it.
fn start(bytes: &[u8]) -> *const u8 {
    if bytes.is_empty() {
        std::ptr::null()
    } else {
        bytes.as_ptr()
    }
}

fn start_mut(bytes: &mut [u8]) -> *mut u8 {
    if bytes.is_empty() {
        std::ptr::null_mut()
    } else {
        bytes.as_mut_ptr()
    }
}

fn truth(byte: u8) -> bool {
    assert!(byte <= 1, "a bool is 0 or 1, and not {byte}");
    byte == 1
}

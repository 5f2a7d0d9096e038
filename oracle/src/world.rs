//! A world file's answers, and the questions that a run asked.

use std::cell::{Cell, RefCell};

use crate::emulate::{self, Memory, Val};
use crate::files;

/// A question to the world with its answer.
#[derive(Debug, Clone, PartialEq, Eq)]
pub enum Question {
    AddressOf {
        name: String,
        answer: Option<u64>,
    },
    SizeOf {
        name: String,
        answer: Option<u64>,
    },
    Read {
        address: u64,
        length: usize,
        answer: Option<Vec<u8>>,
    },
    /// Answered with none.
    Call {
        name: String,
        address: u64,
        depth: usize,
        arguments: Vec<Val>,
    },
}

impl Question {
    /// The bytes it takes in a record.
    pub fn length(&self) -> usize {
        match self {
            Question::AddressOf { .. } | Question::SizeOf { .. } => 12,
            Question::Read { answer, .. } => 11 + answer.as_ref().map_or(0, Vec::len),
            Question::Call { arguments, .. } => 17 + 14 * arguments.len(),
        }
    }
}

impl files::World {
    /// "`read` answers the unbroken bytes from the address on, at most the
    /// length asked, none past 2^64, and none if the first is absent or the
    /// length asked is 0."
    pub fn read_bytes(&self, address: u64, length: usize) -> Option<Vec<u8>> {
        let mut found = Vec::new();
        let mut next = Some(address);
        while let Some(byte) = next.and_then(|at| self.byte(at)) {
            if found.len() == length {
                break;
            }
            found.push(byte);
            next = next.and_then(|at| at.checked_add(1));
        }
        (!found.is_empty()).then_some(found)
    }

    /// The byte at an address, where a region has it.
    pub fn byte(&self, address: u64) -> Option<u8> {
        let after = self.regions.partition_point(|r| r.address <= address);
        let region = self.regions.get(after.checked_sub(1)?)?;
        let offset = usize::try_from(address - region.address).ok()?;
        region.bytes.get(offset).copied()
    }

    pub fn symbol(&self, name: &str) -> Option<&files::Symbol> {
        let at = self
            .symbols
            .binary_search_by(|symbol| symbol.name.as_str().cmp(name));
        at.ok().map(|at| &self.symbols[at])
    }

    pub fn address_of(&self, name: &str) -> Option<u64> {
        self.symbol(name).map(|symbol| symbol.address)
    }

    pub fn size_of(&self, name: &str) -> Option<u64> {
        self.symbol(name)
            .filter(|symbol| symbol.size != 0)
            .map(|symbol| u64::from(symbol.size))
    }
}

/// A world that writes down what it is asked.
#[derive(Debug)]
pub struct Recorder<'a> {
    world: &'a files::World,
    questions: RefCell<Vec<Question>>,
    length: Cell<u64>,
}

/// Questions are counted, but kept no more, once they take so many bytes:
/// no buffer that anyone lends holds their record.
const KEPT_BYTES: u64 = 1 << 28;

impl<'a> Recorder<'a> {
    pub fn new(world: &'a files::World) -> Self {
        Self {
            world,
            questions: RefCell::default(),
            length: Cell::new(0),
        }
    }

    /// The questions asked, and the bytes that they take in a record.
    pub fn into_questions(self) -> (Vec<Question>, u64) {
        (self.questions.into_inner(), self.length.get())
    }

    fn keep(&self, question: Question) {
        self.length
            .set(self.length.get() + question.length() as u64);
        if self.length.get() <= KEPT_BYTES {
            self.questions.borrow_mut().push(question);
        }
    }
}

impl emulate::World for Recorder<'_> {
    fn read(&self, address: u64, len: usize) -> Option<Vec<u8>> {
        let answer = self.world.read_bytes(address, len);
        self.keep(Question::Read {
            address,
            length: len,
            answer: answer.clone(),
        });
        answer
    }

    fn address_of(&self, name: &str) -> Option<u64> {
        let answer = self.world.address_of(name);
        self.keep(Question::AddressOf {
            name: name.to_string(),
            answer,
        });
        answer
    }

    fn size_of(&self, name: &str) -> Option<u64> {
        let answer = self.world.size_of(name);
        self.keep(Question::SizeOf {
            name: name.to_string(),
            answer,
        });
        answer
    }

    fn call(
        &self,
        name: &str,
        address: u64,
        args: &[Val],
        depth: usize,
        _memory: &mut Memory,
        _budget: &Cell<usize>,
    ) -> Option<Val> {
        self.keep(Question::Call {
            name: name.to_string(),
            address,
            depth,
            arguments: args.to_vec(),
        });
        None
    }
}

//! What the statements of a generated routine are about: its variables, the
//! world's symbols and memory, and the types that are spelt.

use crate::boolean::has_bool;
use crate::random::Random;
use crate::source::{Routine, World};
use crate::spellings::SPELLINGS;

/// The words that names are drawn from. Some begin others, some look like
/// what the original prints.
const WORDS: [&str; 36] = [
    "a", "ab", "abc", "b", "c", "d", "n", "p", "q", "sum", "dwell", "rpm", "speed", "flags",
    "state", "ramp", "coolant", "door", "node", "node,", "a,", ",", ";", "x;", "!", "~", "0", "12",
    "unknown", "A", "B_", "_", "__", "(", "\"", "at",
];

/// Types that most variables and pointers have.
const USUAL: [&str; 13] = [
    "int",
    "char",
    "unsigned char",
    "short",
    "unsigned short",
    "unsigned",
    "long",
    "unsigned long",
    "uint8_t",
    "int8_t",
    "int16_t",
    "uint32_t",
    "int64_t",
];

/// Types of most places in a scene about bool.
const BOOLS: [&str; 8] = [
    "bool",
    "_Bool",
    "const bool",
    "bool volatile",
    "volatile bool",
    "const volatile _Bool const",
    "unsigned bool",
    "bool *",
];

pub struct Scene {
    pub random: Random,
    /// Declared names, names that only statements use, names with a symbol.
    pub variables: Vec<String>,
    pub free: Vec<String>,
    pub symbols: Vec<String>,
    /// Addresses worth a load or a store.
    pub addresses: Vec<u64>,
    /// In how many of 100 places something unknown is used on purpose; with
    /// none, other causes of unknown values are kept rare too.
    pub risk: usize,
    /// Whether it is about bool. No type of another scene speaks of it, so
    /// that the original alone can judge.
    pub boolean: bool,
}

impl Scene {
    /// A scene with the head of its routine and its world.
    pub fn new(mut random: Random) -> (Self, Routine, World) {
        let mut scene = Self {
            risk: *random.pick(&[0, 0, 0, 1, 4, 15]),
            boolean: random.chance(1, 6),
            random,
            variables: Vec::new(),
            free: Vec::new(),
            symbols: Vec::new(),
            addresses: Vec::new(),
        };
        for _ in 0..3 {
            let word = scene.word();
            scene.free.push(word);
        }
        let world = scene.world();
        let routine = scene.head();
        (scene, routine, world)
    }

    pub fn calm(&self) -> bool {
        self.risk == 0
    }

    pub fn risky(&mut self) -> bool {
        self.random.chance(self.risk, 100)
    }

    pub fn word(&mut self) -> String {
        self.random.pick(&WORDS).to_string()
    }

    pub fn ty(&mut self) -> &'static str {
        if self.boolean && self.random.chance(2, 3) {
            let ty: &&'static str = self.random.pick(&BOOLS);
            return ty;
        }
        let odd = self.random.chance(1, 4);
        let list = if odd { SPELLINGS } else { &USUAL };
        loop {
            let ty: &&'static str = self.random.pick(list);
            if self.boolean || !has_bool(ty) {
                return ty;
            }
        }
    }

    /// A spelling that ends in a star, or now and then one that should.
    pub fn pointer_type(&mut self) -> String {
        let ty = self.ty();
        match self.random.below(12) {
            0 => ty.to_string(),
            1 => format!("{}* ", &ty[..ty.len().min(62)]),
            _ => format!("{} *", &ty[..ty.len().min(62)]),
        }
    }

    /// A name whose address can be taken: mostly a symbol's.
    pub fn placed_name(&mut self) -> String {
        if self.symbols.is_empty() || self.random.chance(1, 8) {
            return self.name();
        }
        self.random.pick(&self.symbols).clone()
    }

    /// A name to read or write: mostly a declared one.
    pub fn name(&mut self) -> String {
        let list = match self.random.below(10) {
            0..=5 => &self.variables,
            6..=8 => &self.symbols,
            _ => &self.free,
        };
        let list = if list.is_empty() { &self.free } else { list };
        self.random.pick(list).clone()
    }

    /// An address in a region, or now and then at one of its edges.
    pub fn address(&mut self) -> u64 {
        let near = *self.random.pick(&self.addresses);
        let offset = self.random.below(10) as u64;
        if self.random.chance(1, if self.calm() { 60 } else { 8 }) {
            near.wrapping_sub(offset)
        } else {
            near.wrapping_add(offset)
        }
    }

    /// A number: small, at an edge, or any.
    pub fn number(&mut self) -> u64 {
        match self.random.below(8) {
            0..=2 => self.random.below(10) as u64,
            3 => self.random.below(300) as u64,
            4 => 1u64 << self.random.below(64),
            5 => (1u64 << self.random.below(64)).wrapping_sub(1),
            6 => (self.random.below(10) as u64).wrapping_neg(),
            _ => self.random.bits(),
        }
    }

    pub fn place(&mut self) -> Option<u64> {
        if self.random.chance(1, 3) {
            return None;
        }
        let spread = *self.random.pick(&[16, 4096, 1 << 40]);
        Some(self.random.below(spread) as u64)
    }

    fn head(&mut self) -> Routine {
        let name = self.word();
        let address = self.place().unwrap_or(0x1000);
        let return_type = if self.random.chance(1, 5) {
            "void"
        } else {
            self.ty()
        };
        let mut routine = Routine::new(&name, address, return_type);
        for _ in 0..self.random.below(5) {
            routine.params.push(self.declared());
        }
        for _ in 0..self.random.below(4) {
            routine.locals.push(self.declared());
        }
        for _ in 0..self.random.below(3) {
            routine.spare_names.push(self.word());
            routine.spare_types.push(self.ty().to_string());
        }
        routine
    }

    /// A declaration; now and then of a name declared before or of a
    /// symbol's name.
    fn declared(&mut self) -> (String, String) {
        let name = match self.random.below(12) {
            0 if !self.variables.is_empty() => self.random.pick(&self.variables).clone(),
            1 if !self.symbols.is_empty() => self.random.pick(&self.symbols).clone(),
            _ => self.word(),
        };
        self.variables.push(name.clone());
        (name, self.ty().to_string())
    }

    fn world(&mut self) -> World {
        let mut world = World::default();
        for (address, length) in self.regions() {
            let bytes = (0..length).map(|_| self.random.bits() as u8).collect();
            world.regions.push((address, bytes));
        }
        for (address, bytes) in &world.regions {
            let end = address.wrapping_add(bytes.len() as u64);
            if bytes.len() > 16 || !self.calm() {
                self.addresses.extend([*address, *address, *address]);
            }
            if !self.calm() {
                self.addresses.push(end);
            }
        }
        if self.addresses.is_empty() {
            self.addresses.push(0x2000);
        }
        for _ in 0..self.random.below(8) {
            let (name, size, address) = (self.word(), self.size(), self.address());
            if !self.symbols.contains(&name) {
                self.symbols.push(name.clone());
                world = world.symbol(&name, size, address);
            }
        }
        for _ in 0..self.random.below(3) {
            world.spare_names.push(self.word());
        }
        world
    }

    fn size(&mut self) -> u8 {
        let usual = !self.random.chance(1, 10);
        let sizes: &[u8] = if usual {
            &[1, 2, 4, 8]
        } else {
            &[0, 0, 3, 255]
        };
        *self.random.pick(sizes)
    }

    /// Ascending, disjoint, now and then touching, some at the two ends.
    fn regions(&mut self) -> Vec<(u64, u64)> {
        let mut found: Vec<(u64, u64)> = Vec::new();
        let mut least = *self.random.pick(&[0, 0x40, 0x1f00, 0x2000]);
        for _ in 0..*self.random.pick(&[0, 1, 2, 3, 3, 4, 5, 5]) {
            let length = *self.random.pick(&[1, 5, 16, 24, 40, 48]);
            found.push((least, length));
            let gap = *self.random.pick(&[0, 0, 1, 3, 8, 0x100]);
            least += length + gap;
        }
        if self.random.chance(1, 6) {
            let length = 1 + self.random.below(16) as u64;
            found.push((length.wrapping_neg(), length));
        }
        found
    }
}

// The overlay against Rust's BTreeMap<u64, u8>: the same keys are stored into an empty one, stored again and loaded, as single bytes and as 8-byte words.
// A row tells the median time of one byte or word for each, and their ratio.
use std::collections::BTreeMap;
use std::hint::black_box;
use std::time::Instant;

#[link(name = "overlay", kind = "static")]
extern "C" {
    fn overlay_store(part: *mut u8, length: usize, count: usize, address: u64, byte: u8) -> usize;
    fn overlay_store_number(part: *mut u8, length: usize, count: usize, address: u64, number: u64, bytes: usize) -> usize;
    fn overlay_find(part: *const u8, length: usize, count: usize, address: u64) -> u64;
    fn overlay_load_number(part: *const u8, length: usize, count: usize, image_count: usize, image_number: u64, address: u64, bytes: usize) -> u64;
}

/// The bytes of a part: `memory::PART`.
const PART: usize = 4096 * 9 + 2;

/// How many keys are handled in one measurement, and how many measurements are made.
const KEYS: usize = 4096;
const TIMES: usize = 151;

#[derive(Clone, Copy, PartialEq)]
enum Order {
    Ascending,
    Descending,
    Random,
}

/// Xorshift, so that each run has the same keys.
struct Random(u64);

impl Random {
    fn next(&mut self) -> u64 {
        self.0 ^= self.0 << 13;
        self.0 ^= self.0 >> 7;
        self.0 ^= self.0 << 17;
        self.0
    }
}

/// n addresses one after the other, `step` apart, or spread over all memory.
fn keys(n: usize, step: u64, order: Order, random: &mut Random) -> Vec<u64> {
    let base = random.next() >> 1 & !7;
    match order {
        Order::Ascending => (0..n as u64).map(|i| base + i * step).collect(),
        Order::Descending => (0..n as u64).rev().map(|i| base + i * step).collect(),
        Order::Random => (0..n).map(|_| random.next() & !7).collect(),
    }
}

/// In which order keys are asked for: again and again as they were stored, or at random.
fn asked(keys: &[u64], order: Order, random: &mut Random) -> Vec<u64> {
    match order {
        Order::Random => (0..KEYS).map(|_| keys[(random.next() >> 20) as usize % keys.len()]).collect(),
        _ => keys.iter().copied().cycle().take(KEYS).collect(),
    }
}

struct Overlay {
    part: Vec<u8>,
    count: usize,
}

impl Overlay {
    fn new() -> Self {
        Overlay { part: vec![0; PART], count: 0 }
    }

    fn store(&mut self, address: u64, byte: u8) {
        self.count = unsafe { overlay_store(self.part.as_mut_ptr(), PART, self.count, address, byte) };
    }

    fn store_word(&mut self, address: u64, word: u64) {
        self.count = unsafe { overlay_store_number(self.part.as_mut_ptr(), PART, self.count, address, word, 8) };
    }

    fn load(&self, address: u64) -> u64 {
        unsafe { overlay_find(self.part.as_ptr(), PART, self.count, address) }
    }

    fn load_word(&self, address: u64) -> u64 {
        unsafe { overlay_load_number(self.part.as_ptr(), PART, self.count, 0, 0, address, 8) }
    }
}

#[derive(Default)]
struct Map(BTreeMap<u64, u8>);

impl Map {
    fn store(&mut self, address: u64, byte: u8) {
        self.0.insert(address, byte);
    }

    fn store_word(&mut self, address: u64, word: u64) {
        for (i, byte) in word.to_le_bytes().iter().enumerate() {
            self.0.insert(address.wrapping_add(i as u64), *byte);
        }
    }

    fn load(&self, address: u64) -> u64 {
        self.0.get(&address).map_or(256, |b| *b as u64)
    }

    fn load_word(&self, address: u64) -> u64 {
        let mut word = [0; 8];
        for (i, byte) in word.iter_mut().enumerate() {
            match self.0.get(&address.wrapping_add(i as u64)) {
                Some(b) => *byte = *b,
                None => return 0,
            }
        }
        u64::from_le_bytes(word)
    }
}

/// Nanoseconds for each of `of` things.
fn timed(of: usize, work: impl FnOnce()) -> f64 {
    let start = Instant::now();
    work();
    start.elapsed().as_nanos() as f64 / of as f64
}

fn median(mut times: Vec<f64>) -> f64 {
    times.sort_by(f64::total_cmp);
    times[times.len() / 2]
}

/// The medians of measurements that take turns.
fn medians(mut measure: impl FnMut() -> [(f64, f64); 3]) -> [(f64, f64); 3] {
    let all: Vec<_> = (0..TIMES).map(|_| measure()).collect();
    std::array::from_fn(|i| (median(all.iter().map(|m| m[i].0).collect()), median(all.iter().map(|m| m[i].1).collect())))
}

fn bytes(n: usize, order: Order, random: &mut Random) -> [(f64, f64); 3] {
    medians(|| {
        let lists: Vec<_> = (0..KEYS / n).map(|_| keys(n, 1, order, random)).collect();
        let (mut overlay, mut map) = (Overlay::new(), Map::default());
        let ours = timed(KEYS, || for list in &lists {
            overlay.count = 0;
            for &k in list { overlay.store(k, k as u8) }
        });
        let theirs = timed(KEYS, || for list in &lists {
            map.0 = BTreeMap::new();
            for &k in list { map.store(k, k as u8) }
        });
        let asked = asked(&lists[lists.len() - 1], order, random);
        let ours_again = timed(KEYS, || for &k in &asked { overlay.store(k, !k as u8) });
        let theirs_again = timed(KEYS, || for &k in &asked { map.store(k, !k as u8) });
        let ours_loaded = timed(KEYS, || for &k in &asked { black_box(overlay.load(k)); });
        let theirs_loaded = timed(KEYS, || for &k in &asked { black_box(map.load(k)); });
        assert!(asked.iter().all(|&k| overlay.load(k) == map.load(k) && map.load(k) == !k as u8 as u64));
        [(ours, theirs), (ours_again, theirs_again), (ours_loaded, theirs_loaded)]
    })
}

fn words(n: usize, order: Order, random: &mut Random) -> [(f64, f64); 3] {
    medians(|| {
        let lists: Vec<_> = (0..KEYS / n).map(|_| keys(n / 8, 8, order, random)).collect();
        let (mut overlay, mut map) = (Overlay::new(), Map::default());
        let ours = timed(KEYS / 8, || for list in &lists {
            overlay.count = 0;
            for &k in list { overlay.store_word(k, k) }
        });
        let theirs = timed(KEYS / 8, || for list in &lists {
            map.0 = BTreeMap::new();
            for &k in list { map.store_word(k, k) }
        });
        let asked = asked(&lists[lists.len() - 1], order, random);
        let ours_again = timed(KEYS, || for &k in &asked { overlay.store_word(k, !k) });
        let theirs_again = timed(KEYS, || for &k in &asked { map.store_word(k, !k) });
        let ours_loaded = timed(KEYS, || for &k in &asked { black_box(overlay.load_word(k)); });
        let theirs_loaded = timed(KEYS, || for &k in &asked { black_box(map.load_word(k)); });
        assert!(asked.iter().all(|&k| overlay.load_word(k) == map.load_word(k) && map.load_word(k) == !k));
        [(ours, theirs), (ours_again, theirs_again), (ours_loaded, theirs_loaded)]
    })
}

fn main() {
    let mut random = Random(88172645463325252);
    println!("{:22} {:>5}  {:>10} {:>10} {:>6}", "", "bytes", "overlay", "BTreeMap", "ratio");
    let (mut small, mut large) = (0f64, 0f64);
    for (order, name) in [(Order::Ascending, "ascending"), (Order::Descending, "descending"), (Order::Random, "random")] {
        for n in [16, 256, 4096] {
            for (thing, rows) in [("byte", bytes(n, order, &mut random)), ("word", words(n, order, &mut random))] {
                for (what, (ours, theirs)) in ["stored", "again", "loaded"].iter().zip(rows) {
                    let ratio = ours / theirs;
                    println!("{:22} {:5}  {:7.1} ns {:7.1} ns {:6.2}", format!("{name} {thing} {what}"), n, ours, theirs, ratio);
                    if n <= 256 { small = small.max(ratio) } else { large = large.max(ratio) }
                }
            }
        }
    }
    println!("highest ratio up to 256 bytes: {small:.2}, at 4,096: {large:.2}");
}

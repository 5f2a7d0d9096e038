//! Times of one run, as medians over rounds in which the contenders take
//! turns.

use std::hint::black_box;
use std::time::Duration;

/// How many rounds there are; each gives one time of each contender.
pub const ROUNDS: usize = 15;

/// A round of a contender goes on until this time is spent in it.
const LEAST_ROUND: Duration = Duration::from_millis(2);

/// `struct timespec` of 64-bit Linux
#[repr(C)]
struct Timespec {
    seconds: i64,
    nanoseconds: i64,
}

extern "C" {
    fn clock_gettime(clock: i32, time: *mut Timespec) -> i32;
}

const CLOCK_THREAD_CPUTIME_ID: i32 = 3;

/// The processor time of this thread: what other work takes is not in it.
fn now() -> Duration {
    let mut time = Timespec {
        seconds: 0,
        nanoseconds: 0,
    };
    // SAFETY: the time is written where it is lent.
    let failed = unsafe { clock_gettime(CLOCK_THREAD_CPUTIME_ID, &mut time) };
    assert_eq!(failed, 0, "the system tells a thread's processor time");
    Duration::new(time.seconds as u64, time.nanoseconds as u32)
}

/// Does one run and tells how long it took; what it made is dropped after.
pub fn timed<T>(work: impl FnOnce() -> T) -> Duration {
    let start = now();
    let made = black_box(work());
    let took = now() - start;
    drop(made);
    took
}

/// A contender: one run, and how long it took.
pub type Contender<'a> = Box<dyn FnMut() -> Duration + 'a>;

/// The median nanoseconds of one run of each contender.
pub fn medians(contenders: &mut [Contender]) -> Vec<f64> {
    let mut times = vec![Vec::new(); contenders.len()];
    for contender in contenders.iter_mut() {
        contender();
    }
    for _ in 0..ROUNDS {
        for (contender, times) in contenders.iter_mut().zip(&mut times) {
            times.push(round(contender));
        }
    }
    times.into_iter().map(median).collect()
}

/// The mean nanoseconds of the runs of one round.
fn round(contender: &mut Contender) -> f64 {
    let (mut spent, mut runs) = (Duration::ZERO, 0);
    while spent < LEAST_ROUND {
        spent += contender();
        runs += 1;
    }
    spent.as_nanos() as f64 / f64::from(runs)
}

fn median(mut times: Vec<f64>) -> f64 {
    times.sort_by(f64::total_cmp);
    times[times.len() / 2]
}

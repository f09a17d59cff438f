//! Times by turns, and their medians.

use std::sync::LazyLock;
use std::sync::atomic::{AtomicU64, Ordering::Relaxed};

use crate::cases::Random;

unsafe extern "C" {
    fn clock_gettime(clock: i32, out: *mut [i64; 2]) -> i32;
}

/// Nanoseconds that this thread has run: others that use the machine at the
/// same time do not count.
fn now() -> f64 {
    const THREAD_CPU_TIME: i32 = 3;
    let mut time = [0; 2];
    let told = unsafe { clock_gettime(THREAD_CPU_TIME, &mut time) };
    assert_eq!(told, 0, "the clock");
    time[0] as f64 * 1e9 + time[1] as f64
}

/// What reading the clock takes.
static READING: LazyLock<f64> = LazyLock::new(|| {
    let once = |_| {
        let start = now();
        now() - start
    };
    quantile((0..1001).map(once).collect(), 0.5)
});

/// Nanoseconds for one of so many calls.
pub fn timed(calls: usize, body: impl FnOnce()) -> f64 {
    let reading = *READING;
    let start = now();
    body();
    (now() - start - reading) / calls as f64
}

/// The sides in an order drawn anew each time, so that none follows another
/// more often than the rest do; the draws are the same in every call of the
/// program.
pub fn turn(sides: usize) -> Vec<usize> {
    static DRAWN: AtomicU64 = AtomicU64::new(0x9E37_79B9_7F4A_7C15);
    let mut random = Random(DRAWN.load(Relaxed));
    let mut order: Vec<usize> = (0..sides).collect();
    for k in (1..sides).rev() {
        order.swap(k, random.below(k as u32 + 1) as usize);
    }
    DRAWN.store(random.0, Relaxed);
    order
}

/// Rounds that make a block of about a millisecond, for each side, by a round
/// that is not its first. The Rust's two sides, which come last, have equally
/// many: what a first round takes from memory counts alike for both.
pub fn rounds(mut once: impl FnMut(usize) -> f64) -> [usize; 4] {
    let mut rounds = [0, 1, 2, 3].map(|side| {
        once(side);
        (1e6 / once(side).max(1.0)).clamp(1.0, 4000.0) as usize
    });
    rounds[2] = rounds[2].max(rounds[3]);
    rounds[3] = rounds[2];
    rounds
}

pub struct Times(Vec<Vec<f64>>);

pub fn quantile(mut of: Vec<f64>, p: f64) -> f64 {
    of.sort_by(f64::total_cmp);
    of[((of.len() - 1) as f64 * p).round() as usize]
}

pub fn median(of: Vec<f64>) -> f64 {
    quantile(of, 0.5)
}

impl Times {
    pub fn new(sides: usize) -> Self {
        Self(vec![vec![]; sides])
    }

    /// The first repetition only warms up.
    pub fn add(&mut self, rep: usize, side: usize, time: f64) {
        if rep > 0 {
            self.0[side].push(time);
        }
    }

    pub fn median(&self, side: usize) -> f64 {
        median(self.0[side].clone())
    }

    /// The median ratio of two sides, repetition by repetition.
    pub fn ratio(&self, side: usize, to: usize) -> f64 {
        let pairs = self.0[side].iter().zip(&self.0[to]);
        median(pairs.map(|(a, b)| a / b).collect())
    }
}

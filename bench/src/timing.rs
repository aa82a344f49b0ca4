//! How long one operation takes.

use std::hint::black_box;
use std::time::{Duration, Instant};

/// How long a measurement lasts at least, and how many there are.
#[derive(Clone, Copy)]
pub struct Settings {
    pub least: Duration,
    pub count: usize,
}

/// An operation that takes longer than this is measured once.
const LONG: Duration = Duration::from_secs(1);

fn median(mut figures: Vec<f64>) -> f64 {
    figures.sort_by(f64::total_cmp);
    figures[figures.len() / 2]
}

/// Nanoseconds of one operation: the median of some measurements, each of as many repeats as last long enough. `time` tells
/// how long so many repeats take.
pub fn nanoseconds(settings: Settings, mut time: impl FnMut(u32) -> Duration) -> f64 {
    let mut repeats = 1;
    let mut taken = time(repeats);
    while taken < settings.least && repeats < 1 << 28 {
        let missing = settings.least.as_secs_f64() / taken.as_secs_f64().max(1e-7);
        repeats = (f64::from(repeats) * (1.1 * missing).clamp(2.0, 100.0)) as u32;
        taken = time(repeats);
    }
    let each = |taken: Duration| taken.as_secs_f64() * 1e9 / f64::from(repeats);
    if repeats == 1 && taken > LONG {
        return each(taken);
    }
    median((0..settings.count).map(|_| each(time(repeats))).collect())
}

/// The time of a call to the library with so many repeats, less that of the same call with none, which sets up alone.
pub fn nanoseconds_of_call(settings: Settings, mut call: impl FnMut(u32) -> u64) -> f64 {
    let mut whole = |repeats| {
        let start = Instant::now();
        black_box(call(black_box(repeats)));
        start.elapsed()
    };
    whole(0);
    let setup = median((0..9).map(|_| whole(0).as_secs_f64()).collect());
    nanoseconds(settings, |repeats| whole(repeats).saturating_sub(Duration::from_secs_f64(setup)))
}

/// The time of an operation that leaves nothing behind.
pub fn nanoseconds_of<T>(settings: Settings, mut operation: impl FnMut() -> T) -> f64 {
    nanoseconds(settings, |repeats| {
        let start = Instant::now();
        for _ in 0..repeats {
            black_box(operation());
        }
        start.elapsed()
    })
}

/// The time of an operation that takes a value: as many values as `batch` are made before, and what the operation makes of them
/// is let go after, neither of which counts.
pub fn nanoseconds_of_each<A, B>(
    settings: Settings,
    batch: usize,
    make: impl Fn() -> A,
    operation: impl Fn(A) -> B,
) -> f64 {
    nanoseconds(settings, |repeats| {
        let mut left = repeats as usize;
        let mut taken = Duration::ZERO;
        while left > 0 {
            let count = left.min(batch);
            let given: Vec<A> = (0..count).map(|_| make()).collect();
            let mut made = Vec::with_capacity(count);
            let start = Instant::now();
            for value in given {
                made.push(operation(black_box(value)));
            }
            taken += start.elapsed();
            black_box(&made);
            left -= count;
        }
        taken
    })
}

//! Calls timed in turn.

use std::hint::black_box;
use std::time::{Duration, Instant};

/// How long the samples of calls that are timed together take, and how many each of them has at least.
pub const BUDGET: Duration = Duration::from_millis(750);
pub const FEWEST: usize = 25;
/// How long a sample takes at least, in nanoseconds.
const SAMPLE: f64 = 200_000.0;

/// The times of a proved call and a plain one, in nanoseconds.
#[derive(Clone, Copy)]
pub struct Pair {
    pub proved: f64,
    pub plain: f64,
}

impl Pair {
    pub fn ratio(self) -> f64 {
        self.proved / self.plain
    }
}

/// Times two calls in turn.
pub fn pair<T, U>(proved: impl Fn() -> T, plain: impl Fn() -> U) -> Pair {
    let [proved, plain] = medians([&used(proved), &used(plain)]);
    Pair { proved, plain }
}

/// A call whose answer no compiler leaves out.
pub fn used<T>(call: impl Fn() -> T) -> impl Fn() {
    move || {
        black_box(call());
    }
}

/// The times of calls, each the median of its samples, which are taken in turn.
pub fn medians<const N: usize>(calls: [&dyn Fn(); N]) -> [f64; N] {
    let counts = calls.map(|call| (SAMPLE / nanoseconds(5, call)).ceil() as usize);
    let mut times = [const { Vec::new() }; N];
    let start = Instant::now();
    while start.elapsed() < BUDGET || times[0].len() < FEWEST {
        for i in 0..N {
            times[i].push(nanoseconds(counts[i], calls[i]));
        }
    }
    times.map(median)
}

/// The time of one of so many calls.
fn nanoseconds(calls: usize, call: &dyn Fn()) -> f64 {
    let start = Instant::now();
    for _ in 0..calls {
        call();
    }
    start.elapsed().as_nanos() as f64 / calls as f64
}

fn median(mut times: Vec<f64>) -> f64 {
    times.sort_by(f64::total_cmp);
    times[times.len() / 2]
}

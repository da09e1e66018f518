//! Timing by the thread's own processor time, which other programs on the same cores do not count in.

use std::hint::black_box;

/// The first rounds warm the caches and are not counted.
const WARM: usize = 3;
/// A round calls often enough to last so many nanoseconds.
const STRETCH: f64 = 50_000.0;

#[repr(C)]
struct Timespec {
    seconds: i64,
    nanoseconds: i64,
}

extern "C" {
    fn clock_gettime(clock: i32, time: *mut Timespec) -> i32;
}

/// CLOCK_THREAD_CPUTIME_ID of Linux.
const THREAD_TIME: i32 = 3;

/// Nanoseconds that the thread has worked.
fn now() -> f64 {
    let mut t = Timespec { seconds: 0, nanoseconds: 0 };
    assert_eq!(unsafe { clock_gettime(THREAD_TIME, &mut t) }, 0);
    t.seconds as f64 * 1e9 + t.nanoseconds as f64
}

/// Nanoseconds of one call, round by round.
pub struct Times(Vec<f64>);

/// Nanoseconds of so many calls.
fn stretch(call: &mut dyn FnMut(), calls: usize) -> f64 {
    let began = now();
    for _ in 0..calls {
        call();
    }
    now() - began
}

/// What a call answers, and its nanoseconds.
pub fn once<T>(call: impl FnOnce() -> T) -> (T, f64) {
    let began = now();
    let answer = black_box(call());
    (answer, now() - began)
}

/// How often to call, so that the clock's own time does not matter.
fn calls_of(call: &mut dyn FnMut()) -> usize {
    let mut calls = 1;
    while stretch(call, calls) < STRETCH {
        calls *= 2;
    }
    calls
}

/// Times each call over the rounds. A round times all of them in turn, so that they meet the same load.
pub fn rounds<const N: usize>(rounds: usize, mut all: [&mut dyn FnMut(); N]) -> [Times; N] {
    let calls = all.each_mut().map(|call| calls_of(call));
    let mut times = [(); N].map(|()| Times(Vec::with_capacity(rounds)));
    for round in 0..WARM + rounds {
        for i in 0..N {
            let each = stretch(all[i], calls[i]) / calls[i] as f64;
            if round >= WARM {
                times[i].0.push(each);
            }
        }
    }
    times
}

/// Takes what a call answers, so that the compiler leaves no call out.
pub fn used<T>(answer: T) {
    black_box(answer);
}

/// The middle of some numbers, of an even count the upper one of the two.
pub fn median(all: &[f64]) -> f64 {
    let mut all = all.to_vec();
    all.sort_by(f64::total_cmp);
    all[all.len() / 2]
}

impl Times {
    pub fn least(&self) -> f64 {
        self.0.iter().copied().fold(f64::INFINITY, f64::min)
    }

    pub fn median(&self) -> f64 {
        median(&self.0)
    }

    /// What is left of each round when another call's time in the same round is taken off.
    pub fn less(&self, other: &Times) -> Times {
        Times(self.0.iter().zip(&other.0).map(|(a, b)| a - b).collect())
    }

    /// What both calls of each round take.
    pub fn plus(&self, other: &Times) -> Times {
        Times(self.0.iter().zip(&other.0).map(|(a, b)| a + b).collect())
    }

    /// Each round in another unit.
    pub fn over(self, n: f64) -> Times {
        Times(self.0.into_iter().map(|t| t / n).collect())
    }
}

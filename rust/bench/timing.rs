//! Times of this thread on the processor, and medians of interleaved rounds.

use crate::cache;

#[repr(C)]
struct Timespec {
    seconds: i64,
    nanoseconds: i64,
}

unsafe extern "C" {
    fn clock_gettime(clock: i32, time: *mut Timespec) -> i32;
}

/// Seconds that this thread has run so far, so that other work on the machine disturbs less.
pub fn now() -> f64 {
    const CLOCK_THREAD_CPUTIME_ID: i32 = 3;
    let mut time = Timespec { seconds: 0, nanoseconds: 0 };
    // Safe: the C library fills in the two numbers.
    assert_eq!(unsafe { clock_gettime(CLOCK_THREAD_CPUTIME_ID, &mut time) }, 0);
    time.seconds as f64 + time.nanoseconds as f64 * 1e-9
}

/// Seconds of a call, after one that is not timed.
pub fn time(calls: usize, mut call: impl FnMut()) -> f64 {
    call();
    let start = now();
    for _ in 0..calls {
        call();
    }
    (now() - start) / calls as f64
}

/// Seconds of a call on what `make` made, the making not timed.
pub fn time_on<T>(mut make: impl FnMut() -> T, call: impl FnOnce(&mut T)) -> f64 {
    let mut made = make();
    let start = now();
    call(&mut made);
    now() - start
}

pub fn median(times: &mut [f64]) -> f64 {
    times.sort_by(|x, y| x.total_cmp(y));
    times[times.len() / 2]
}

/// Medians of both sides, a round of one after a round of the other.
pub fn interleaved(rounds: usize, mut theirs: impl FnMut() -> f64, mut ours: impl FnMut() -> f64) -> (f64, f64) {
    cache::alone(|| {
        let (mut a, mut b) = (Vec::new(), Vec::new());
        for _ in 0..rounds {
            a.push(theirs());
            b.push(ours());
        }
        (median(&mut a), median(&mut b))
    })
}

/// Microseconds, with as many digits as say something.
pub fn micro(seconds: f64) -> String {
    let us = seconds * 1e6;
    if us < 10.0 { format!("{us:.3}") } else { format!("{us:.1}") }
}

/// What is aimed at, and what was measured: the worst of each.
#[derive(Default)]
pub struct Aims(Vec<(String, f64, f64)>);

impl Aims {
    pub fn add(&mut self, what: &str, most: f64, measured: f64) {
        match self.0.iter_mut().find(|aim| aim.0 == what) {
            Some(aim) => aim.2 = aim.2.max(measured),
            None => self.0.push((what.to_string(), most, measured)),
        }
    }

    pub fn print(&self) {
        println!("\n| aim | at most | worst measured | |\n|---|---|---|---|");
        for (what, most, measured) in &self.0 {
            println!("| {what} | {most} | {measured:.2} | {} |", if measured <= most { "met" } else { "missed" });
        }
    }
}

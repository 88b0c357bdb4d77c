//! Whether the first-level data cache is this program's own. Where another's work on the same core takes part of it, what just fits into it
//! is slower though no code has changed: a measurement waits until that is over, and is made again where it has begun meanwhile.

use crate::dice::Dice;
use crate::timing::time;
use std::hint::black_box;
use std::sync::atomic::{AtomicU32, Ordering::Relaxed};
use std::thread::sleep;
use std::time::Duration;

/// Nanoseconds of a step along a ring of so many kilobytes, one place in each line of 64 bytes and in no order: each place names the next.
fn step(kilobytes: usize) -> f64 {
    let lines = 16 * kilobytes;
    let mut order: Vec<usize> = (0..lines).collect();
    Dice(0x9e37_79b9_7f4a_7c15).shuffle(&mut order);
    let mut ring = vec![0u32; 16 * lines];
    for i in 0..lines {
        ring[16 * order[i]] = 16 * order[(i + 1) % lines] as u32;
    }
    let (mut at, steps) = (0, 100_000);
    let seconds = time(1, || {
        for _ in 0..steps {
            at = black_box(&ring)[at as usize];
        }
    });
    seconds / steps as f64 * 1e9
}

/// The cache's size in kilobytes, where the machine says it.
fn size() -> Option<usize> {
    std::fs::read_to_string("/sys/devices/system/cpu/cpu0/cache/index0/size").ok()?.trim().strip_suffix('K')?.parse().ok()
}

/// Whether steps within five sixths of the cache take about as long as those within a quarter of it.
fn is_ours(all: usize) -> bool {
    step(all * 5 / 6) < 1.3 * step(all / 4)
}

/// Measurements, those that were never alone, and milliseconds waited.
static MEASURED: AtomicU32 = AtomicU32::new(0);
static SHARED: AtomicU32 = AtomicU32::new(0);
static WAITED: AtomicU32 = AtomicU32::new(0);

/// Waits until the cache is this program's own: at most two seconds, and two minutes in all. Whether it is.
fn wait(all: usize) -> bool {
    for _ in 0..100 {
        if is_ours(all) {
            return true;
        }
        if WAITED.fetch_add(20, Relaxed) >= 120_000 {
            return false;
        }
        sleep(Duration::from_millis(20));
    }
    false
}

/// A measurement before and after which the cache is this program's own; the last of five where there is none.
pub fn alone<T>(mut measure: impl FnMut() -> T) -> T {
    let Some(all) = size() else { return measure() };
    MEASURED.fetch_add(1, Relaxed);
    for _ in 0..4 {
        let before = wait(all);
        let measured = measure();
        if before && is_ours(all) {
            return measured;
        }
    }
    SHARED.fetch_add(1, Relaxed);
    measure()
}

/// How often that was not to be had.
pub fn print() {
    let (measured, shared, waited) = (MEASURED.load(Relaxed), SHARED.load(Relaxed), WAITED.load(Relaxed) / 1000);
    if measured > 0 {
        println!(
            "\nPart of the first-level data cache was another's before or after {shared} of {measured} measurements; {waited} s were waited."
        );
    }
}

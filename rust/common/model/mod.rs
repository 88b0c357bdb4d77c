//! Document 01's calls, read apart from the proved code: slow and plain, over any words, any header, any lengths. Changes are done on
//! the forest as chains of slots, and the links are then written from it. What sound is, `paper` says.

// Not every program here uses all of it.
#![allow(dead_code, unused_imports)]

mod batch;
mod changes;
mod forest;
mod image;
mod lists;
mod walk;

pub use batch::{batch, command};
pub use changes::*;
pub use image::{load, save};
pub use lists::*;
pub use walk::{walk, walk_start};

use crate::paper;

pub const FRAME: u32 = 1;
pub const INVALID: u32 = 3;
pub const REMOVED: u32 = 4;
pub const SELF: u32 = 5;
pub const ANCESTOR: u32 = 6;
pub const FULL: u32 = 7;
pub const ROOM: u32 = 8;
pub const COMMAND: u32 = 9;
pub const PART: u32 = 10;
pub const MARK: u32 = 11;
pub const VERSION: u32 = 12;
pub const LENGTH: u32 = 13;

pub type Header = [u32; 3];

/// The number and the result.
pub type Answer = (u32, u32);

/// A refusal's number, or what is answered.
pub type Judged<T> = Result<T, u32>;

pub fn answer(judged: Judged<u32>) -> Answer {
    judged.map_or_else(|number| (number, 0), |result| (0, result))
}

/// FRAME and SCRATCH; then the first 2 × used scratch words are zero.
pub fn fit(words: &[u32], header: &Header, scratch: &mut [u32]) -> Judged<()> {
    match paper::unfit(words, *header, scratch.len()) {
        0 => {
            scratch[..2 * header[0] as usize].fill(0);
            Ok(())
        }
        number => Err(number),
    }
}

/// FRAME, SCRATCH, INVALID.
pub fn ready(words: &[u32], header: &Header, scratch: &mut [u32]) -> Judged<()> {
    fit(words, header, scratch)?;
    if paper::read(words, *header).ready() { Ok(()) } else { Err(INVALID) }
}

/// Slot 1 to used, low half 0 to 32,767, the slot's stamp equal to that, its kind 0.
pub fn found(words: &[u32], header: &Header, id: u32) -> bool {
    let (slot, low) = (id / 65_536, id % 65_536);
    1 <= slot && slot <= header[0] && low <= 32_767 && words[(slot as usize - 1) * 7] == low
}

fn named(words: &[u32], header: &Header, id: u32) -> Judged<u32> {
    if found(words, header, id) { Ok(id / 65_536) } else { Err(REMOVED) }
}

fn framed(words: &[u32], header: &Header) -> Judged<()> {
    if header[0] as usize > paper::capacity(words) { Err(FRAME) } else { Ok(()) }
}

/// Word k of the named node: get and the five links.
pub fn read(words: &[u32], header: &Header, id: u32, k: usize) -> Answer {
    answer(framed(words, header).and_then(|()| named(words, header, id)).map(|slot| words[(slot as usize - 1) * 7 + k]))
}

pub fn set(words: &mut [u32], header: &Header, id: u32, number: u32) -> Answer {
    answer(framed(words, header).and_then(|()| named(words, header, id)).map(|slot| {
        words[(slot as usize - 1) * 7 + 1] = number;
        0
    }))
}

pub fn validate(words: &[u32], header: &Header, scratch: &mut [u32]) -> Answer {
    answer(fit(words, header, scratch).map(|()| u32::from(paper::read(words, *header).sound())))
}

fn stamps(words: &[u32], header: &Header) -> impl Iterator<Item = u32> {
    words.chunks_exact(7).take(header[0] as usize).map(|slot| slot[0] % 65_536)
}

pub fn live_count(words: &[u32], header: &Header, scratch: &mut [u32]) -> Answer {
    answer(ready(words, header, scratch).map(|()| stamps(words, header).filter(|&s| s < 32_768).count() as u32))
}

/// Live; removed with a stamp above −32,768; spent; fresh.
pub fn census(words: &[u32], header: &Header, scratch: &mut [u32]) -> (u32, [u32; 4]) {
    if let Err(number) = ready(words, header, scratch) {
        return (number, [0; 4]);
    }
    let count = |test: &dyn Fn(u32) -> bool| stamps(words, header).filter(|&s| test(s)).count() as u32;
    let fresh = paper::capacity(words) as u32 - header[0];
    (0, [count(&|s| s < 32_768), count(&|s| s > 32_768), count(&|s| s == 32_768), fresh])
}
